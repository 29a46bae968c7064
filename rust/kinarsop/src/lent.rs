//! What was lent to a call, to say what a bad entry is, or an allowance that no case can state.
use crate::{Refusal, MOST_STATED};

/// The numbers and the lists that a refusal can be about. What a call does not take is 0, empty or nothing.
#[derive(Default)]
pub(crate) struct Lent<'a> {
    pub(crate) p: u32,
    pub(crate) n: usize,
    pub(crate) matrix: &'a [u8],
    pub(crate) row: &'a [u8],
    pub(crate) candidates: &'a [u8],
    pub(crate) polynomial: &'a [u8],
    pub(crate) scalar: Option<u32>,
    /// The allowance of a call that writes it.
    pub(crate) stated: Option<u32>,
}

impl<'a> Lent<'a> {
    pub(crate) fn machine(p: u32, n: usize, matrix: &'a [u8]) -> Self {
        Lent {
            p,
            n,
            matrix,
            ..Lent::default()
        }
    }
}

// The refusals of a bad entry, each by its row and column, counted from 1; nothing where no such entry is lent, or where it is below p.
impl Lent<'_> {
    pub(crate) fn matrix_entry(&self, row: usize, column: usize) -> Option<Refusal> {
        let found = self.bad_in_rows(self.matrix, row, column)?;
        Some(Refusal::MatrixEntry {
            row,
            column,
            found,
            p: self.p,
        })
    }

    pub(crate) fn row_entry(&self, row: usize, column: usize) -> Option<Refusal> {
        let found = self.bad_in_rows(self.row, row, column)?;
        Some(Refusal::RowEntry {
            column,
            found,
            p: self.p,
        })
    }

    pub(crate) fn candidate_entry(&self, row: usize, column: usize) -> Option<Refusal> {
        let found = self.bad_in_rows(self.candidates, row, column)?;
        Some(Refusal::CandidateEntry {
            candidate: row,
            column,
            found,
            p: self.p,
        })
    }

    pub(crate) fn coefficient(&self, row: usize, column: usize) -> Option<Refusal> {
        let found = self.bad(self.polynomial, column)?;
        (row == 0).then_some(Refusal::Coefficient {
            place: column,
            found,
            p: self.p,
        })
    }

    pub(crate) fn scalar(&self, row: usize, column: usize) -> Option<Refusal> {
        let found = self.scalar.filter(|&a| self.p <= a)?;
        ((row, column) == (0, 1)).then_some(Refusal::Scalar { found, p: self.p })
    }

    /// The refusal of an allowance; nothing where none is to be written, or where it can be.
    pub(crate) fn allowance(&self) -> Option<Refusal> {
        let found = self.stated.filter(|&a| MOST_STATED < a)?;
        Some(Refusal::Allowance { found })
    }

    fn bad_in_rows(&self, rows: &[u8], row: usize, column: usize) -> Option<u8> {
        let n = (0 < self.n).then_some(self.n)?;
        let entries = rows.chunks(n).nth(row.checked_sub(1)?)?;
        self.bad(entries, column)
    }

    fn bad(&self, entries: &[u8], column: usize) -> Option<u8> {
        let found = *entries.get(column.checked_sub(1)?)?;
        (self.p <= found.into()).then_some(found)
    }
}
