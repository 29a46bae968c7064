//! The refusals.
use crate::face::RefusalAnswer;
use crate::lent::Lent;
use crate::{FULL_ALLOWANCE, MOST_STATED};
use std::error::Error;
use std::fmt;

/// Why a call is refused. Where several reasons apply it is the first of them, in the sequence of the variants.
///
/// [`number`](Refusal::number) gives the number that the library's documents use. One of their numbers is not here: 6, a result buffer that is too
/// short, since this crate always lends what is enough.
///
/// ```
/// use kinarsop::Refusal;
///
/// let refusal = kinarsop::period(4, 2, &[1, 0, 0, 1]).unwrap_err();
/// assert_eq!(refusal, Refusal::Prime);
/// assert_eq!(refusal.number(), 1);
/// assert_eq!(
///     refusal.to_string(),
///     "p is not a prime from 2 to 251: give a prime, other moduli are not covered"
/// );
/// ```
///
/// Of the entries and coefficients that are p or more the first in reading order is told: where it is, what it is, and p.
///
/// ```
/// use kinarsop::Refusal;
///
/// let refusal = kinarsop::period(7, 3, &[0, 1, 0, 0, 0, 9, 1, 8, 0]).unwrap_err();
/// assert_eq!(refusal, Refusal::MatrixEntry { row: 2, column: 3, found: 9, p: 7 });
/// assert_eq!(refusal.number(), 5);
/// assert_eq!(
///     refusal.to_string(),
///     "the entry in row 2, column 3 of the matrix is 9: with p = 7 it may be 0 to 6; take it modulo p"
/// );
/// ```
#[derive(Debug, Clone, Copy, PartialEq, Eq, Hash)]
pub enum Refusal {
    /// Number 1: p is not a prime from 2 to 251.
    Prime,
    /// Number 2: n is not 1 to 64.
    Size,
    /// Number 3: the matrix has not n·n bytes.
    Matrix,
    /// Number 4: the row has not n bytes; or the candidates are no whole number of rows of n bytes, or over 128 of them.
    Rows,
    /// Number 7: the polynomial of an image has no coefficient, or over 65.
    Polynomial,
    /// Number 5: an entry of the matrix is p or more.
    MatrixEntry {
        /// Its row, counted from 1.
        row: usize,
        /// Its column, counted from 1.
        column: usize,
        /// The entry.
        found: u8,
        /// The modulus of the call.
        p: u32,
    },
    /// Number 10, of a call that takes one row: an entry of the row is p or more.
    RowEntry {
        /// Its column, counted from 1.
        column: usize,
        /// The entry.
        found: u8,
        /// The modulus of the call.
        p: u32,
    },
    /// Number 10, of a call that takes candidates: an entry of a candidate is p or more, whether the allowance reaches the candidate or not.
    CandidateEntry {
        /// Which candidate of the list, counted from 1.
        candidate: usize,
        /// Its column, counted from 1.
        column: usize,
        /// The entry.
        found: u8,
        /// The modulus of the call.
        p: u32,
    },
    /// Number 11, of an image: a coefficient is p or more.
    Coefficient {
        /// Its place, that of the lowest coefficient being 1.
        place: usize,
        /// The coefficient.
        found: u8,
        /// The modulus of the call.
        p: u32,
    },
    /// Number 11, of an inverse: the scalar is p or more.
    Scalar {
        /// The scalar.
        found: u32,
        /// The modulus of the call.
        p: u32,
    },
    /// Number 9, of a case that is to be written: the allowance is over
    /// [`MOST_STATED`](crate::MOST_STATED).
    Allowance {
        /// The allowance.
        found: u32,
    },
    /// Number 8: the file is no case.
    File {
        /// The first offset, counted from 0, at which the bytes can no longer be the beginning of a case. It is the file's length where the file is
        /// cut off.
        place: usize,
    },
}

impl Refusal {
    /// The number that the library's documents give this refusal.
    ///
    /// ```
    /// assert_eq!(kinarsop::Refusal::File { place: 10 }.number(), 8);
    /// ```
    pub fn number(&self) -> u8 {
        match self {
            Refusal::Prime => 1,
            Refusal::Size => 2,
            Refusal::Matrix => 3,
            Refusal::Rows => 4,
            Refusal::Polynomial => 7,
            Refusal::MatrixEntry { .. } => 5,
            Refusal::RowEntry { .. } | Refusal::CandidateEntry { .. } => 10,
            Refusal::Coefficient { .. } | Refusal::Scalar { .. } => 11,
            Refusal::Allowance { .. } => 9,
            Refusal::File { .. } => 8,
        }
    }

    /// The row and the column that the library's documents give a bad entry, counted from 1: one row is row 1, a candidate the row of its number in the
    /// list, and a coefficient has row 0 and its place, as the scalar has row 0 and column 1. Other refusals have none.
    ///
    /// ```
    /// let refusal = kinarsop::stand(7, 2, &[0, 1, 1, 0], &[1, 0, 0, 7], 9).unwrap_err();
    /// assert_eq!(refusal.row_and_column(), Some((2, 2)));
    /// assert_eq!(kinarsop::Refusal::Prime.row_and_column(), None);
    /// ```
    pub fn row_and_column(&self) -> Option<(usize, usize)> {
        match *self {
            Refusal::MatrixEntry { row, column, .. } => Some((row, column)),
            Refusal::RowEntry { column, .. } => Some((1, column)),
            Refusal::CandidateEntry {
                candidate, column, ..
            } => Some((candidate, column)),
            Refusal::Coefficient { place, .. } => Some((0, place)),
            Refusal::Scalar { .. } => Some((0, 1)),
            _ => None,
        }
    }

    /// What the refusal in an answer of the face says of what was lent; number 0 is an answered call. The library cannot give 6, since enough room is
    /// lent, nor 8, since it answers a file that is no case with a text; nor a place beside a number that is about no entry, nor one where no bad
    /// entry is, nor 9 where the allowance can be stated: another library is linked, and its
    /// answers are worth nothing.
    pub(crate) fn read(told: RefusalAnswer, lent: &Lent) -> Result<(), Refusal> {
        let RefusalAnswer {
            number,
            row,
            column,
        } = told;
        let refusal = match (number, row, column) {
            (0, 0, 0) => return Ok(()),
            (1, 0, 0) => Some(Refusal::Prime),
            (2, 0, 0) => Some(Refusal::Size),
            (3, 0, 0) => Some(Refusal::Matrix),
            (4, 0, 0) => Some(Refusal::Rows),
            (7, 0, 0) => Some(Refusal::Polynomial),
            (5, ..) => lent.matrix_entry(row, column),
            (10, ..) => lent
                .row_entry(row, column)
                .or_else(|| lent.candidate_entry(row, column)),
            (11, ..) => lent
                .coefficient(row, column)
                .or_else(|| lent.scalar(row, column)),
            (9, 0, 0) => lent.allowance(),
            _ => None,
        };
        Err(refusal.unwrap_or_else(|| {
            panic!(
                "libkinarsop.a gave refusal {number}, row {row}, column {column}, which it cannot \
                 give here: it is not the library that this crate is for"
            )
        }))
    }
}

/// What was found in the place of an entry, a coefficient or a scalar, what is allowed there, and what to do.
fn write_found(f: &mut fmt::Formatter<'_>, found: u32, p: u32) -> fmt::Result {
    let most = p.saturating_sub(1);
    write!(
        f,
        " is {found}: with p = {p} it may be 0 to {most}; take it modulo p"
    )
}

impl fmt::Display for Refusal {
    fn fmt(&self, f: &mut fmt::Formatter<'_>) -> fmt::Result {
        match *self {
            Refusal::Prime => f.write_str(
                "p is not a prime from 2 to 251: give a prime, other moduli are not covered",
            ),
            Refusal::Size => f.write_str(
                "n is not 1 to 64: give the number of rows, larger machines are not covered",
            ),
            Refusal::Matrix => f.write_str(
                "the matrix has not n·n bytes: lend its rows one after another, a byte an entry",
            ),
            Refusal::Rows => f.write_str(
                "the row has not n bytes, or the candidates are no whole rows or over 128: \
                 lend n bytes a row, and at most 128 rows",
            ),
            Refusal::Polynomial => f.write_str(
                "the polynomial has no coefficient or over 65: zero is the one byte 0; \
                 of a longer one take the rest modulo the minimal polynomial",
            ),
            Refusal::MatrixEntry {
                row,
                column,
                found,
                p,
            } => {
                write!(f, "the entry in row {row}, column {column} of the matrix")?;
                write_found(f, found.into(), p)
            }
            Refusal::RowEntry { column, found, p } => {
                write!(f, "the entry in column {column} of the row")?;
                write_found(f, found.into(), p)
            }
            Refusal::CandidateEntry {
                candidate,
                column,
                found,
                p,
            } => {
                write!(f, "the entry in candidate {candidate}, column {column}")?;
                write_found(f, found.into(), p)
            }
            Refusal::Coefficient { place, found, p } => {
                let power = place.saturating_sub(1);
                write!(f, "coefficient {place} (of x^{power})")?;
                write_found(f, found.into(), p)
            }
            Refusal::Scalar { found, p } => {
                f.write_str("the scalar")?;
                write_found(f, found, p)
            }
            Refusal::Allowance { found } => write!(
                f,
                "the allowance is {found}: a case file can state 0 to {MOST_STATED}; \
                 {FULL_ALLOWANCE} pays for every list"
            ),
            Refusal::File { place } => write!(
                f,
                "the file stops being a case at offset {place}: \
                 look at the byte there, or for what is missing if the file ends there"
            ),
        }
    }
}

impl Error for Refusal {}

#[cfg(test)]
mod tests {
    use super::*;
    use std::panic::catch_unwind;

    /// A matrix, candidates and a polynomial, each with one bad entry, and an allowance that no
    /// case can state.
    const LENT: Lent = Lent {
        p: 5,
        n: 2,
        matrix: &[4, 4, 5, 4],
        row: &[],
        candidates: &[4, 4, 4, 4, 4, 6],
        polynomial: &[4, 4, 255],
        scalar: None,
        stated: Some(MOST_STATED + 1),
    };

    fn read(number: u8, row: usize, column: usize, lent: &Lent) -> Result<(), Refusal> {
        let told = RefusalAnswer {
            number,
            row,
            column,
        };
        Refusal::read(told, lent)
    }

    #[test]
    fn numbers_are_read_back() {
        assert_eq!(read(0, 0, 0, &LENT), Ok(()));
        for number in [1, 2, 3, 4, 7, 9] {
            let refusal = read(number, 0, 0, &LENT).unwrap_err();
            assert_eq!(refusal.number(), number);
            assert_eq!(refusal.row_and_column(), None);
        }
    }

    #[test]
    fn places_are_read_back() {
        let one = Lent {
            p: 5,
            n: 2,
            row: &[4, 9],
            ..Lent::default()
        };
        let scalar = Lent {
            p: 5,
            scalar: Some(1_000),
            ..Lent::default()
        };
        for (number, row, column, lent) in [
            (5, 2, 1, &LENT),
            (10, 3, 2, &LENT),
            (10, 1, 2, &one),
            (11, 0, 3, &LENT),
            (11, 0, 1, &scalar),
        ] {
            let refusal = read(number, row, column, lent).unwrap_err();
            assert_eq!(refusal.number(), number);
            assert_eq!(refusal.row_and_column(), Some((row, column)));
        }
        let expected = Refusal::RowEntry {
            column: 2,
            found: 9,
            p: 5,
        };
        assert_eq!(read(10, 1, 2, &one), Err(expected));
        let expected = Refusal::Scalar { found: 1_000, p: 5 };
        assert_eq!(read(11, 0, 1, &scalar), Err(expected));
    }

    /// A place that is none, that of an entry below p, and one beside a number that has none.
    #[test]
    fn no_other_place_is_read() {
        let columns = |number, row| (0..5).map(move |column| (number, row, column));
        let places = |number| (0..5).flat_map(move |row| columns(number, row));
        let is_read = |&(number, row, column): &(u8, usize, usize)| {
            catch_unwind(|| read(number, row, column, &LENT)).is_ok()
        };
        let taken: Vec<_> = (0..=12).flat_map(places).filter(is_read).collect();
        let expected = [
            (0, 0, 0),
            (1, 0, 0),
            (2, 0, 0),
            (3, 0, 0),
            (4, 0, 0),
            (5, 2, 1),
            (7, 0, 0),
            (9, 0, 0),
            (10, 3, 2),
            (11, 0, 3),
        ];
        assert_eq!(taken, expected);
    }

    #[test]
    fn the_allowance_is_told() {
        let expected = Refusal::Allowance { found: 16_384 };
        assert_eq!(read(9, 0, 0, &LENT), Err(expected));
    }

    /// One that can be stated, and one that a call does not write.
    #[test]
    fn no_other_allowance_is_refused() {
        for stated in [Some(MOST_STATED), Some(0), None] {
            let is_read = || read(9, 0, 0, &Lent { stated, ..LENT });
            assert!(catch_unwind(is_read).is_err(), "{stated:?}");
        }
    }

    #[test]
    #[should_panic(expected = "gave refusal 6")]
    fn room_is_always_enough() {
        let _ = read(6, 0, 0, &LENT);
    }

    #[test]
    #[should_panic(expected = "gave refusal 8")]
    fn a_file_is_answered_by_a_text() {
        let _ = read(8, 0, 0, &LENT);
    }
}
