//! The stand.

/// What is known of the minimal polynomial of M from the candidates that the allowance paid for.
///
/// The two standings name their polynomials differently, so that the one cannot be taken for the other. The polynomial of a proved stand may go onto
/// a data sheet as the minimal polynomial of M. That of a short one must not: it divides the minimal polynomial and is another, and M has rows that
/// it does not fit.
///
/// From short to proved: put the unit row that the witness names behind the candidates, and call again. From at most 64 candidates and with
/// [`FULL_ALLOWANCE`](crate::FULL_ALLOWANCE) or more this ends in proved after at most n − d additions, where d is the degree of the first
/// divisor.
///
/// ```
/// use kinarsop::{stand, Stand, FULL_ALLOWANCE};
///
/// let (n, matrix) = (2, [1, 0, 0, 2]);
/// let mut candidates = vec![1, 0];
/// let minimal = loop {
///     match stand(3, n, &matrix, &candidates, FULL_ALLOWANCE)? {
///         Stand::Proved { minimal_polynomial, .. } => break minimal_polynomial,
///         Stand::Short { witness, .. } => {
///             candidates.extend((1..=n).map(|place| u8::from(place == witness)));
///         }
///     }
/// };
/// assert_eq!(minimal, [2, 0, 1]);
/// assert_eq!(candidates, [1, 0, 0, 1]);
/// # Ok::<(), kinarsop::Refusal>(())
/// ```
#[derive(Debug, Clone, PartialEq, Eq, Hash)]
pub enum Stand {
    /// Every unit row is sent to zero: the polynomial is the minimal polynomial of M.
    Proved {
        /// The minimal polynomial of M.
        minimal_polynomial: Vec<u8>,
        /// The candidates taken, from the front of the list.
        taken: usize,
        /// The products spent on them, the sum of the degrees of their orders.
        spent: u32,
    },
    /// Some unit row is not sent to zero: the polynomial is another than the minimal one, and divides it.
    Short {
        /// The least common multiple of the orders of the candidates taken. It divides the minimal polynomial of M.
        divisor: Vec<u8>,
        /// The first unit row that the divisor does not send to zero, counted from 1.
        witness: usize,
        /// Where the divisor sends that unit row: n entries, not all of them 0.
        image: Vec<u8>,
        /// The candidates taken, from the front of the list.
        taken: usize,
        /// The products spent on them, the sum of the degrees of their orders.
        spent: u32,
    },
}

impl Stand {
    /// The minimal polynomial of M, where it is proved.
    ///
    /// ```
    /// let stand = kinarsop::stand(3, 2, &[0, 1, 2, 0], &[1, 0], 2)?;
    /// assert_eq!(stand.minimal_polynomial(), Some(&[1, 0, 1][..]));
    /// let stand = kinarsop::stand(3, 2, &[0, 1, 2, 0], &[1, 0], 1)?;
    /// assert_eq!(stand.minimal_polynomial(), None);
    /// # Ok::<(), kinarsop::Refusal>(())
    /// ```
    pub fn minimal_polynomial(&self) -> Option<&[u8]> {
        match self {
            Stand::Proved {
                minimal_polynomial, ..
            } => Some(minimal_polynomial),
            Stand::Short { .. } => None,
        }
    }

    /// The number of candidates taken, from the front of the list. Where it is less than the list has, the next one would have gone over the
    /// allowance.
    pub fn taken(&self) -> usize {
        match self {
            Stand::Proved { taken, .. } | Stand::Short { taken, .. } => *taken,
        }
    }

    /// The products spent on the candidates taken: the sum of the degrees of their orders, at most the allowance.
    pub fn spent(&self) -> u32 {
        match self {
            Stand::Proved { spent, .. } | Stand::Short { spent, .. } => *spent,
        }
    }
}
