//! Kinarsop analyses the machine inside a signal generator: a state row that is multiplied at every tick by an n×n matrix M over the integers modulo
//! a small prime p. This crate is the safe Rust over the library: slices in, owned values out. The library is written in Rattle, and every function
//! of it is proved to meet its contract for every input; of this crate, which only carries the values over, nothing is proved.
//!
//! ```
//! use kinarsop::{stand, Stand, FULL_ALLOWANCE};
//!
//! // Two rows modulo 3, (0, 1) and (2, 0), and one candidate, (1, 0).
//! match stand(3, 2, &[0, 1, 2, 0], &[1, 0], FULL_ALLOWANCE) {
//!     Ok(Stand::Proved { minimal_polynomial, .. }) => assert_eq!(minimal_polynomial, [1, 0, 1]),
//!     Ok(Stand::Short { witness, .. }) => panic!("unit row {witness} is not sent to zero"),
//!     Err(refusal) => panic!("{refusal}"),
//! }
//! ```
//!
//! # What is lent and what comes back
//!
//! - p is a prime from 2 to 251, n is 1 to 64, and an entry is one byte from 0 to p − 1.
//! - A matrix lies row after row in n·n bytes, and so do candidates, 0 to 128 rows of n bytes.
//! - Rows act from the left: the state after one tick is v·M, so row i of M is where unit row i goes.
//! - A polynomial is listed by its coefficients, from the lowest to the leading 1: `[1, 0, 1]` is 1 + x².
//!
//! Anything else is refused: see [`Refusal`], which says what is wrong, of a bad entry also where it is, and what to do. Slices may share bytes, as a
//! row of the matrix does that is lent as a candidate too. The library keeps nothing between two calls, so that several threads may call at once;
//! 256 KiB of stack are enough for each.
//!
//! # What proved and short are worth
//!
//! The polynomial of a [`Stand::Proved`] is the minimal polynomial of M and may go onto a data sheet. That of a [`Stand::Short`] is only a divisor of
//! it, another polynomial, and must not be given out as the minimal one; [`Stand`] shows how to come from short to proved.
//!
//! # Linking
//!
//! The library is the file `libkinarsop.a`, for x86-64 Linux. At the root of Kinarsop's repository
//!
//! ```text
//! ./library
//! ```
//!
//! leaves it in `target/staticlib`, where this crate looks for it. To link one that lies elsewhere, name its folder, by its whole path, in the
//! environment variable `KINARSOP_LIB` when cargo is run. Without the library, and for other processors, `cargo check` works and says in
//! a warning that nothing is linked; programs and tests then stop at the linker.
//!
//! # Panics
//!
//! No call panics with the library that it is made for. An answer that this library cannot give, such as the refusal of a buffer (number 6) where
//! enough is always lent, or of an entry that is not bad, is met with a panic: another library is linked, and nothing that it says is to be used.
#![deny(missing_docs)]
#![deny(unsafe_code)]
#![deny(unsafe_op_in_unsafe_fn)]

mod chain;
#[allow(unsafe_code)]
mod face;
mod inverse;
mod lent;
mod refusal;
mod stand;

pub use chain::Chain;
pub use refusal::Refusal;
pub use stand::Stand;

use face::{POLYNOMIAL_ROOM, ROW_ROOM, SHEET_ROOM, STAGE_ROOM};
use lent::Lent;

/// The largest p.
pub const LARGEST_PRIME: u32 = 251;

/// The largest n.
pub const LARGEST_N: usize = 64;

/// The most candidates.
pub const MOST_CANDIDATES: usize = 128;

/// An allowance that pays for every list of candidates: 128 orders of degree 64. It is that of a case file that states none.
pub const FULL_ALLOWANCE: u32 = 8_192;

/// The largest allowance that a case file can state.
pub const MOST_STATED: u32 = 16_383;

/// The bytes of the longest case file. Of a longer file one byte more is enough: with all of them the sheet is refused at the same place.
pub const LONGEST_CASE: usize = 12_682;

/// The inverse of a modulo p: the b from 1 to p − 1 with a·b = 1 modulo p. `None` says that there is no such b: a is 0.
///
/// Refused: [`Prime`](Refusal::Prime); [`Scalar`](Refusal::Scalar) where a is p or more.
///
/// ```
/// assert_eq!(kinarsop::inverse(7, 3), Ok(Some(5)));
/// assert_eq!(kinarsop::inverse(7, 0), Ok(None));
/// assert_eq!(kinarsop::inverse(9, 2), Err(kinarsop::Refusal::Prime));
/// ```
pub fn inverse(p: u32, a: u32) -> Result<Option<u8>, Refusal> {
    let answer = face::inverse(p, a);
    let lent = Lent {
        p,
        scalar: Some(a),
        ..Lent::default()
    };
    Refusal::read(answer.refusal, &lent)?;
    Ok(inverse::read_inverse(answer.inverse))
}

/// The order of a row: the monic polynomial f of least degree with v·f(M) = 0. That of the zero row is 1.
///
/// Refused: [`Prime`](Refusal::Prime), [`Size`](Refusal::Size), [`Matrix`](Refusal::Matrix), [`Rows`](Refusal::Rows),
/// [`MatrixEntry`](Refusal::MatrixEntry), [`RowEntry`](Refusal::RowEntry).
///
/// ```
/// let matrix = [1, 0, 0, 2];
/// assert_eq!(kinarsop::order(3, 2, &matrix, &[1, 0])?, [2, 1]);
/// assert_eq!(kinarsop::order(3, 2, &matrix, &[1, 1])?, [2, 0, 1]);
/// assert_eq!(kinarsop::order(3, 2, &matrix, &[0, 0])?, [1]);
/// # Ok::<(), kinarsop::Refusal>(())
/// ```
pub fn order(p: u32, n: usize, matrix: &[u8], row: &[u8]) -> Result<Vec<u8>, Refusal> {
    let mut polynomial = [0; POLYNOMIAL_ROOM];
    let answer = face::order(p, n, matrix, row, &mut polynomial);
    let lent = Lent {
        row,
        ..Lent::machine(p, n, matrix)
    };
    Refusal::read(answer.refusal, &lent)?;
    Ok(polynomial[..=answer.degree].to_vec())
}

/// The image v·f(M) of a row under a polynomial of 1 to 65 coefficients, lowest first; zeros may stand above its degree.
///
/// Refused: [`Prime`](Refusal::Prime), [`Size`](Refusal::Size), [`Matrix`](Refusal::Matrix), [`Rows`](Refusal::Rows),
/// [`Polynomial`](Refusal::Polynomial), [`MatrixEntry`](Refusal::MatrixEntry), [`RowEntry`](Refusal::RowEntry),
/// [`Coefficient`](Refusal::Coefficient).
///
/// ```
/// // x sends the row to the state after one tick, and 2 + x², which is x² − 1, sends it to zero.
/// let matrix = [1, 0, 0, 2];
/// assert_eq!(kinarsop::image(3, 2, &matrix, &[1, 1], &[0, 1])?, [1, 2]);
/// assert_eq!(kinarsop::image(3, 2, &matrix, &[1, 1], &[2, 0, 1])?, [0, 0]);
/// # Ok::<(), kinarsop::Refusal>(())
/// ```
pub fn image(
    p: u32,
    n: usize,
    matrix: &[u8],
    row: &[u8],
    polynomial: &[u8],
) -> Result<Vec<u8>, Refusal> {
    let mut image = [0; ROW_ROOM];
    let refusal = face::image(p, n, matrix, row, polynomial, &mut image);
    let lent = Lent {
        row,
        polynomial,
        ..Lent::machine(p, n, matrix)
    };
    Refusal::read(refusal, &lent)?;
    Ok(image[..n].to_vec())
}

/// The stand of M by the candidates that the allowance pays for: the least common multiple of their orders, and whether it is proved to be the minimal
/// polynomial of M or short of it.
///
/// Candidates are taken from the front of the list. Each costs as many products as the degree of its order, and the first that would go over the
/// allowance ends the list. [`FULL_ALLOWANCE`] pays for every list.
///
/// Refused: [`Prime`](Refusal::Prime), [`Size`](Refusal::Size), [`Matrix`](Refusal::Matrix), [`Rows`](Refusal::Rows),
/// [`MatrixEntry`](Refusal::MatrixEntry), [`CandidateEntry`](Refusal::CandidateEntry).
///
/// ```
/// use kinarsop::{stand, Stand};
///
/// let matrix = [1, 0, 0, 2];
/// let proved = Stand::Proved { minimal_polynomial: vec![2, 0, 1], taken: 2, spent: 2 };
/// assert_eq!(stand(3, 2, &matrix, &[1, 0, 0, 1], 9)?, proved);
///
/// let short = Stand::Short { divisor: vec![2, 1], witness: 2, image: vec![0, 1], taken: 2, spent: 2 };
/// assert_eq!(stand(3, 2, &matrix, &[1, 0, 1, 0], 9)?, short);
/// # Ok::<(), kinarsop::Refusal>(())
/// ```
pub fn stand(
    p: u32,
    n: usize,
    matrix: &[u8],
    candidates: &[u8],
    allowance: u32,
) -> Result<Stand, Refusal> {
    let mut polynomial = [0; POLYNOMIAL_ROOM];
    let mut image = [0; ROW_ROOM];
    let answer = face::stand(
        p,
        n,
        matrix,
        candidates,
        allowance,
        &mut polynomial,
        &mut image,
    );
    let lent = Lent {
        candidates,
        ..Lent::machine(p, n, matrix)
    };
    Refusal::read(answer.refusal, &lent)?;
    let polynomial = polynomial[..=answer.degree].to_vec();
    let (taken, spent) = (answer.taken, answer.spent);
    Ok(if answer.proved {
        Stand::Proved {
            minimal_polynomial: polynomial,
            taken,
            spent,
        }
    } else {
        Stand::Short {
            divisor: polynomial,
            witness: answer.witness,
            image: image[..n].to_vec(),
            taken,
            spent,
        }
    })
}

/// The chain of relative orders. The candidates and then the unit rows are looked at in sequence: a row in the space of those before it is passed over,
/// any other gives a stage, its relative order over that space, and the space grows by the row and its products with powers of M.
///
/// Refused: [`Prime`](Refusal::Prime), [`Size`](Refusal::Size), [`Matrix`](Refusal::Matrix), [`Rows`](Refusal::Rows),
/// [`MatrixEntry`](Refusal::MatrixEntry), [`CandidateEntry`](Refusal::CandidateEntry).
///
/// ```
/// let chain = kinarsop::chain(5, 2, &[1, 0, 0, 1], &[1, 0])?;
/// assert_eq!(chain.stages, [[4, 1], [4, 1]]);
/// assert_eq!(chain.product, [1, 3, 1]);
/// # Ok::<(), kinarsop::Refusal>(())
/// ```
pub fn chain(p: u32, n: usize, matrix: &[u8], candidates: &[u8]) -> Result<Chain, Refusal> {
    let mut product = [0; POLYNOMIAL_ROOM];
    let mut stages = [0; STAGE_ROOM];
    let answer = face::chain(p, n, matrix, candidates, &mut product, &mut stages);
    let lent = Lent {
        candidates,
        ..Lent::machine(p, n, matrix)
    };
    Refusal::read(answer.refusal, &lent)?;
    Ok(Chain {
        stages: chain::read_stages(answer.stages, &stages),
        product: product[..=n].to_vec(),
    })
}

/// The period: the least t from 1 to 65,536 with M to the t the identity. `None` says that there is no such t: M is singular, or comes round later.
///
/// Refused: [`Prime`](Refusal::Prime), [`Size`](Refusal::Size), [`Matrix`](Refusal::Matrix), [`MatrixEntry`](Refusal::MatrixEntry).
///
/// ```
/// assert_eq!(kinarsop::period(3, 2, &[0, 1, 2, 0]), Ok(Some(4)));
/// assert_eq!(kinarsop::period(2, 2, &[0, 1, 0, 0]), Ok(None));
/// ```
pub fn period(p: u32, n: usize, matrix: &[u8]) -> Result<Option<u32>, Refusal> {
    let answer = face::period(p, n, matrix);
    Refusal::read(answer.refusal, &Lent::machine(p, n, matrix))?;
    Ok((answer.period != 0).then_some(answer.period))
}

/// The sheet of a case file: its text, with every line ended. A line MINPOLY lists the minimal polynomial of the file's matrix, a line DIVISOR only a
/// divisor of it.
///
/// Refused: [`File`](Refusal::File) with the place where the file stops being a case.
///
/// ```
/// let mut file = *b"\xffF\x03\x02\xffR\x00\x01\xffR\x02\x00\xffC\x01\x00\xffE";
/// let lines = [
///     "FIELD 3 2",
///     "STAND proved 1 2",
///     "MINPOLY 1 0 1",
///     "WITNESS none",
///     "STAGE 1 0 1",
///     "CHAIN 1 0 1",
///     "PERIOD 4",
/// ];
/// assert!(kinarsop::sheet(&file)?.lines().eq(lines));
///
/// file[10] = 3;
/// assert_eq!(kinarsop::sheet(&file), Err(kinarsop::Refusal::File { place: 10 }));
/// # Ok::<(), kinarsop::Refusal>(())
/// ```
pub fn sheet(file: &[u8]) -> Result<String, Refusal> {
    let mut text = [0; SHEET_ROOM];
    let answer = face::sheet(file, &mut text);
    Refusal::read(answer.refusal, &Lent::default())?;
    let text = std::str::from_utf8(&text[..answer.length]).expect("a sheet is plain text");
    match text.strip_prefix("REFUSED ") {
        None => Ok(text.to_string()),
        Some(place) => {
            let place = place.trim_end().parse();
            let place = place.expect("the place of a refused file is a number");
            Err(Refusal::File { place })
        }
    }
}

/// The case file of a machine, its candidates and an allowance, which the file always states: the
/// bytes that [`sheet`] takes. A case file that states its allowance is written as it was when its
/// values are lent, byte for byte.
///
/// Refused: [`Prime`](Refusal::Prime), [`Size`](Refusal::Size), [`Matrix`](Refusal::Matrix),
/// [`Rows`](Refusal::Rows), [`MatrixEntry`](Refusal::MatrixEntry),
/// [`CandidateEntry`](Refusal::CandidateEntry); [`Allowance`](Refusal::Allowance) where it is over
/// [`MOST_STATED`].
///
/// ```
/// use kinarsop::{sheet, write, Refusal, FULL_ALLOWANCE};
///
/// let (matrix, candidates) = ([0, 1, 2, 0], [1, 0]);
/// let file = write(3, 2, &matrix, &candidates, FULL_ALLOWANCE)?;
/// assert_eq!(file, b"\xffF\x03\x02\xffA\x40\x00\xffR\x00\x01\xffR\x02\x00\xffC\x01\x00\xffE");
/// assert!(sheet(&file)?.starts_with("FIELD 3 2\nSTAND proved 1 2\n"));
///
/// let refused = write(3, 2, &matrix, &candidates, 16_384);
/// assert_eq!(refused, Err(Refusal::Allowance { found: 16_384 }));
/// # Ok::<(), Refusal>(())
/// ```
pub fn write(
    p: u32,
    n: usize,
    matrix: &[u8],
    candidates: &[u8],
    allowance: u32,
) -> Result<Vec<u8>, Refusal> {
    let mut file = [0; LONGEST_CASE];
    let answer = face::write(p, n, matrix, candidates, allowance, &mut file);
    let lent = Lent {
        candidates,
        stated: Some(allowance),
        ..Lent::machine(p, n, matrix)
    };
    Refusal::read(answer.refusal, &lent)?;
    Ok(file[..answer.length].to_vec())
}
