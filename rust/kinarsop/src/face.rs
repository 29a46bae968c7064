//! The face of the library, and a safe function over each of its calls. All that is unsafe in this crate is in this file.
//!
//! The face answers every number and every length. What it asks of a caller is about memory alone, and Rust's slices give it:
//! - a pointer is good for as many bytes as the length beside it says, and those of a result may be written: a slice is just that;
//! - nothing else touches the bytes during the call: inputs are lent by `&`, results by `&mut`;
//! - a result shares no byte with any other slice of the call: what is lent by `&mut` shares with nothing.
//!
//! The library keeps no pointer and nothing between two calls.

/// Room for every polynomial: 65 coefficients.
pub(crate) const POLYNOMIAL_ROOM: usize = 65;
/// Room for every row: 64 entries.
pub(crate) const ROW_ROOM: usize = 64;
/// Room for the stages of every chain: 2 bytes a row of the matrix.
pub(crate) const STAGE_ROOM: usize = 128;
/// Room for every sheet.
pub(crate) const SHEET_ROOM: usize = 2_048;
/// What stands for no inverse, as in include/kinarsop.h: above every p, so that it is no inverse.
pub(crate) const NO_INVERSE: u8 = 255;

// What the calls return. Where a call is refused, all but the refusal is 0.

/// The number is 0 where a call is answered. Row and column are those of a bad entry; beside a number that is about none they are 0.
#[repr(C)]
pub(crate) struct RefusalAnswer {
    pub(crate) number: u8,
    pub(crate) row: usize,
    pub(crate) column: usize,
}

/// The inverse is 1 to p − 1, or the number for none.
#[repr(C)]
pub(crate) struct InverseAnswer {
    pub(crate) refusal: RefusalAnswer,
    pub(crate) inverse: u8,
}

#[repr(C)]
pub(crate) struct OrderAnswer {
    pub(crate) refusal: RefusalAnswer,
    pub(crate) degree: usize,
}

/// The witness is counted from 1, and 0 where the stand is proved.
#[repr(C)]
pub(crate) struct StandAnswer {
    pub(crate) refusal: RefusalAnswer,
    pub(crate) proved: bool,
    pub(crate) degree: usize,
    pub(crate) taken: usize,
    pub(crate) spent: u32,
    pub(crate) witness: usize,
}

#[repr(C)]
pub(crate) struct ChainAnswer {
    pub(crate) refusal: RefusalAnswer,
    pub(crate) stages: usize,
}

/// The period is 0 where there is none.
#[repr(C)]
pub(crate) struct PeriodAnswer {
    pub(crate) refusal: RefusalAnswer,
    pub(crate) period: u32,
}

#[repr(C)]
pub(crate) struct SheetAnswer {
    pub(crate) refusal: RefusalAnswer,
    pub(crate) length: usize,
}

#[repr(C)]
pub(crate) struct WriteAnswer {
    pub(crate) refusal: RefusalAnswer,
    pub(crate) length: usize,
}

// As in include/kinarsop.h.
extern "C" {
    fn kinarsop_inverse(p: u32, a: u32) -> InverseAnswer;

    fn kinarsop_order(
        p: u32,
        n: usize,
        m: *const u8,
        m_length: usize,
        v: *const u8,
        v_length: usize,
        out: *mut u8,
        out_length: usize,
    ) -> OrderAnswer;

    fn kinarsop_image(
        p: u32,
        n: usize,
        m: *const u8,
        m_length: usize,
        v: *const u8,
        v_length: usize,
        f: *const u8,
        f_length: usize,
        out: *mut u8,
        out_length: usize,
    ) -> RefusalAnswer;

    fn kinarsop_stand(
        p: u32,
        n: usize,
        m: *const u8,
        m_length: usize,
        cs: *const u8,
        cs_length: usize,
        allowance: u32,
        poly: *mut u8,
        poly_length: usize,
        image: *mut u8,
        image_length: usize,
    ) -> StandAnswer;

    fn kinarsop_chain(
        p: u32,
        n: usize,
        m: *const u8,
        m_length: usize,
        cs: *const u8,
        cs_length: usize,
        product: *mut u8,
        product_length: usize,
        stages: *mut u8,
        stages_length: usize,
    ) -> ChainAnswer;

    fn kinarsop_period(p: u32, n: usize, m: *const u8, m_length: usize) -> PeriodAnswer;

    fn kinarsop_sheet(
        file: *const u8,
        file_length: usize,
        out: *mut u8,
        out_length: usize,
    ) -> SheetAnswer;

    fn kinarsop_write(
        p: u32,
        n: usize,
        m: *const u8,
        m_length: usize,
        cs: *const u8,
        cs_length: usize,
        allowance: u32,
        out: *mut u8,
        out_length: usize,
    ) -> WriteAnswer;
}

pub(crate) fn inverse(p: u32, a: u32) -> InverseAnswer {
    // SAFETY: no memory is lent.
    unsafe { kinarsop_inverse(p, a) }
}

pub(crate) fn order(
    p: u32,
    n: usize,
    matrix: &[u8],
    row: &[u8],
    polynomial: &mut [u8],
) -> OrderAnswer {
    // SAFETY: each pointer comes with its slice's length, the slices live beyond the call, and only the one lent by `&mut`, which shares no byte with
    // another, is written.
    unsafe {
        kinarsop_order(
            p,
            n,
            matrix.as_ptr(),
            matrix.len(),
            row.as_ptr(),
            row.len(),
            polynomial.as_mut_ptr(),
            polynomial.len(),
        )
    }
}

pub(crate) fn image(
    p: u32,
    n: usize,
    matrix: &[u8],
    row: &[u8],
    polynomial: &[u8],
    image: &mut [u8],
) -> RefusalAnswer {
    // SAFETY: each pointer comes with its slice's length, the slices live beyond the call, and only the one lent by `&mut`, which shares no byte with
    // another, is written.
    unsafe {
        kinarsop_image(
            p,
            n,
            matrix.as_ptr(),
            matrix.len(),
            row.as_ptr(),
            row.len(),
            polynomial.as_ptr(),
            polynomial.len(),
            image.as_mut_ptr(),
            image.len(),
        )
    }
}

pub(crate) fn stand(
    p: u32,
    n: usize,
    matrix: &[u8],
    candidates: &[u8],
    allowance: u32,
    polynomial: &mut [u8],
    image: &mut [u8],
) -> StandAnswer {
    // SAFETY: each pointer comes with its slice's length, the slices live beyond the call, and only those lent by `&mut`, which share no byte with
    // another, are written.
    unsafe {
        kinarsop_stand(
            p,
            n,
            matrix.as_ptr(),
            matrix.len(),
            candidates.as_ptr(),
            candidates.len(),
            allowance,
            polynomial.as_mut_ptr(),
            polynomial.len(),
            image.as_mut_ptr(),
            image.len(),
        )
    }
}

pub(crate) fn chain(
    p: u32,
    n: usize,
    matrix: &[u8],
    candidates: &[u8],
    product: &mut [u8],
    stages: &mut [u8],
) -> ChainAnswer {
    // SAFETY: each pointer comes with its slice's length, the slices live beyond the call, and only those lent by `&mut`, which share no byte with
    // another, are written.
    unsafe {
        kinarsop_chain(
            p,
            n,
            matrix.as_ptr(),
            matrix.len(),
            candidates.as_ptr(),
            candidates.len(),
            product.as_mut_ptr(),
            product.len(),
            stages.as_mut_ptr(),
            stages.len(),
        )
    }
}

pub(crate) fn period(p: u32, n: usize, matrix: &[u8]) -> PeriodAnswer {
    // SAFETY: the pointer comes with its slice's length, and the slice lives beyond the call; nothing is written.
    unsafe { kinarsop_period(p, n, matrix.as_ptr(), matrix.len()) }
}

pub(crate) fn sheet(file: &[u8], text: &mut [u8]) -> SheetAnswer {
    // SAFETY: each pointer comes with its slice's length, the slices live beyond the call, and only the one lent by `&mut`, which shares no byte with
    // another, is written.
    unsafe { kinarsop_sheet(file.as_ptr(), file.len(), text.as_mut_ptr(), text.len()) }
}

pub(crate) fn write(
    p: u32,
    n: usize,
    matrix: &[u8],
    candidates: &[u8],
    allowance: u32,
    file: &mut [u8],
) -> WriteAnswer {
    // SAFETY: each pointer comes with its slice's length, the slices live beyond the call, and only
    // the one lent by `&mut`, which shares no byte with another, is written.
    unsafe {
        kinarsop_write(
            p,
            n,
            matrix.as_ptr(),
            matrix.len(),
            candidates.as_ptr(),
            candidates.len(),
            allowance,
            file.as_mut_ptr(),
            file.len(),
        )
    }
}
