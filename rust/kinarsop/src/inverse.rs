//! The inverse.
use crate::face::NO_INVERSE;

/// The inverse as the face gives it. The library never gives 0. An older one gave it for the scalar 0, and nobody is to scale by that.
pub(crate) fn read_inverse(number: u8) -> Option<u8> {
    match number {
        NO_INVERSE => None,
        0 => panic!(
            "libkinarsop.a gave the inverse 0, which it cannot give: \
             it is not the library that this crate is for"
        ),
        inverse => Some(inverse),
    }
}

#[cfg(test)]
mod tests {
    use super::read_inverse;

    #[test]
    fn every_number_but_two_is_an_inverse() {
        assert!((1..255).all(|number| read_inverse(number) == Some(number)));
        assert_eq!(read_inverse(255), None);
    }

    #[test]
    #[should_panic(expected = "gave the inverse 0")]
    fn zero_is_no_inverse() {
        read_inverse(0);
    }
}
