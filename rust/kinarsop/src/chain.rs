//! The chain of relative orders.

/// The stages of the candidates and then of the unit rows, each over the space of the rows before it.
#[derive(Debug, Clone, PartialEq, Eq, Hash)]
pub struct Chain {
    /// The relative order of each row that was not in the space yet, with its leading 1.
    pub stages: Vec<Vec<u8>>,
    /// The product of the stages. Its degree is n, and the minimal polynomial of M divides it.
    pub product: Vec<u8>,
}

/// The stages as the face writes them: of each its degree, then that many coefficients, without the leading 1.
pub(crate) fn read_stages(count: usize, mut written: &[u8]) -> Vec<Vec<u8>> {
    let mut stages = vec![];
    for _ in 0..count {
        let (degree, behind) = written.split_at(1);
        let (below, behind) = behind.split_at(degree[0].into());
        stages.push([below, &[1]].concat());
        written = behind;
    }
    stages
}

#[cfg(test)]
mod tests {
    use super::read_stages;

    #[test]
    fn stages() {
        let written = [2, 5, 0, 1, 4, 1, 6, 0, 0, 0];
        let expected = [vec![5, 0, 1], vec![4, 1], vec![6, 1]];
        assert_eq!(read_stages(3, &written), expected);
        assert!(read_stages(0, &written).is_empty());
    }
}
