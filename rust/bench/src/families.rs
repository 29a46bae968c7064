//! The machines that the benchmark goes through: each family once for every p and n where it exists, in its own basis and in a random one.
use independent::naive::{companion, identity, inverse, multiply, opposite, Matrix, Poly};
use independent::numbers::Numbers;

pub struct Family {
    pub name: &'static str,
    make: fn(&mut Numbers, u64, usize) -> Option<Matrix>,
}

impl Family {
    /// The family's machine in its own basis, or nothing where it does not exist. It is the same in every run, whatever else is made.
    pub fn machine(&self, p: u64, n: usize) -> Option<Matrix> {
        (self.make)(&mut Numbers(p * 1_000 + n as u64), p, n)
    }
}

/// Sizes that depend on n are named by what they are at n = 64; for smaller machines they shrink with n.
pub const FAMILIES: &[Family] = &[
    Family {
        name: "dense",
        make: |numbers, p, n| Some(numbers.matrix(p, n)),
    },
    Family {
        name: "companion",
        make: |numbers, p, n| Some(companion(&numbers.row(p, n))),
    },
    Family {
        name: "companion transposed",
        make: |numbers, p, n| Some(transposed(&companion(&numbers.row(p, n)))),
    },
    Family {
        name: "copies of a block of 4",
        make: |numbers, p, n| copies(numbers, p, n, 4),
    },
    Family {
        name: "copies of a block of 8",
        make: |numbers, p, n| copies(numbers, p, n, 8),
    },
    Family {
        name: "copies of a block of 16",
        make: |numbers, p, n| copies(numbers, p, n, 16),
    },
    Family {
        name: "diagonal, 64 values",
        make: |numbers, p, n| diagonal(numbers, p, n, n),
    },
    Family {
        name: "diagonal, 32 values",
        make: |numbers, p, n| diagonal(numbers, p, n, n / 2),
    },
    Family {
        name: "diagonal, 2 values",
        make: |numbers, p, n| diagonal(numbers, p, n, 2),
    },
    Family {
        name: "Jordan block of 32 beside ones",
        make: |_, _, n| Some(jordan(n)),
    },
    Family {
        name: "Jordan block of 32 transposed",
        make: |_, _, n| Some(transposed(&jordan(n))),
    },
    Family {
        name: "squares of linear factors",
        make: |_, p, n| Some(squares(p, n)),
    },
    Family {
        name: "powers of an irreducible of degree 3",
        make: |numbers, p, n| Some(cubic_powers(numbers, p, n)),
    },
    Family {
        name: "permutation of order 12",
        make: |_, _, n| Some(permutation(n)),
    },
    Family {
        name: "three registers of degree 17",
        make: |numbers, p, n| Some(registers(numbers, p, n)),
    },
    Family {
        name: "nilpotent",
        make: |numbers, p, n| Some(nilpotent(numbers, p, n)),
    },
    Family {
        name: "nilpotent transposed",
        make: |numbers, p, n| Some(transposed(&nilpotent(numbers, p, n))),
    },
    Family {
        name: "companion 56 + 8",
        make: |numbers, p, n| Some(two_companions(numbers, p, n)),
    },
    Family {
        name: "back after 65,535 ticks",
        make: |_, p, n| late_return(p, n),
    },
    Family {
        name: "built against the test",
        make: |numbers, p, n| Some(against(numbers, p, n)),
    },
];

fn transposed(m: &Matrix) -> Matrix {
    (0..m.len())
        .map(|j| m.iter().map(|row| row[j]).collect())
        .collect()
}

/// The blocks on the diagonal, and ones on what they leave.
fn blocks(n: usize, list: &[Matrix]) -> Matrix {
    let mut m = identity(n);
    let mut at = 0;
    for block in list {
        for (i, row) in block.iter().enumerate() {
            m[at + i][at..at + row.len()].copy_from_slice(row);
        }
        at += block.len();
    }
    m
}

/// Two copies at least.
fn copies(numbers: &mut Numbers, p: u64, n: usize, size: usize) -> Option<Matrix> {
    if !n.is_multiple_of(size) || n == size {
        return None;
    }
    let block = companion(&numbers.row(p, size));
    Some(blocks(n, &vec![block; n / size]))
}

/// So many different values, each equally often. Both the values and their places are mixed.
fn diagonal(numbers: &mut Numbers, p: u64, n: usize, count: usize) -> Option<Matrix> {
    if p < count as u64 {
        return None;
    }
    let mut values: Vec<u64> = (0..p).collect();
    mix(numbers, &mut values);
    let mut places: Vec<usize> = (0..n).collect();
    mix(numbers, &mut places);
    let mut m = vec![vec![0; n]; n];
    for (k, i) in places.into_iter().enumerate() {
        m[i][i] = values[k % count];
    }
    Some(m)
}

fn mix<T>(numbers: &mut Numbers, list: &mut [T]) {
    for i in (1..list.len()).rev() {
        list.swap(i, numbers.place(i + 1));
    }
}

/// The Jordan block of a value.
fn jordan_block(size: usize, value: u64) -> Matrix {
    let mut m = vec![vec![0; size]; size];
    for i in 0..size {
        m[i][i] = value;
        if i + 1 < size {
            m[i][i + 1] = 1;
        }
    }
    m
}

fn jordan(n: usize) -> Matrix {
    blocks(n, &[jordan_block(n / 2, 1)])
}

/// Jordan blocks of two rows for as many values as there are, one value after the other.
fn squares(p: u64, n: usize) -> Matrix {
    let list: Vec<Matrix> = (0..n as u64 / 2).map(|k| jordan_block(2, k % p)).collect();
    blocks(n, &list)
}

/// The companion matrix of a monic polynomial.
fn register(p: u64, f: &[u64]) -> Matrix {
    let degree = f.len() - 1;
    let last: Vec<u64> = f[..degree].iter().map(|&x| opposite(p, x)).collect();
    companion(&last)
}

/// A polynomial of degree 3 is irreducible where it has no root.
fn cubic(numbers: &mut Numbers, p: u64) -> Poly {
    loop {
        let [a, b, c] = [(); 3].map(|()| numbers.below(p));
        let value = |x: u64| (a + x * (b + x * (c + x))) % p;
        if (0..p).all(|x| value(x) != 0) {
            return vec![a, b, c, 1];
        }
    }
}

/// The blocks of q, q^2, q^3 and so on as far as there is room, and of q on what they leave.
fn cubic_powers(numbers: &mut Numbers, p: u64, n: usize) -> Matrix {
    let q = cubic(numbers, p);
    let mut list = vec![];
    let mut power = q.clone();
    let mut room = n;
    while power.len() <= room + 1 {
        room -= power.len() - 1;
        list.push(register(p, &power));
        power = multiply(p, &power, &q);
    }
    list.extend((0..room / 3).map(|_| register(p, &q)));
    blocks(n, &list)
}

/// Cycles of 4 and 3 rows in turn, as far as there is room.
fn permutation(n: usize) -> Matrix {
    let cycle = |size: usize| {
        let mut last = vec![0; size];
        last[0] = 1;
        companion(&last)
    };
    let pairs = vec![[cycle(4), cycle(3)]; n / 7];
    blocks(n, &pairs.concat())
}

/// Of degree 17 at n = 64, where the other 13 rows stay what they are.
fn registers(numbers: &mut Numbers, p: u64, n: usize) -> Matrix {
    let mut one = || {
        let mut last = numbers.row(p, n / 4 + 1);
        last[0] = 1 + numbers.below(p - 1);
        companion(&last)
    };
    let list = [one(), one(), one()];
    blocks(n, &list)
}

/// Nonzero above the diagonal alone.
fn nilpotent(numbers: &mut Numbers, p: u64, n: usize) -> Matrix {
    let mut m = vec![vec![0; n]; n];
    for (i, row) in m.iter_mut().enumerate() {
        for x in &mut row[i + 1..] {
            *x = numbers.below(p);
        }
    }
    m
}

fn two_companions(numbers: &mut Numbers, p: u64, n: usize) -> Matrix {
    let small = n / 8;
    let list = [n - small, small].map(|size| companion(&numbers.row(p, size)));
    blocks(n, &list)
}

/// The first unit row is back after 65,535 ticks, and differs from what it was in the last 16 places alone. The block is that of
/// x^16 + x^12 + x^3 + x + 1, modulo 2.
fn late_return(p: u64, n: usize) -> Option<Matrix> {
    if p != 2 || n <= 16 {
        return None;
    }
    let at = n - 16;
    let last: Vec<u64> = (0..16).map(|i| [0, 1, 3, 12].contains(&i).into()).collect();
    let mut m = blocks(n, &[identity(at), companion(&last)]);
    m[0][at] = 1;
    Some(m)
}

/// Half of the machine is a register whose polynomial has the square of x - 1; in the other half each row stays what it is, those of the last quarter
/// with random rows of the third beside them, and all have a random part in the register. So a quarter and more of the unit rows bring stages of one
/// row, with relations that reach back over most slots, and each is tested by a polynomial of degree n / 2.
fn against(numbers: &mut Numbers, p: u64, n: usize) -> Matrix {
    let (half, late) = (n / 2, n - n / 4);
    let linear = [opposite(p, 1), 1];
    let mut rest = numbers.row(p, half - 2);
    rest.push(1);
    let f = multiply(p, &rest, &multiply(p, &linear, &linear));
    let mut m = blocks(n, &[register(p, &f)]);
    for row in &mut m[late..] {
        row[half..late].copy_from_slice(&numbers.row(p, late - half));
    }
    for i in half..n {
        for j in 0..half {
            let k = numbers.below(p);
            shear(p, &mut m, i, j, k);
        }
    }
    m
}

/// The machine in a random basis: T·M·T⁻¹, where T is a product of elementary steps, one for each pair of rows, and of one scaling a row.
pub fn elsewhere(numbers: &mut Numbers, p: u64, m: &Matrix) -> Matrix {
    let n = m.len();
    let mut m = m.clone();
    for i in 0..n {
        for j in 0..n {
            let k = numbers.below(p);
            if i != j {
                shear(p, &mut m, i, j, k);
            }
        }
        let k = 1 + numbers.below(p - 1);
        stretch(p, &mut m, i, k);
    }
    m
}

/// k times row j is added to row i, and what undoes it is done to the columns.
fn shear(p: u64, m: &mut Matrix, i: usize, j: usize, k: u64) {
    let added = m[j].clone();
    for (x, y) in m[i].iter_mut().zip(added) {
        *x = (*x + k * y) % p;
    }
    let back = opposite(p, k);
    for row in m.iter_mut() {
        row[j] = (row[j] + back * row[i]) % p;
    }
}

/// Row i is multiplied by k, which is not 0 modulo p, and column i by its inverse.
fn stretch(p: u64, m: &mut Matrix, i: usize, k: u64) {
    m[i].iter_mut().for_each(|x| *x = *x * k % p);
    let back = inverse(p, k).expect("the factor is not zero");
    m.iter_mut().for_each(|row| row[i] = row[i] * back % p);
}

#[cfg(test)]
mod tests {
    use super::*;
    use independent::naive::{minimal_polynomial, period};

    #[test]
    fn every_family_is_a_matrix_modulo_p() {
        for family in FAMILIES {
            for (p, n) in [(2, 16), (2, 64), (3, 32), (17, 32), (251, 64)] {
                let Some(m) = family.machine(p, n) else {
                    continue;
                };
                assert_eq!(m.len(), n, "{}", family.name);
                assert!(m.iter().all(|row| row.len() == n), "{}", family.name);
                assert!(m.concat().iter().all(|&x| x < p), "{}", family.name);
            }
        }
    }

    #[test]
    fn a_basis_changes_no_minimal_polynomial() {
        let mut numbers = Numbers(1);
        for family in FAMILIES {
            for (p, n) in [(2, 16), (17, 16)] {
                let Some(m) = family.machine(p, n) else {
                    continue;
                };
                let other = elsewhere(&mut numbers, p, &m);
                assert_ne!(m, other, "{}", family.name);
                let same = minimal_polynomial(p, &m) == minimal_polynomial(p, &other);
                assert!(same, "{}", family.name);
            }
        }
    }

    #[test]
    fn periods() {
        assert_eq!(period(2, &late_return(2, 32).unwrap()), Some(65_535));
        assert_eq!(period(3, &permutation(16)), Some(12));
    }

    #[test]
    fn degrees() {
        let mut numbers = Numbers(1);
        let degree = |p: u64, m: &Matrix| minimal_polynomial(p, m).len() - 1;
        assert_eq!(degree(17, &copies(&mut numbers, 17, 16, 4).unwrap()), 4);
        assert_eq!(degree(17, &diagonal(&mut numbers, 17, 16, 8).unwrap()), 8);
        assert_eq!(degree(17, &jordan(16)), 8);
        assert_eq!(degree(3, &squares(3, 16)), 6);
        // q and q^2, and a one
        assert_eq!(degree(3, &cubic_powers(&mut numbers, 3, 16)), 7);
    }
}
