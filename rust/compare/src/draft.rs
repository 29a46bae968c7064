//! A call that is made by its numbers alone: a machine of n rows, what else is read, and result buffers with some bytes in them. The numbers need
//! not be such that the call is sound.
use crate::made::{candidates, machine, stated};
use independent::calls::{Call, Name, MOST_COEFFICIENTS, WIDEST};
use independent::case::DEFAULT_ALLOWANCE;
use independent::naive::{is_prime, Matrix, Row, LARGEST_PRIME};
use independent::numbers::Numbers;

/// The numbers of a call that its slices are made by.
pub struct Draft {
    pub p: u32,
    /// Every entry is below it.
    pub below: u64,
    pub n: u64,
    /// The size by which the slices are laid out.
    pub laid: usize,
}

impl Draft {
    /// That of a sound call.
    pub fn sound(p: u64, n: usize) -> Draft {
        Draft {
            p: p as u32,
            below: p,
            n: n as u64,
            laid: n,
        }
    }

    /// Whether there are such machines.
    fn is_sound(&self) -> bool {
        is_prime(self.p.into()) && (1..=WIDEST).contains(&self.n)
    }

    /// A machine of any kind, where there are such machines.
    fn matrix(&self, numbers: &mut Numbers) -> Matrix {
        if self.is_sound() {
            machine(numbers, self.below, self.laid).0
        } else {
            numbers.matrix(self.below, self.laid)
        }
    }

    fn candidates(&self, numbers: &mut Numbers, m: &Matrix) -> Vec<Row> {
        if self.is_sound() {
            candidates(numbers, self.below, m)
        } else {
            m.iter().take(2).cloned().collect()
        }
    }

    /// What is read of each slice.
    fn lists(&self, numbers: &mut Numbers, name: Name) -> Vec<Row> {
        let m = self.matrix(numbers);
        let row = numbers.row(self.below, self.laid);
        let length = 1 + numbers.place(MOST_COEFFICIENTS);
        match name {
            Name::Inverse => vec![],
            Name::Order => vec![m.concat(), row],
            Name::Image => vec![m.concat(), row, numbers.row(self.below, length)],
            Name::Stand | Name::Chain | Name::Write => {
                vec![m.concat(), self.candidates(numbers, &m).concat()]
            }
            Name::Period => vec![m.concat()],
            Name::Sheet => vec![numbers.row(LARGEST_PRIME, length)],
        }
    }

    fn scalar_or_allowance(&self, numbers: &mut Numbers, name: Name) -> u64 {
        match name {
            Name::Stand | Name::Write => stated(numbers, self.laid).unwrap_or(DEFAULT_ALLOWANCE),
            _ => self.scalar(numbers),
        }
    }

    /// 0, which has no inverse, and 1 and p − 1, which are their own, are drawn as often as all others together.
    fn scalar(&self, numbers: &mut Numbers) -> u64 {
        if numbers.once_in(2) {
            numbers.below(self.below)
        } else {
            numbers.one_of(&[0, 1 % self.below, self.below - 1])
        }
    }

    /// A call without faults, but for those of its numbers. What it reads as a file is no case.
    pub fn call(&self, numbers: &mut Numbers, name: Name) -> Call {
        let lists = self.lists(numbers, name);
        let mut call = Call {
            name,
            p: self.p,
            n: self.n,
            k: self.scalar_or_allowance(numbers, name) as u32,
            slices: lists.iter().map(|list| bytes(list)).collect(),
        };
        for room in call.rooms(self.laid) {
            let spare = numbers.place(3);
            call.slices.push(numbers.bytes(room + spare));
        }
        call.drop_unused();
        call
    }
}

/// Makes every result buffer long enough for what the call reads, rows having n entries.
pub fn make_room(call: &mut Call, n: usize) {
    let rooms = call.rooms(n);
    let buffers = &mut call.slices[call.name.results()];
    for (buffer, room) in buffers.iter_mut().zip(rooms) {
        let length = buffer.len().max(room);
        buffer.resize(length, 0);
    }
}

fn bytes(list: &[u64]) -> Vec<u8> {
    list.iter().map(|&x| x as u8).collect()
}

#[cfg(test)]
mod tests {
    use super::*;
    use crate::made::primes;
    use independent::calls::refusal;

    /// Of every modulus 0, 1 and p − 1 are among a few scalars, and others too.
    #[test]
    fn telling_scalars_are_drawn() {
        let mut numbers = Numbers(2);
        for p in primes() {
            let draft = Draft::sound(p, 1);
            let drawn: Vec<u64> = (0..60).map(|_| draft.scalar(&mut numbers)).collect();
            assert!(drawn.iter().all(|&a| a < p));
            assert!([0, 1, p - 1].iter().all(|a| drawn.contains(a)), "{p}");
            let others = drawn.iter().any(|&a| 1 < a && a < p - 1);
            assert_eq!(others, 3 < p, "{p}");
        }
    }

    #[test]
    fn a_sound_draft_is_not_refused() {
        let mut numbers = Numbers(1);
        for p in primes() {
            for name in Name::ALL {
                let n = 1 + numbers.place(8);
                let call = Draft::sound(p, n).call(&mut numbers, name);
                assert_eq!(refusal(&call), None, "{}", call.line());
            }
        }
    }
}
