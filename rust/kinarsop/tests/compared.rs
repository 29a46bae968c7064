//! The library against the independent implementation, on made inputs that are the same in every run.
use independent::calls::{self, Call, Name};
use independent::grammar;
use independent::naive::{self, Matrix, Row};
use independent::numbers::Numbers;
use independent::sheet::printed;
use kinarsop::{chain, image, inverse, order, period, sheet, stand, write};
use kinarsop::{Chain, Refusal, Stand};
use std::collections::HashSet;

const PRIMES: [u64; 10] = [2, 2, 2, 3, 3, 5, 7, 11, 127, 251];

fn bytes(list: &[u64]) -> Vec<u8> {
    list.iter().map(|&x| x as u8).collect()
}

/// A made machine with candidates and an allowance.
struct Made {
    p: u64,
    n: usize,
    matrix: Matrix,
    candidates: Vec<Row>,
    allowance: u64,
}

impl Made {
    /// Full, sparse, diagonal and block matrices, so that all standings and many stages come up.
    fn new(numbers: &mut Numbers, largest: usize) -> Self {
        let p = numbers.one_of(&PRIMES);
        let n = 1 + numbers.place(largest);
        let mut matrix = numbers.matrix(p, n);
        let (shape, split) = (numbers.below(5), numbers.place(n));
        for (i, row) in matrix.iter_mut().enumerate() {
            for (j, x) in row.iter_mut().enumerate() {
                let kept = match shape {
                    0 | 1 => true,
                    2 => numbers.once_in(n as u64),
                    3 => i == j || i + 1 == j,
                    _ => (i < split) == (j < split),
                };
                if !kept {
                    *x = 0;
                } else if shape == 3 {
                    *x %= 3;
                }
            }
        }
        let count = numbers.place(5);
        let candidates = (0..count)
            .map(|_| match numbers.below(4) {
                0 => naive::unit_row(n, numbers.place(n)),
                1 => vec![0; n],
                _ => numbers.row(p, n),
            })
            .collect();
        let allowance = numbers.one_of(&[0, 1, n as u64, 2 * n as u64, 8_192, 8_192]);
        Made {
            p,
            n,
            matrix,
            candidates,
            allowance,
        }
    }

    fn p(&self) -> u32 {
        self.p as u32
    }

    fn matrix(&self) -> Vec<u8> {
        bytes(&self.matrix.concat())
    }

    fn candidates(&self) -> Vec<u8> {
        bytes(&self.candidates.concat())
    }

    /// The case file, with an allowance below 16,384.
    fn file(&self) -> Vec<u8> {
        let mut file = vec![255, b'F', self.p as u8, self.n as u8];
        let allowance = [self.allowance / 128, self.allowance % 128];
        let stated = [(b'A', bytes(&allowance))];
        let rows = self.matrix.iter().map(|v| (b'R', bytes(v)));
        let candidates = self.candidates.iter().map(|v| (b'C', bytes(v)));
        for (letter, numbers) in stated.into_iter().chain(rows).chain(candidates) {
            file.extend([255, letter]);
            file.extend(numbers);
        }
        file.extend([255, b'E']);
        file
    }
}

fn expected_stand(found: naive::Stand) -> Stand {
    let (taken, spent) = (found.taken, found.spent as u32);
    if found.proved {
        Stand::Proved {
            minimal_polynomial: bytes(&found.polynomial),
            taken,
            spent,
        }
    } else {
        Stand::Short {
            divisor: bytes(&found.polynomial),
            witness: found.witness,
            image: bytes(&found.image),
            taken,
            spent,
        }
    }
}

#[test]
fn inverses() {
    for p in (0..=251).filter(|&p| naive::is_prime(p)) {
        for a in 0..p {
            let expected = naive::inverse(p, a).map(|b| b as u8);
            assert_eq!(inverse(p as u32, a as u32), Ok(expected));
        }
    }
}

#[test]
fn orders_and_images() {
    let mut numbers = Numbers(11);
    for _ in 0..3_000 {
        let made = Made::new(&mut numbers, 9);
        let v = numbers.row(made.p, made.n);
        let expected = naive::order(made.p, &made.matrix, &v);
        let found = order(made.p(), made.n, &made.matrix(), &bytes(&v));
        assert_eq!(found, Ok(bytes(&expected)));

        let length = 1 + numbers.place(65);
        let f = numbers.row(made.p, length);
        let expected = naive::image(made.p, &v, &f, &made.matrix);
        let found = image(made.p(), made.n, &made.matrix(), &bytes(&v), &bytes(&f));
        assert_eq!(found, Ok(bytes(&expected)));
    }
}

#[test]
fn stands_and_chains() {
    let mut numbers = Numbers(12);
    let mut proved = 0;
    const COUNT: usize = 3_000;
    for _ in 0..COUNT {
        let made = Made::new(&mut numbers, 9);
        let expected = naive::stand(made.p, &made.matrix, &made.candidates, made.allowance);
        proved += usize::from(expected.proved);
        let allowance = made.allowance as u32;
        let found = stand(
            made.p(),
            made.n,
            &made.matrix(),
            &made.candidates(),
            allowance,
        )
        .unwrap();
        if let Some(f) = found.minimal_polynomial() {
            assert_eq!(f, bytes(&naive::minimal_polynomial(made.p, &made.matrix)));
        }
        assert_eq!(found, expected_stand(expected));

        let expected = naive::chain(made.p, &made.matrix, &made.candidates);
        let expected = Chain {
            stages: expected.stages.iter().map(|q| bytes(q)).collect(),
            product: bytes(&expected.product),
        };
        let found = chain(made.p(), made.n, &made.matrix(), &made.candidates());
        assert_eq!(found, Ok(expected));
    }
    assert!((COUNT / 5..COUNT * 4 / 5).contains(&proved), "{proved}");
}

#[test]
fn periods() {
    let mut numbers = Numbers(13);
    let mut none = 0;
    const COUNT: usize = 1_000;
    for _ in 0..COUNT {
        let made = Made::new(&mut numbers, 5);
        let expected = naive::period(made.p, &made.matrix);
        none += usize::from(expected.is_none());
        let found = period(made.p(), made.n, &made.matrix());
        assert_eq!(found, Ok(expected.map(|t| t as u32)));
    }
    assert!((COUNT / 5..COUNT * 4 / 5).contains(&none), "{none}");
}

/// Bad entries in the list, one or two.
fn spoil(numbers: &mut Numbers, p: u64, list: &mut [u8]) {
    let bad = [p, p + 1, 255].map(|x| x as u8);
    for _ in 0..=numbers.below(2) {
        list[numbers.place(list.len())] = numbers.one_of(&bad);
    }
}

/// The number, the row and the column by which the independent implementation refuses a call that is lent these lists and enough room.
fn told(made: &Made, name: Name, read: &[&[u8]]) -> Option<(u8, Option<(usize, usize)>)> {
    let mut call = Call {
        name,
        p: made.p(),
        n: made.n as u64,
        k: 0,
        slices: read.iter().map(|list| list.to_vec()).collect(),
    };
    let rooms = call.rooms(made.n).into_iter();
    call.slices.extend(rooms.map(|room| vec![0; room]));
    let refusal = calls::refusal(&call)?;
    let place = refusal.place.map(|place| (place.row, place.column));
    Some((refusal.number, place))
}

/// In the polynomial alone, or in the candidates too, or in the row too, or in all: so each of them is the first now and then.
#[test]
fn bad_entries() {
    let mut numbers = Numbers(15);
    let mut seen = HashSet::new();
    for _ in 0..3_000 {
        let made = Made::new(&mut numbers, 9);
        let (p, n) = (made.p(), made.n);
        let mut m = made.matrix();
        let mut v = bytes(&numbers.row(made.p, n));
        let mut cs = bytes(&numbers.row(made.p, 5 * n));
        let mut f = bytes(&numbers.row(made.p, 7));
        let lists: [&mut [u8]; 4] = [&mut f, &mut cs, &mut v, &mut m];
        let spoilt = 1 + numbers.place(lists.len());
        for list in lists.into_iter().take(spoilt) {
            spoil(&mut numbers, made.p, list);
        }
        let found = [
            image(p, n, &m, &v, &f).err(),
            order(p, n, &m, &v).err(),
            stand(p, n, &m, &cs, 0).err(),
            chain(p, n, &m, &cs).err(),
            period(p, n, &m).err(),
            write(p, n, &m, &cs, 0).err(),
        ];
        let expected = [
            told(&made, Name::Image, &[&m, &v, &f]),
            told(&made, Name::Order, &[&m, &v]),
            told(&made, Name::Stand, &[&m, &cs]),
            told(&made, Name::Chain, &[&m, &cs]),
            told(&made, Name::Period, &[&m]),
            told(&made, Name::Write, &[&m, &cs]),
        ];
        let found = found.map(|x| x.map(|x| (x.number(), x.row_and_column())));
        assert_eq!(found, expected);
        seen.extend(found.into_iter().flatten());
    }
    let numbers: HashSet<u8> = seen.iter().map(|(number, _)| *number).collect();
    assert_eq!(numbers, HashSet::from([5, 10, 11]));
    assert!(100 < seen.len(), "{}", seen.len());
}

/// What is written is the case file, byte for byte; a reader gets the values that were lent, and
/// these written again are the same file.
#[test]
fn cases_written_and_read_back() {
    let mut numbers = Numbers(16);
    let mut allowances = HashSet::new();
    for _ in 0..1_000 {
        let mut made = Made::new(&mut numbers, 9);
        made.allowance = numbers.below(16_384);
        allowances.insert(made.allowance);
        let (m, cs) = (made.matrix(), made.candidates());
        let file = write(made.p(), made.n, &m, &cs, made.allowance as u32).unwrap();
        assert_eq!(file, made.file());

        let wide: Row = file.iter().map(|&x| x.into()).collect();
        let read = grammar::values(&wide).expect("a case is written");
        let n = read.n as usize;
        assert_eq!((read.p, n), (made.p, made.n));
        assert_eq!(read.allowance, made.allowance);
        let (m_read, cs_read) = (bytes(&read.matrix), bytes(&read.candidates));
        assert_eq!((&m_read, &cs_read), (&m, &cs));
        let again = write(read.p as u32, n, &m_read, &cs_read, read.allowance as u32);
        assert_eq!(again, Ok(file));
    }
    assert!(500 < allowances.len(), "{}", allowances.len());
}

/// Case files, whole and with a byte changed, left out or put in. They are few and small, since the independent reader tries every shape of a case.
#[test]
fn sheets() {
    let mut numbers = Numbers(14);
    let mut refused = 0;
    const COUNT: usize = 100;
    for _ in 0..COUNT {
        let mut file = Made::new(&mut numbers, 3).file();
        let at = numbers.place(file.len());
        let byte = numbers.one_of(&[0, 1, 2, 128, 255, b'A', b'R', b'C', b'E']);
        match numbers.below(6) {
            0 => file[at] = byte,
            1 => file.insert(at, byte),
            2 => drop(file.remove(at)),
            _ => (),
        }
        let found = match sheet(&file) {
            Ok(text) => text,
            Err(Refusal::File { place }) => {
                refused += 1;
                format!("REFUSED {place}\n")
            }
            Err(refusal) => panic!("{refusal}"),
        };
        assert_eq!(found, printed(&file));
    }
    assert!((COUNT / 5..COUNT * 4 / 5).contains(&refused), "{refused}");
}
