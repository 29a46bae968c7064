//! Every number of every call, two faults at once, the places of bad entries, the bounds, empty slices, and what an error says.
use independent::naive::is_prime;
use kinarsop::{chain, image, inverse, order, period, sheet, stand, write, Refusal, Stand};
use kinarsop::{LARGEST_N, LARGEST_PRIME, MOST_CANDIDATES, MOST_STATED};
use std::collections::HashSet;

/// 01's table, in its sequence; 6 and 8 cannot come from these calls.
const TABLE: [u8; 9] = [1, 2, 3, 4, 7, 5, 10, 11, 9];

/// What is lent to a call.
#[derive(Clone)]
struct Lent {
    p: u32,
    a: u32,
    n: usize,
    matrix: Vec<u8>,
    row: Vec<u8>,
    candidates: Vec<u8>,
    polynomial: Vec<u8>,
    allowance: u32,
}

/// Nothing here is refused.
fn good() -> Lent {
    Lent {
        p: 3,
        a: 2,
        n: 2,
        matrix: vec![0, 1, 2, 0],
        row: vec![1, 0],
        candidates: vec![1, 0, 0, 1],
        polynomial: vec![1, 0, 1],
        allowance: 9,
    }
}

#[derive(Debug, Clone, Copy, PartialEq)]
enum Part {
    P,
    A,
    N,
    Matrix,
    Row,
    Candidates,
    Polynomial,
    Allowance,
}
use Part::*;

/// A call: what it takes and can be refused for, and how it ends.
struct Call {
    name: &'static str,
    takes: &'static [Part],
    made: fn(&Lent) -> Result<(), Refusal>,
}

const CALLS: [Call; 7] = [
    Call {
        name: "inverse",
        takes: &[P, A],
        made: |l| inverse(l.p, l.a).map(drop),
    },
    Call {
        name: "order",
        takes: &[P, N, Matrix, Row],
        made: |l| order(l.p, l.n, &l.matrix, &l.row).map(drop),
    },
    Call {
        name: "image",
        takes: &[P, N, Matrix, Row, Polynomial],
        made: |l| image(l.p, l.n, &l.matrix, &l.row, &l.polynomial).map(drop),
    },
    Call {
        name: "stand",
        takes: &[P, N, Matrix, Candidates],
        made: |l| stand(l.p, l.n, &l.matrix, &l.candidates, l.allowance).map(drop),
    },
    Call {
        name: "chain",
        takes: &[P, N, Matrix, Candidates],
        made: |l| chain(l.p, l.n, &l.matrix, &l.candidates).map(drop),
    },
    Call {
        name: "period",
        takes: &[P, N, Matrix],
        made: |l| period(l.p, l.n, &l.matrix).map(drop),
    },
    Call {
        name: "write",
        takes: &[P, N, Matrix, Candidates, Allowance],
        made: |l| write(l.p, l.n, &l.matrix, &l.candidates, l.allowance).map(drop),
    },
];

/// A fault: the number that it is due, the part that has it, and how it gets there.
struct Fault {
    number: u8,
    part: Part,
    put: Box<dyn Fn(&mut Lent)>,
}

fn fault(number: u8, part: Part, put: impl Fn(&mut Lent) + 'static) -> Fault {
    let put = Box::new(put);
    Fault { number, part, put }
}

fn list(l: &mut Lent, part: Part) -> &mut Vec<u8> {
    match part {
        Matrix => &mut l.matrix,
        Row => &mut l.row,
        Candidates => &mut l.candidates,
        Polynomial => &mut l.polynomial,
        P | A | N | Allowance => panic!("{part:?} is a number"),
    }
}

fn faults() -> Vec<Fault> {
    let mut faults = vec![];
    for p in [0, 1, 4, 9, 250, 253, 256, 257, 259, 65_539, u32::MAX] {
        faults.push(fault(1, P, move |l| l.p = p));
    }
    for n in [0, 65, 66, 256, 258, usize::MAX / 2 + 3, usize::MAX] {
        faults.push(fault(2, N, move |l| l.n = n));
    }
    for (number, part, lengths) in [
        (3, Matrix, &[0, 1, 2, 3, 5, 8, 4_096, 65_540][..]),
        (4, Row, &[0, 1, 3, 4, 64, 258]),
        (4, Candidates, &[1, 3, 257, 258, 512]),
        (7, Polynomial, &[0, 66, 67, 128, 257, 258]),
    ] {
        for &length in lengths {
            let put = move |l: &mut Lent| list(l, part).resize(length, 1);
            faults.push(fault(number, part, put));
        }
    }
    for (number, part) in [(5, Matrix), (10, Row), (10, Candidates), (11, Polynomial)] {
        for x in [3, 4, 127, 128, 255] {
            faults.push(fault(number, part, move |l| {
                if let Some(first) = list(l, part).first_mut() {
                    *first = x;
                }
            }));
            faults.push(fault(number, part, move |l| {
                if let Some(last) = list(l, part).last_mut() {
                    *last = x;
                }
            }));
        }
    }
    for a in [3, 4, 255, 256, 258, u32::MAX] {
        faults.push(fault(11, A, move |l| l.a = a));
    }
    for allowance in [16_384, 16_385, 1 << 15, 1 << 16, (1 << 31) + 9, u32::MAX] {
        faults.push(fault(9, Allowance, move |l| l.allowance = allowance));
    }
    faults
}

/// The first number of the table that a call is due for the faults.
fn due(call: &Call, faults: &[&Fault]) -> Option<u8> {
    TABLE.into_iter().find(|&number| {
        let here = |f: &&Fault| f.number == number && call.takes.contains(&f.part);
        faults.iter().any(here)
    })
}

fn number(call: &Call, lent: &Lent) -> Option<u8> {
    (call.made)(lent).err().map(|refusal| refusal.number())
}

#[test]
fn every_number_of_every_call() {
    let mut seen = HashSet::new();
    for call in &CALLS {
        assert_eq!(number(call, &good()), None, "{}", call.name);
        for f in faults() {
            let mut lent = good();
            (f.put)(&mut lent);
            let found = number(call, &lent);
            assert_eq!(found, due(call, &[&f]), "{} {:?}", call.name, f.part);
            seen.extend(found.map(|number| (call.name, number)));
        }
    }
    // docs/CALLS.md, without 6.
    let tests = [
        ("inverse", &[1, 11][..]),
        ("order", &[1, 2, 3, 4, 5, 10]),
        ("image", &[1, 2, 3, 4, 7, 5, 10, 11]),
        ("stand", &[1, 2, 3, 4, 5, 10]),
        ("chain", &[1, 2, 3, 4, 5, 10]),
        ("period", &[1, 2, 3, 5]),
        ("write", &[1, 2, 3, 4, 5, 10, 9]),
    ];
    let expected = tests
        .iter()
        .flat_map(|(name, numbers)| numbers.iter().map(move |&number| (*name, number)))
        .collect();
    assert_eq!(seen, expected);
}

/// Faults of two parts, so that neither takes the other away.
#[test]
fn of_two_faults_the_first_of_the_table() {
    let faults = faults();
    for call in &CALLS {
        for f in &faults {
            for g in faults.iter().filter(|g| g.part != f.part) {
                let mut lent = good();
                (f.put)(&mut lent);
                (g.put)(&mut lent);
                let expected = due(call, &[f, g]);
                let parts = (f.part, g.part);
                assert_eq!(number(call, &lent), expected, "{} {parts:?}", call.name);
            }
        }
    }
}

/// A list with a wrong length and an entry that is p or more.
#[test]
fn of_two_faults_in_one_list_the_length() {
    let m = [0, 1, 2, 0];
    assert_eq!(order(3, 2, &[9, 9, 9], &[1, 0]), Err(Refusal::Matrix));
    assert_eq!(order(3, 2, &m, &[9]), Err(Refusal::Rows));
    assert_eq!(stand(3, 2, &m, &[9; 3], 9), Err(Refusal::Rows));
    assert_eq!(chain(3, 2, &m, &[9; 258]), Err(Refusal::Rows));
    assert_eq!(write(3, 2, &m, &[9; 3], 9), Err(Refusal::Rows));
    let found = image(3, 2, &m, &[1, 0], &[9; 66]);
    assert_eq!(found, Err(Refusal::Polynomial));
}

/// The refusal for a bad entry at this place of the list, counted from 0, with p = 3 and n = 2.
fn bad_entry(part: Part, at: usize, found: u8) -> Refusal {
    let (row, column, p) = (at / 2 + 1, at % 2 + 1, 3);
    match part {
        Matrix => Refusal::MatrixEntry {
            row,
            column,
            found,
            p,
        },
        Row => Refusal::RowEntry { column, found, p },
        Candidates => Refusal::CandidateEntry {
            candidate: row,
            column,
            found,
            p,
        },
        Polynomial => Refusal::Coefficient {
            place: at + 1,
            found,
            p,
        },
        P | A | N | Allowance => panic!("{part:?} is a number"),
    }
}

/// Each place of each list; what is bad behind it is not told.
#[test]
fn where_a_bad_entry_is() {
    for part in [Matrix, Row, Candidates, Polynomial] {
        for at in 0..list(&mut good(), part).len() {
            let mut lent = good();
            list(&mut lent, part)[at..].fill(255);
            list(&mut lent, part)[at] = 3;
            for call in CALLS.iter().filter(|call| call.takes.contains(&part)) {
                let expected = Err(bad_entry(part, at, 3));
                assert_eq!((call.made)(&lent), expected, "{} {part:?}", call.name);
            }
        }
    }
}

#[test]
fn where_the_last_bad_entry_can_be() {
    let mut matrix = [0; LARGEST_N * LARGEST_N];
    let mut candidates = [0; MOST_CANDIDATES * LARGEST_N];
    candidates[MOST_CANDIDATES * LARGEST_N - 1] = 2;
    let place = |refusal: Refusal| (refusal.number(), refusal.row_and_column());
    let found = chain(2, LARGEST_N, &matrix, &candidates).unwrap_err();
    assert_eq!(place(found), (10, Some((128, 64))));
    let found = write(2, LARGEST_N, &matrix, &candidates, 0).unwrap_err();
    assert_eq!(place(found), (10, Some((128, 64))));
    matrix[LARGEST_N * LARGEST_N - 1] = 2;
    let found = stand(2, LARGEST_N, &matrix, &candidates, 0).unwrap_err();
    assert_eq!(place(found), (5, Some((64, 64))));
    let mut polynomial = [0; 65];
    polynomial[64] = 2;
    let found = image(2, 1, &[0], &[0], &polynomial).unwrap_err();
    assert_eq!(place(found), (11, Some((0, 65))));
}

#[test]
fn bounds() {
    let primes: Vec<u32> = (0..300).filter(|&p| inverse(p, 0).is_ok()).collect();
    let expected: Vec<u32> = (0..300).filter(|&p| is_prime(p.into())).collect();
    assert_eq!(primes, expected);
    assert_eq!(primes.last(), Some(&LARGEST_PRIME));

    for n in 0..70 {
        let found = period(2, n, &vec![0; n * n]);
        let taken = (1..=LARGEST_N).contains(&n);
        let expected = if taken { Ok(None) } else { Err(Refusal::Size) };
        assert_eq!(found, expected);
    }
    for count in 0..132 {
        let rows = vec![0; 3 * count];
        let found = stand(2, 3, &[0; 9], &rows, 0);
        if count <= MOST_CANDIDATES {
            assert_eq!(found.map(|s| s.taken()), Ok(count));
            assert!(chain(2, 3, &[0; 9], &rows).is_ok());
            assert!(write(2, 3, &[0; 9], &rows, 0).is_ok());
        } else {
            assert_eq!(found, Err(Refusal::Rows));
            assert_eq!(chain(2, 3, &[0; 9], &rows), Err(Refusal::Rows));
            assert_eq!(write(2, 3, &[0; 9], &rows, 0), Err(Refusal::Rows));
        }
    }
    for length in 0..70 {
        let found = image(2, 1, &[1], &[1], &vec![1; length]);
        let taken = (1..=65).contains(&length);
        let expected = if taken {
            Ok(vec![(length % 2) as u8])
        } else {
            Err(Refusal::Polynomial)
        };
        assert_eq!(found, expected);
    }
    // 0 has no inverse, and is not refused.
    assert_eq!(inverse(251, 0), Ok(None));
    for found in 0..=255 {
        let bad = 251 <= found;
        let scalar = Refusal::Scalar {
            found: found.into(),
            p: 251,
        };
        let expected = bad.then_some(scalar);
        assert_eq!(inverse(251, found.into()).err(), expected);
        let entry = Refusal::MatrixEntry {
            row: 1,
            column: 1,
            found,
            p: 251,
        };
        let expected = bad.then_some(entry);
        assert_eq!(period(251, 1, &[found]).err(), expected);
    }
}

/// Each that a case can state, in its two numbers; the next ones are told.
#[test]
fn allowances() {
    for allowance in 0..=MOST_STATED + 200 {
        let found = write(2, 1, &[1], &[], allowance);
        let expected = if allowance <= MOST_STATED {
            let (high, low) = (allowance / 128, allowance % 128);
            let stated = [255, b'A', high as u8, low as u8];
            Ok([&[255, b'F', 2, 1], &stated[..], &[255, b'R', 1, 255, b'E']].concat())
        } else {
            Err(Refusal::Allowance { found: allowance })
        };
        assert_eq!(found, expected);
    }
}

#[test]
fn empty_slices() {
    assert_eq!(order(2, 1, &[], &[]), Err(Refusal::Matrix));
    assert_eq!(order(2, 1, &[0], &[]), Err(Refusal::Rows));
    assert_eq!(order(2, 0, &[], &[]), Err(Refusal::Size));
    assert_eq!(image(2, 1, &[], &[], &[]), Err(Refusal::Matrix));
    assert_eq!(image(2, 1, &[0], &[], &[]), Err(Refusal::Rows));
    assert_eq!(image(2, 1, &[0], &[1], &[]), Err(Refusal::Polynomial));
    assert_eq!(stand(2, 1, &[], &[], 0), Err(Refusal::Matrix));
    assert_eq!(chain(2, 1, &[], &[]), Err(Refusal::Matrix));
    assert_eq!(period(2, 1, &[]), Err(Refusal::Matrix));
    assert_eq!(period(2, 0, &[]), Err(Refusal::Size));
    assert_eq!(write(2, 1, &[], &[], 0), Err(Refusal::Matrix));
    assert_eq!(write(2, 0, &[], &[], 0), Err(Refusal::Size));
    assert_eq!(sheet(&[]), Err(Refusal::File { place: 0 }));

    // No candidate is a list like others.
    let expected = Stand::Short {
        divisor: vec![1],
        witness: 1,
        image: vec![1],
        taken: 0,
        spent: 0,
    };
    assert_eq!(stand(2, 1, &[0], &[], 0), Ok(expected));
    assert_eq!(chain(2, 1, &[0], &[]).unwrap().stages, [[0, 1]]);
}

#[test]
fn what_an_error_says() {
    let said = [
        (Refusal::Prime, 1, "p is not a prime from 2 to 251"),
        (Refusal::Size, 2, "n is not 1 to 64"),
        (Refusal::Matrix, 3, "the matrix has not n·n bytes"),
        (Refusal::Rows, 4, "the row has not n bytes"),
        (
            Refusal::Polynomial,
            7,
            "the polynomial has no coefficient or over 65",
        ),
        (
            Refusal::MatrixEntry {
                row: 2,
                column: 3,
                found: 9,
                p: 7,
            },
            5,
            "the entry in row 2, column 3 of the matrix is 9",
        ),
        (
            Refusal::RowEntry {
                column: 2,
                found: 7,
                p: 7,
            },
            10,
            "the entry in column 2 of the row is 7",
        ),
        (
            Refusal::CandidateEntry {
                candidate: 3,
                column: 2,
                found: 255,
                p: 7,
            },
            10,
            "the entry in candidate 3, column 2 is 255",
        ),
        (
            Refusal::Coefficient {
                place: 4,
                found: 8,
                p: 7,
            },
            11,
            "coefficient 4 (of x^3) is 8",
        ),
        (
            Refusal::Scalar { found: 1_000, p: 7 },
            11,
            "the scalar is 1000",
        ),
        (
            Refusal::Allowance { found: 16_384 },
            9,
            "the allowance is 16384",
        ),
        (
            Refusal::File { place: 10 },
            8,
            "the file stops being a case at offset 10",
        ),
    ];
    for (refusal, number, wrong) in said {
        assert_eq!(refusal.number(), number);
        let error: Box<dyn std::error::Error + Send + Sync> = refusal.into();
        let text = error.to_string();
        // What is wrong, and behind a colon what to do; one line, with no ends of a joined one.
        let (says, advice) = text.split_once(": ").expect("advice");
        assert!(says.starts_with(wrong), "{text}");
        assert!(!advice.is_empty(), "{text}");
        assert!(!text.contains('\n') && !text.contains("  "), "{text}");
        if refusal.row_and_column().is_some() {
            let allowed = "with p = 7 it may be 0 to 6; take it modulo p";
            assert_eq!((says, advice), (wrong, allowed));
        }
        if number == 9 {
            let allowed = "a case file can state 0 to 16383; 8192 pays for every list";
            assert_eq!((says, advice), (wrong, allowed));
        }
    }
}
