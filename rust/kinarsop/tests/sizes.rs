//! The longest of everything, slices that share bytes, and calls from several threads.
use kinarsop::{chain, image, inverse, order, period, sheet, stand, write, Stand};
use kinarsop::{FULL_ALLOWANCE, LONGEST_CASE, MOST_STATED};
use std::thread;

const N: usize = 64;

/// Each unit row goes to the next, the last one to the first.
fn round() -> Vec<u8> {
    let mut matrix = vec![0; N * N];
    for i in 0..N {
        matrix[i * N + (i + 1) % N] = 1;
    }
    matrix
}

fn identity() -> Vec<u8> {
    (0..N * N).map(|k| u8::from(k % (N + 1) == 0)).collect()
}

fn unit_row(i: usize) -> Vec<u8> {
    (0..N).map(|j| u8::from(i == j)).collect()
}

/// x^64 − 1 modulo 251.
fn round_polynomial() -> Vec<u8> {
    let mut f = vec![0; N + 1];
    f[0] = 250;
    f[N] = 1;
    f
}

/// (x − 1)^64 modulo 251.
fn power_polynomial() -> Vec<u8> {
    let mut f = vec![1u8];
    for _ in 0..N {
        let shifted = [&[0], &f[..]].concat();
        let below = [&f[..], &[0]].concat();
        let term = |(a, b): (&u8, &u8)| ((u32::from(*a) + 250 * u32::from(*b)) % 251) as u8;
        f = shifted.iter().zip(&below).map(term).collect();
    }
    f
}

#[test]
fn sixty_four_rows_that_go_round() {
    let matrix = round();
    let f = round_polynomial();
    for i in [0, 1, 31, 63] {
        assert_eq!(order(251, N, &matrix, &unit_row(i)), Ok(f.clone()));
        let found = image(251, N, &matrix, &unit_row(i), &f);
        assert_eq!(found, Ok(vec![0; N]));
        let mut power = vec![0; N + 1];
        power[N - 1] = 7;
        let mut expected = vec![0; N];
        expected[(i + N - 1) % N] = 7;
        assert_eq!(image(251, N, &matrix, &unit_row(i), &power), Ok(expected));
    }
    assert_eq!(period(251, N, &matrix), Ok(Some(64)));
    let found = chain(251, N, &matrix, &[]).unwrap();
    assert_eq!(found.product, f);
    assert_eq!(found.stages, [f]);
}

#[test]
fn a_hundred_and_twenty_eight_candidates() {
    let matrix = round();
    let candidates: Vec<u8> = (0..128).flat_map(|i| unit_row(i % N)).collect();
    for (allowance, taken, spent) in [
        (u32::MAX, 128, 8_192),
        (FULL_ALLOWANCE, 128, 8_192),
        (FULL_ALLOWANCE - 1, 127, 8_128),
        (64, 1, 64),
    ] {
        let expected = Stand::Proved {
            minimal_polynomial: round_polynomial(),
            taken,
            spent,
        };
        let found = stand(251, N, &matrix, &candidates, allowance);
        assert_eq!(found, Ok(expected));
    }
    let expected = Stand::Short {
        divisor: vec![1],
        witness: 1,
        image: unit_row(0),
        taken: 0,
        spent: 0,
    };
    assert_eq!(stand(251, N, &matrix, &candidates, 63), Ok(expected));
    let found = chain(251, N, &matrix, &candidates).unwrap();
    assert_eq!(found.stages, [round_polynomial()]);
}

/// The most stages, which take all of their room; and the last witness.
#[test]
fn sixty_four_stages() {
    let found = chain(251, N, &identity(), &unit_row(5)).unwrap();
    assert_eq!(found.stages, vec![vec![250, 1]; N]);
    assert_eq!(found.product, power_polynomial());
    assert_eq!(period(251, N, &identity()), Ok(Some(1)));

    let mut matrix = identity();
    matrix[N * N - 1] = 2;
    let mut expected = vec![0; N];
    expected[N - 1] = 1;
    let found = stand(251, N, &matrix, &unit_row(0), FULL_ALLOWANCE);
    let expected = Stand::Short {
        divisor: vec![250, 1],
        witness: 64,
        image: expected,
        taken: 1,
        spent: 1,
    };
    assert_eq!(found, Ok(expected));
}

/// Each unit row goes to the next, the last one to the sum of those named.
fn register(n: usize, sum: &[usize]) -> Vec<u8> {
    let mut matrix = vec![0; n * n];
    for i in 1..n {
        matrix[(i - 1) * n + i] = 1;
    }
    for &i in sum {
        matrix[(n - 1) * n + i] = 1;
    }
    matrix
}

/// Shift registers modulo 2 that go through every state but zero, within 65,536 ticks and beyond.
#[test]
fn long_periods() {
    assert_eq!(
        period(2, 16, &register(16, &[0, 11, 13, 14])),
        Ok(Some(65_535))
    );
    assert_eq!(period(2, 17, &register(17, &[0, 3])), Ok(None));
}

/// The longest case: each row of it is another.
#[test]
fn the_longest_case_is_written() {
    let row = |i: usize| (0..N).map(move |j| ((7 * i + j) % 251) as u8);
    let matrix: Vec<u8> = (0..N).flat_map(row).collect();
    let candidates: Vec<u8> = (N..N + 128).flat_map(row).collect();
    let file = write(251, N, &matrix, &candidates, MOST_STATED).unwrap();
    assert_eq!(file.len(), LONGEST_CASE);
    let (front, behind) = file.split_at(8);
    assert_eq!(front, [255, b'F', 251, 64, 255, b'A', 127, 127]);
    let (records, end) = behind.split_at((N + 128) * (N + 2));
    assert_eq!(end, [255, b'E']);
    for (i, record) in records.chunks(N + 2).enumerate() {
        let letter = if i < N { b'R' } else { b'C' };
        assert_eq!(record[..2], [255, letter]);
        assert!(record[2..].iter().copied().eq(row(i)), "{i}");
    }
}

/// Slices lent by `&` may share bytes; the answers are those of copies.
#[test]
fn slices_that_share_bytes() {
    let bytes = [0, 1, 2, 0, 1, 0, 1];
    let matrix = &bytes[..4];
    for at in 0..=5 {
        let row = &bytes[at..at + 2];
        let copy = row.to_vec();
        assert_eq!(order(3, 2, matrix, row), order(3, 2, matrix, &copy));
        for length in 1..=bytes.len() {
            let f = &bytes[..length];
            let copy_of_f = f.to_vec();
            let expected = image(3, 2, matrix, &copy, &copy_of_f);
            assert_eq!(image(3, 2, matrix, row, f), expected);
        }
    }
    for length in [0, 2, 4, 6] {
        let rows = &bytes[..length];
        let copy = rows.to_vec();
        assert_eq!(stand(3, 2, matrix, rows, 9), stand(3, 2, matrix, &copy, 9));
        assert_eq!(chain(3, 2, matrix, rows), chain(3, 2, matrix, &copy));
        assert_eq!(write(3, 2, matrix, rows, 9), write(3, 2, matrix, &copy, 9));
    }
    let all = round();
    assert_eq!(order(251, N, &all, &all[..N]), Ok(round_polynomial()));
    assert_eq!(stand(251, N, &all, &all, 64).unwrap().taken(), 1);
}

/// Calls share nothing, and 256 KiB of stack are enough for each.
#[test]
fn several_threads() {
    let folder = concat!(env!("CARGO_MANIFEST_DIR"), "/../../cases");
    let threads = ["longest", "default", "sixtyfour", "corner"].map(|name| {
        let file = std::fs::read(format!("{folder}/{name}.case")).expect("a case");
        let text = std::fs::read_to_string(format!("{folder}/{name}.sheet")).expect("its sheet");
        let calls = move || {
            let candidates: Vec<u8> = (0..128).flat_map(|i| unit_row(i % N)).collect();
            for _ in 0..3 {
                assert_eq!(sheet(&file).as_deref(), Ok(&text[..]));
                assert_eq!(inverse(251, 2), Ok(Some(126)));
                assert_eq!(period(251, N, &round()), Ok(Some(64)));
                let found = stand(251, N, &round(), &candidates, FULL_ALLOWANCE).unwrap();
                assert_eq!(found.minimal_polynomial(), Some(&round_polynomial()[..]));
                let found = chain(251, N, &identity(), &candidates).unwrap();
                assert_eq!(found.product, power_polynomial());
                let case = write(251, N, &identity(), &candidates, 0).unwrap();
                assert_eq!(case.len(), LONGEST_CASE);
            }
        };
        let thread = thread::Builder::new().stack_size(256 << 10);
        thread.spawn(calls).expect("a thread")
    });
    for thread in threads {
        thread.join().expect("the same answers");
    }
}
