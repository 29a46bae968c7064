//! 01's figures P1 to P11, and orders, images, inverses and case files that are seen at a glance.
use kinarsop::{chain, image, inverse, order, period, stand, write, Chain, Refusal, Stand};

fn proved(minimal_polynomial: &[u8], taken: usize, spent: u32) -> Stand {
    Stand::Proved {
        minimal_polynomial: minimal_polynomial.to_vec(),
        taken,
        spent,
    }
}

fn short(divisor: &[u8], taken: usize, spent: u32, witness: usize, image: &[u8]) -> Stand {
    Stand::Short {
        divisor: divisor.to_vec(),
        witness,
        image: image.to_vec(),
        taken,
        spent,
    }
}

fn chained(stages: &[&[u8]], product: &[u8]) -> Chain {
    Chain {
        stages: stages.iter().map(|q| q.to_vec()).collect(),
        product: product.to_vec(),
    }
}

#[test]
fn p1_no_candidates() {
    let expected = short(&[1], 0, 0, 1, &[1]);
    assert_eq!(stand(2, 1, &[0], &[], 9), Ok(expected));
}

#[test]
fn p2_zero_row_costs_nothing() {
    let expected = short(&[1], 1, 0, 1, &[1]);
    assert_eq!(stand(2, 1, &[0], &[0, 1], 0), Ok(expected));
}

#[test]
fn p3_nilpotent() {
    assert_eq!(stand(2, 1, &[0], &[1], 1), Ok(proved(&[0, 1], 1, 1)));
}

#[test]
fn p4_p5_allowance() {
    let (m, c) = ([0, 1, 2, 0], [1, 0]);
    assert_eq!(stand(3, 2, &m, &c, 1), Ok(short(&[1], 0, 0, 1, &[1, 0])));
    assert_eq!(stand(3, 2, &m, &c, 2), Ok(proved(&[1, 0, 1], 1, 2)));
    let expected = chained(&[&[1, 0, 1]], &[1, 0, 1]);
    assert_eq!(chain(3, 2, &m, &c), Ok(expected));
    assert_eq!(period(3, 2, &m), Ok(Some(4)));
}

#[test]
fn p6_identity() {
    let (m, c) = ([1, 0, 0, 1], [1, 0]);
    assert_eq!(stand(5, 2, &m, &c, 9), Ok(proved(&[4, 1], 1, 1)));
    let expected = chained(&[&[4, 1], &[4, 1]], &[1, 3, 1]);
    assert_eq!(chain(5, 2, &m, &c), Ok(expected));
    assert_eq!(period(5, 2, &m), Ok(Some(1)));
}

#[test]
fn p7_p8_p9_diagonal() {
    let m = [1, 0, 0, 2];
    let expected = short(&[2, 1], 2, 2, 2, &[0, 1]);
    assert_eq!(stand(3, 2, &m, &[1, 0, 1, 0], 9), Ok(expected));
    let expected = proved(&[2, 0, 1], 2, 2);
    assert_eq!(stand(3, 2, &m, &[1, 0, 0, 1], 9), Ok(expected));
    assert_eq!(period(3, 2, &m), Ok(Some(2)));
    let expected = short(&[1], 0, 0, 1, &[1, 0]);
    assert_eq!(stand(3, 2, &m, &[1, 1, 0, 0], 1), Ok(expected));
}

#[test]
fn p10_p11_rows_and_not_columns() {
    let m = [0, 1, 0, 0];
    let expected = short(&[0, 1], 1, 1, 1, &[0, 1]);
    assert_eq!(stand(2, 2, &m, &[0, 1], 9), Ok(expected));
    let expected = chained(&[&[0, 1], &[0, 1]], &[0, 0, 1]);
    assert_eq!(chain(2, 2, &m, &[0, 1]), Ok(expected));
    assert_eq!(period(2, 2, &m), Ok(None));
    let expected = proved(&[0, 0, 1], 1, 2);
    assert_eq!(stand(2, 2, &m, &[1, 0], 9), Ok(expected));
    let expected = chained(&[&[0, 0, 1]], &[0, 0, 1]);
    assert_eq!(chain(2, 2, &m, &[1, 0]), Ok(expected));
}

#[test]
fn what_a_stand_says_of_itself() {
    let proved = stand(3, 2, &[1, 0, 0, 2], &[1, 0, 0, 1], 9).unwrap();
    assert_eq!(proved.minimal_polynomial(), Some(&[2, 0, 1][..]));
    assert_eq!((proved.taken(), proved.spent()), (2, 2));
    let short = stand(3, 2, &[1, 0, 0, 2], &[1, 0, 1, 1], 2).unwrap();
    assert_eq!(short.minimal_polynomial(), None);
    assert_eq!((short.taken(), short.spent()), (1, 1));
}

#[test]
fn orders() {
    let m = [1, 0, 0, 2];
    assert_eq!(order(3, 2, &m, &[0, 0]), Ok(vec![1]));
    assert_eq!(order(3, 2, &m, &[1, 0]), Ok(vec![2, 1]));
    assert_eq!(order(3, 2, &m, &[0, 2]), Ok(vec![1, 1]));
    assert_eq!(order(3, 2, &m, &[1, 1]), Ok(vec![2, 0, 1]));
    let m = [0, 1, 0, 0];
    assert_eq!(order(2, 2, &m, &[1, 0]), Ok(vec![0, 0, 1]));
    assert_eq!(order(2, 2, &m, &[0, 1]), Ok(vec![0, 1]));
}

#[test]
fn images() {
    let m = [1, 0, 0, 2];
    let of = |f: &[u8]| image(3, 2, &m, &[1, 1], f).unwrap();
    assert_eq!(of(&[0]), [0, 0]);
    assert_eq!(of(&[2]), [2, 2]);
    assert_eq!(of(&[0, 1]), [1, 2]);
    assert_eq!(of(&[2, 0, 1]), [0, 0]);
    assert_eq!(of(&[0, 1, 0, 0, 0]), [1, 2]);
    assert_eq!(image(2, 2, &[0, 1, 0, 0], &[1, 0], &[0, 1]), Ok(vec![0, 1]));
}

/// 01's 18 bytes, with record A; the smallest case; several rows and candidates.
#[test]
fn case_files() {
    let file = b"\xffF\x03\x02\xffA\x40\x00\xffR\x00\x01\xffR\x02\x00\xffC\x01\x00\xffE";
    assert_eq!(write(3, 2, &[0, 1, 2, 0], &[1, 0], 8_192).unwrap(), file);
    let file = b"\xffF\x02\x01\xffA\x00\x00\xffR\x00\xffE";
    assert_eq!(write(2, 1, &[0], &[], 0).unwrap(), file);
    let rows = b"\xffR\x01\x02\xffR\x03\x04\xffC\x05\x06\xffC\x07\x08\xffC\x09\x0a\xffE";
    let file = [b"\xffF\xfb\x02\xffA\x7f\x7f", &rows[..]].concat();
    let found = write(251, 2, &[1, 2, 3, 4], &[5, 6, 7, 8, 9, 10], 16_383);
    assert_eq!(found, Ok(file));
}

#[test]
fn inverses() {
    for p in [2, 3, 5, 7, 127, 251] {
        assert_eq!(inverse(p, 0), Ok(None));
        for a in 1..p {
            let b = inverse(p, a).unwrap().expect("only 0 has no inverse");
            assert!((1..p).contains(&b.into()), "{p} {a} {b}");
            assert_eq!(a * u32::from(b) % p, 1, "{p} {a} {b}");
        }
        for a in [p, p + 1] {
            assert_eq!(inverse(p, a), Err(Refusal::Scalar { found: a, p }));
        }
    }
}
