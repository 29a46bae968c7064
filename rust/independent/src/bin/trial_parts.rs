//! What the program `trial_parts` must print for the lines on standard input, by the independent implementation. The stored answers were made with it,
//! from the repository's root:
//!
//!     cargo run --release --manifest-path rust/Cargo.toml --bin trial_parts < crates/trial_parts/stdin > crates/trial_parts/stdout
//!
//! The modulus follows the word. For each line the word and the answer are printed, or `refused` where the arguments are not what the function
//! asks for.
use independent::lines::{self, list, Line};
use independent::naive::{self, Matrix, Poly};

/// The modulus, if it is a byte above 0.
fn modulus(line: &Line) -> Option<u64> {
    Some(line.number(0)).filter(|p| (1..=255).contains(p))
}

fn prime(line: &Line) -> Option<u64> {
    Some(line.number(0)).filter(|&p| naive::is_prime(p))
}

/// A polynomial of 1 to 65 coefficients, leading zeros allowed.
fn operand(line: &Line, p: u64, k: usize) -> Option<Poly> {
    let c = line.group(k);
    let fine = (1..=65).contains(&c.len()) && naive::first_bad(p, c).is_none();
    fine.then(|| naive::trim(p, c))
}

/// A row of at most 64 entries and a square matrix of its size.
fn row_and_matrix<'a>(line: &'a Line, row: usize, matrix: usize) -> Option<(&'a [u64], Matrix)> {
    let v = line.group(row);
    let m = line.group(matrix);
    let n = v.len();
    let fine = n <= 64 && m.len() == n * n;
    fine.then(|| (v, (0..n).map(|i| m[i * n..(i + 1) * n].to_vec()).collect()))
}

/// The coefficients up to the degree; 0 for the zero polynomial.
fn poly(f: &[u64]) -> String {
    list(if f.is_empty() { &[0] } else { f })
}

/// The degree, 0 for the zero polynomial.
fn degree(f: &[u64]) -> usize {
    f.len().saturating_sub(1)
}

/// The answer to a line, or nothing where it is refused.
fn answer(line: &Line) -> Option<String> {
    let (a, b) = (line.number(1), line.number(2));
    Some(match line.word {
        "prime" => if prime(line).is_some() { "yes" } else { "no" }.to_string(),
        "sum" => ((a + b) % modulus(line)?).to_string(),
        "difference" => {
            let p = modulus(line)?;
            ((a + p * 255 - b) % p).to_string()
        }
        "opposite" => naive::opposite(modulus(line)?, a).to_string(),
        "product" => (a * b % modulus(line)?).to_string(),
        "inverse" => {
            let p = prime(line).filter(|&p| a < p)?;
            naive::inverse(p, a)?.to_string()
        }
        "bad" => match naive::first_bad(line.number(0), line.group(1)) {
            Some(place) => place.to_string(),
            None => "none".to_string(),
        },
        "advance" => {
            let p = modulus(line)?;
            let (v, m) = row_and_matrix(line, 2, 1)?;
            list(&naive::times_matrix(p, v, &m))
        }
        "image" => {
            let p = modulus(line)?;
            let (v, m) = row_and_matrix(line, 3, 1)?;
            let f = Some(line.group(2)).filter(|f| (1..=65).contains(&f.len()))?;
            list(&naive::image(p, v, f, &m))
        }
        "dot" => {
            let p = modulus(line)?;
            let (u, v) = (line.group(1), line.group(2));
            if 64 < u.len() || u.len() != v.len() {
                return None;
            }
            naive::dot(p, u, v).to_string()
        }
        _ => polynomial_answer(line)?,
    })
}

fn polynomial_answer(line: &Line) -> Option<String> {
    let p = prime(line)?;
    let f = operand(line, p, 1)?;
    match line.word {
        "scale" => return Some(poly(&naive::scale(p, line.number(2), &f))),
        "monic" => return Some(poly(&naive::make_monic(p, &f))),
        "size" => return Some(f.len().to_string()),
        _ => {}
    }
    let g = operand(line, p, 2)?;
    Some(match line.word {
        "shifted" => {
            let (k, s) = (line.number(3), line.number(4) as usize);
            if 64 < degree(&g) + s {
                return None;
            }
            poly(&naive::add_shifted(p, &f, &g, k, s))
        }
        "times" => {
            if 64 < degree(&f) + degree(&g) {
                return None;
            }
            poly(&naive::multiply(p, &f, &g))
        }
        "divide" => {
            if g.is_empty() {
                return None;
            }
            let (quotient, rest) = naive::divide(p, &f, &g);
            format!("{} | {}", poly(&quotient), poly(&rest))
        }
        "gcd" => poly(&naive::gcd(p, &f, &g)),
        "lcm" => {
            if f.last() != Some(&1) || g.last() != Some(&1) {
                return None;
            }
            let l = naive::lcm(p, &f, &g);
            if 64 < degree(&l) {
                return None;
            }
            poly(&l)
        }
        word => panic!("{word} is no function"),
    })
}

fn main() {
    lines::answer_all(|line| answer(line).unwrap_or_else(|| "refused".to_string()));
}
