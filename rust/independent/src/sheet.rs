//! The data sheet that the program `stand` prints for a case, by the independent implementation.
use crate::case::Case;
use crate::grammar;
use crate::lines::list;
use crate::naive::{self, Row};

pub fn sheet(case: &Case) -> String {
    let (p, n) = (case.p, case.matrix.len());
    let stand = naive::stand(p, &case.matrix, &case.candidates, case.allowance());
    let chain = naive::chain(p, &case.matrix, &case.candidates);
    let standing = if stand.proved { "proved" } else { "short" };
    let polynomial = list(&stand.polynomial);
    let mut lines = vec![
        format!("FIELD {p} {n}"),
        format!("STAND {standing} {} {}", stand.taken, stand.spent),
    ];
    if stand.proved {
        lines.push(format!("MINPOLY {polynomial}"));
        lines.push("WITNESS none".to_string());
    } else {
        lines.push(format!("DIVISOR {polynomial}"));
        lines.push(format!("WITNESS {} {}", stand.witness, list(&stand.image)));
    }
    lines.extend(chain.stages.iter().map(|q| format!("STAGE {}", list(q))));
    lines.push(format!("CHAIN {}", list(&chain.product)));
    lines.push(match naive::period(p, &case.matrix) {
        Some(t) => format!("PERIOD {t}"),
        None => "PERIOD none".to_string(),
    });
    lines.push(String::new());
    lines.join("\n")
}

fn text(read: Result<Case, usize>) -> String {
    match read {
        Ok(case) => sheet(&case),
        Err(place) => format!("REFUSED {place}\n"),
    }
}

/// What the program prints for a file, which is read by the shapes of a case.
pub fn printed(file: &[u8]) -> String {
    text(Case::read(file))
}

/// The same, but the file is read by the grammar, which takes much less time.
pub fn printed_by_grammar(file: &[u8]) -> String {
    text(read_by_grammar(file))
}

/// The case in a file, its allowance as if it were stated, or the place where the file stops being a well-formed case.
fn read_by_grammar(file: &[u8]) -> Result<Case, usize> {
    let file: Row = file.iter().map(|&x| x.into()).collect();
    let case = grammar::values(&file).ok_or_else(|| grammar::place(&file))?;
    let rows = |list: &[u64]| list.chunks(case.n as usize).map(<[u64]>::to_vec).collect();
    Ok(Case {
        p: case.p,
        matrix: rows(&case.matrix),
        candidates: rows(&case.candidates),
        stated: Some(case.allowance),
    })
}

#[cfg(test)]
mod tests {
    use super::*;

    #[test]
    fn eighteen_bytes() {
        let file = [
            255, 70, 3, 2, 255, 82, 0, 1, 255, 82, 2, 0, 255, 67, 1, 0, 255, 69,
        ];
        let lines = [
            "FIELD 3 2",
            "STAND proved 1 2",
            "MINPOLY 1 0 1",
            "WITNESS none",
            "STAGE 1 0 1",
            "CHAIN 1 0 1",
            "PERIOD 4",
            "",
        ];
        for printed in [printed, printed_by_grammar] {
            assert_eq!(printed(&file), lines.join("\n"));
            assert_eq!(printed(&[]), "REFUSED 0\n");
        }
    }

    /// The samples print their stored sheets, and both readers read them alike.
    #[test]
    fn sample_cases() {
        let folder = concat!(env!("CARGO_MANIFEST_DIR"), "/../../cases");
        let mut count = 0;
        for entry in std::fs::read_dir(folder).expect("the samples are there") {
            let path = entry.expect("a sample").path();
            if path.extension().is_some_and(|e| e == "case") {
                let file = std::fs::read(&path).expect("a case");
                let stored = std::fs::read_to_string(path.with_extension("sheet"));
                let stored = stored.expect("its sheet");
                assert_eq!(printed(&file), stored, "{path:?}");
                assert_eq!(
                    read_by_grammar(&file),
                    Case::read(&file).map(Case::stating),
                    "{path:?}"
                );
                count += 1;
            }
        }
        assert_ne!(count, 0);
    }
}
