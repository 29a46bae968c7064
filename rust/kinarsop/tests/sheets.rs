//! Every sample case gives the sheet that is stored beside it, and is written again.
use independent::grammar;
use kinarsop::{sheet, write, Refusal, LONGEST_CASE};
use std::fs;

#[test]
fn sample_cases() {
    let folder = concat!(env!("CARGO_MANIFEST_DIR"), "/../../cases");
    let (mut sheets, mut refused) = (0, 0);
    for entry in fs::read_dir(folder).expect("the samples are there") {
        let path = entry.expect("a sample").path();
        if path.extension().is_some_and(|e| e == "case") {
            let file = fs::read(&path).expect("a case");
            let stored = fs::read_to_string(path.with_extension("sheet")).expect("its sheet");
            match sheet(&file) {
                Ok(text) => {
                    assert_eq!(text, stored, "{path:?}");
                    sheets += 1;
                }
                Err(refusal) => {
                    assert_eq!(refusal.number(), 8);
                    let Refusal::File { place } = refusal else {
                        panic!("{path:?}: {refusal}");
                    };
                    assert_eq!(format!("REFUSED {place}\n"), stored, "{path:?}");
                    refused += 1;
                }
            }
        }
    }
    assert!(sheets != 0 && refused != 0);
}

/// The file of the values that a case file has.
fn rewritten(file: &[u8]) -> Option<Vec<u8>> {
    let wide: Vec<u64> = file.iter().map(|&x| x.into()).collect();
    let narrow = |list: Vec<u64>| -> Vec<u8> { list.iter().map(|&x| x as u8).collect() };
    let case = grammar::values(&wide)?;
    let (p, n, allowance) = (case.p as u32, case.n as usize, case.allowance as u32);
    let (matrix, candidates) = (narrow(case.matrix), narrow(case.candidates));
    let written = write(p, n, &matrix, &candidates, allowance);
    Some(written.expect("the values of a case are not refused"))
}

/// A case that states its allowance is written as it was; of any other the sheet is the same.
#[test]
fn sample_cases_are_written_again() {
    let folder = concat!(env!("CARGO_MANIFEST_DIR"), "/../../cases");
    let (mut stating, mut others) = (0, 0);
    for entry in fs::read_dir(folder).expect("the samples are there") {
        let path = entry.expect("a sample").path();
        let file = fs::read(&path).expect("a file");
        let Some(written) = rewritten(&file) else {
            continue;
        };
        if file[5] == b'A' {
            assert_eq!(written, file, "{path:?}");
            stating += 1;
        } else {
            assert_eq!(written.len(), file.len() + 4, "{path:?}");
            assert_eq!(sheet(&written), sheet(&file), "{path:?}");
            others += 1;
        }
    }
    assert!(stating != 0 && others != 0);
}

#[test]
fn files_that_are_no_case() {
    assert_eq!(sheet(&[]), Err(Refusal::File { place: 0 }));
    assert_eq!(sheet(b"REFUSED 5\n"), Err(Refusal::File { place: 0 }));
    let file = *b"\xffF\x03\x02\xffR\x00\x01\xffR\x02\x00\xffC\x01\x00\xffE";
    for length in 0..file.len() {
        let expected = Err(Refusal::File { place: length });
        assert_eq!(sheet(&file[..length]), expected);
    }
    let mut long = vec![255; 1 << 20];
    long[..file.len()].copy_from_slice(&file);
    assert_eq!(sheet(&long), Err(Refusal::File { place: file.len() }));
}

#[test]
fn the_longest_case() {
    let path = concat!(env!("CARGO_MANIFEST_DIR"), "/../../cases/longest.case");
    let mut file = fs::read(path).expect("a case");
    assert_eq!(file.len(), LONGEST_CASE);
    assert!(sheet(&file).is_ok());
    file.push(255);
    let refused = Err(Refusal::File {
        place: LONGEST_CASE,
    });
    assert_eq!(sheet(&file), refused);
    file.resize(1 << 20, 255);
    assert_eq!(sheet(&file), refused);
}
