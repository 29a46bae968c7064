//! The data sheet of the case on standard input, by the independent implementation. The sheets in `cases/` were made with it, from the repository's
//! root:
//!
//!     cargo run --release --manifest-path rust/Cargo.toml --bin sheet < cases/eighteen.case > cases/eighteen.sheet
use std::io::Read;

fn main() {
    let mut file = vec![];
    std::io::stdin()
        .read_to_end(&mut file)
        .expect("the case is read");
    print!("{}", independent::sheet::printed(&file));
}
