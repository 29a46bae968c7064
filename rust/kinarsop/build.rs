//! Tells cargo to link `libkinarsop.a`. Where it cannot be linked the build goes on, so that `cargo check` works everywhere, and a warning says what
//! to do; a program, and a test, then stops at the linker.
use std::env;
use std::path::{Path, PathBuf};

/// Where `./library` leaves the library, from this package.
const BUILT: &str = "../../target/staticlib";

/// The folder that the environment names, else the one where the library is built.
fn folder() -> PathBuf {
    let package = env::var_os("CARGO_MANIFEST_DIR").expect("cargo names the package's folder");
    let named = env::var_os("KINARSOP_LIB").filter(|folder| !folder.is_empty());
    Path::new(&package).join(named.unwrap_or_else(|| BUILT.into()))
}

/// The library is machine code for one kind of target.
fn fits_target() -> bool {
    let is = |key: &str, value: &str| env::var(key).is_ok_and(|found| found == value);
    is("CARGO_CFG_TARGET_ARCH", "x86_64")
        && is("CARGO_CFG_TARGET_POINTER_WIDTH", "64")
        && is("CARGO_CFG_TARGET_OS", "linux")
}

fn main() {
    let folder = folder();
    let library = folder.join("libkinarsop.a");
    println!("cargo:rerun-if-env-changed=KINARSOP_LIB");
    println!("cargo:rerun-if-changed=build.rs");
    println!("cargo:rerun-if-changed={}", library.display());
    if !fits_target() {
        println!(
            "cargo:warning=kinarsop is for 64-bit x86-64 Linux, so nothing is linked for this \
             target: check it here, and build it with --target x86_64-unknown-linux-gnu"
        );
    } else if !library.is_file() {
        println!(
            "cargo:warning={} is not there, so nothing is linked: run `./library` at the \
             repository's root, or name the library's folder in KINARSOP_LIB",
            library.display()
        );
    } else {
        println!("cargo:rustc-link-search=native={}", folder.display());
        println!("cargo:rustc-link-lib=static=kinarsop");
    }
}
