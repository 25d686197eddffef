//! Links libgolavimes.a from the folder named by GOLAVIMES_LIB.

use std::env;
use std::path::PathBuf;

/// Where the archive is when GOLAVIMES_LIB is not set, from the root of the
/// repository.
const DEFAULT: &str = "target/staticlib";

fn main() {
    println!("cargo:rerun-if-env-changed=GOLAVIMES_LIB");
    println!("cargo:rerun-if-changed=build.rs");

    let here = PathBuf::from(env::var_os("CARGO_MANIFEST_DIR").expect("cargo sets it"));
    let root = here
        .ancestors()
        .nth(2)
        .expect("two folders above this crate");
    let named = env::var_os("GOLAVIMES_LIB")
        .filter(|text| !text.is_empty())
        .unwrap_or_else(|| DEFAULT.into());
    // A relative path counts from the root of the repository.
    let folder = root.join(named);
    let archive = folder.join("libgolavimes.a");
    println!("cargo:rerun-if-changed={}", archive.display());
    assert!(
        archive.is_file(),
        "{} is not there: make it with tools/archive, or name its folder in GOLAVIMES_LIB",
        archive.display()
    );
    println!("cargo:rustc-link-search=native={}", folder.display());
    println!("cargo:rustc-link-lib=static=golavimes");
}
