//! Finds the original Rust files and writes the list of modules that lib.rs
//! includes. Nothing is copied: each module is compiled from its own path, but
//! `lin/mod.rs` through a link, since it looks for its own modules beside itself.

use std::os::unix::fs::symlink;
use std::path::{Path, PathBuf};
use std::{env, fs};

/// Where the files are when GOLAVIMES_RUST_SRC is not set, from the root of
/// the repository.
const DEFAULT: &str = "../shared/docs/src";

fn main() {
    println!("cargo:rerun-if-env-changed=GOLAVIMES_RUST_SRC");
    println!("cargo:rerun-if-changed=build.rs");

    let here = PathBuf::from(env::var_os("CARGO_MANIFEST_DIR").expect("cargo sets it"));
    let root = here
        .ancestors()
        .nth(2)
        .expect("two folders above this crate");
    let named = env::var_os("GOLAVIMES_RUST_SRC")
        .filter(|text| !text.is_empty())
        .unwrap_or_else(|| DEFAULT.into());
    // A relative path counts from the root of the repository.
    let folder = root.join(&named);
    let folder = folder.canonicalize().unwrap_or_else(|error| {
        panic!(
            "the original Rust is not at {}: {error}; name its folder in GOLAVIMES_RUST_SRC",
            folder.display()
        )
    });

    let out = PathBuf::from(env::var_os("OUT_DIR").expect("cargo sets it"));
    let text = format!(
        "{}{}pub mod pbn {{\n{}{}{}\n    pub use self::dd::*;\n    pub use self::reader::*;\n    pub use self::writer::*;\n}}\n",
        module(&folder, "error.rs", "error"),
        linked_lin(&folder, &here.join("src"), &out),
        module(&folder, "pbn/dd.rs", "dd"),
        module(&folder, "pbn/reader.rs", "reader"),
        module(&folder, "pbn/writer.rs", "writer"),
    );
    fs::write(out.join("modules.rs"), text).expect("OUT_DIR can be written");
}

/// The line that makes a module of one file.
fn module(folder: &Path, file: &str, name: &str) -> String {
    let path = folder.join(file);
    println!("cargo:rerun-if-changed={}", path.display());
    let path = path.to_str().expect("the path is text");
    format!("#[path = {path:?}]\npub mod {name};\n")
}

/// The line that makes a module of a folder of links: the original `lin/mod.rs`,
/// and the stand-ins for the two modules that it declares.
fn linked_lin(folder: &Path, stand_ins: &Path, out: &Path) -> String {
    fs::create_dir_all(out.join("lin")).expect("OUT_DIR can be written");
    for (from, file) in [
        (folder, "lin/mod.rs"),
        (stand_ins, "lin/document.rs"),
        (stand_ins, "lin/writer.rs"),
    ] {
        let (from, link) = (from.join(file), out.join(file));
        println!("cargo:rerun-if-changed={}", from.display());
        let _ = fs::remove_file(&link);
        symlink(&from, &link).expect("OUT_DIR takes links");
    }
    module(out, "lin/mod.rs", "lin")
}
