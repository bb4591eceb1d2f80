//! Links the proved library, crates/exports/out/libexports.a, which `rt lib` makes in crates/exports, and the C code of
//! the kit that it calls for memory.

use std::path::{Path, PathBuf};
use std::process::Command;

/// The folder of the kit: `rt doc` prints the path of a page in it.
fn kit() -> PathBuf {
    if let Some(home) = std::env::var_os("RATTLE_HOME") {
        return home.into();
    }
    let said = Command::new("rt").arg("doc").output().expect("rt doc").stdout;
    let page = PathBuf::from(String::from_utf8(said).expect("a path").trim());
    page.parent().expect("a folder that holds the page").to_path_buf()
}

fn main() {
    let made = Path::new(env!("CARGO_MANIFEST_DIR")).join("../crates/exports/out");
    let library = made.join("libexports.a");
    assert!(library.exists(), "{} is missing: run `rt lib` in crates/exports first", library.display());
    println!("cargo:rerun-if-changed={}", library.display());
    println!("cargo:rustc-link-search=native={}", made.display());
    println!("cargo:rustc-link-search=native={}", kit().join("c").display());
    println!("cargo:rustc-link-lib=static=exports");
    println!("cargo:rustc-link-lib=static=libc_c");
}
