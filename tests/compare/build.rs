//! Links the library that HALL_LIBRARY names, a file libNAME.a.

use std::env;
use std::path::Path;

fn main() {
    println!("cargo:rerun-if-env-changed=HALL_LIBRARY");
    let named = env::var_os("HALL_LIBRARY").expect("HALL_LIBRARY names the library");
    let library = Path::new(&named);
    println!("cargo:rerun-if-changed={}", library.display());
    let folder = library.parent().expect("a file in a folder");
    let stem = library.file_stem().and_then(|stem| stem.to_str());
    let name = stem.and_then(|stem| stem.strip_prefix("lib"));
    println!("cargo:rustc-link-search=native={}", folder.display());
    println!(
        "cargo:rustc-link-lib=static={}",
        name.expect("a file libNAME.a")
    );
}
