//! Links the library that BENCH_LIBRARY names, a file libNAME.a, for the feature `inner`. The library with the C interface
//! comes with tests/compare.

use std::env;
use std::path::Path;

fn main() {
    println!("cargo:rerun-if-env-changed=BENCH_LIBRARY");
    if env::var_os("CARGO_FEATURE_INNER").is_none() {
        return;
    }
    let named = env::var_os("BENCH_LIBRARY").expect("BENCH_LIBRARY names the library");
    let library = Path::new(&named);
    println!("cargo:rerun-if-changed={}", library.display());
    let folder = library.parent().expect("a file in a folder");
    let stem = library.file_stem().and_then(|stem| stem.to_str());
    let name = stem.and_then(|stem| stem.strip_prefix("lib"));
    println!("cargo:rustc-link-search=native={}", folder.display());
    println!(
        "cargo:rustc-link-lib=static={}",
        name.expect("a file libNAME.a")
    );
}
