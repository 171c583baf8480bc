//! Links librules.a: the one that RULES_LIBRARY names, or the one that `tools/products.sh rules` made.

use std::env;
use std::path::PathBuf;

fn main() {
    let written = || PathBuf::from(env!("CARGO_MANIFEST_DIR")).join("../../target/staticlib/librules.a");
    let library = env::var_os("RULES_LIBRARY").map_or_else(written, PathBuf::from);
    let library = library
        .canonicalize()
        .unwrap_or_else(|error| panic!("{}: {error} (run `tools/products.sh rules` first)", library.display()));
    let folder = library.parent().expect("a file has a folder");
    println!("cargo:rerun-if-env-changed=RULES_LIBRARY");
    println!("cargo:rerun-if-changed={}", library.display());
    println!("cargo:rustc-link-search=native={}", folder.display());
    println!("cargo:rustc-link-lib=static=rules");
}
