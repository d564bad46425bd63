//! Links the archive that `rt lib` wrote in crates/luad51.
use std::path::Path;

fn main() {
    let here = std::env::var("CARGO_MANIFEST_DIR").unwrap();
    let folder = format!("{here}/../../crates/luad51/out");
    let archive = format!("{folder}/libluad51.a");
    assert!(Path::new(&archive).exists(), "no archive of luad51: rt lib --cpu=x86-64 in crates/luad51");
    println!("cargo:rustc-link-search=native={folder}");
    println!("cargo:rerun-if-changed={archive}");
}
