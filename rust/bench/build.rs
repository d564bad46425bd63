//! Links the archive that `rt lib` wrote in crates/words_digest.
use std::path::Path;

fn main() {
    let here = std::env::var("CARGO_MANIFEST_DIR").unwrap();
    let folder = format!("{here}/../../crates/words_digest/out");
    let archive = format!("{folder}/libwords_digest.a");
    assert!(Path::new(&archive).exists(), "no archive of words_digest: rt lib --cpu=x86-64 in crates/words_digest");
    println!("cargo:rustc-link-search=native={folder}");
    println!("cargo:rerun-if-changed={archive}");
}
