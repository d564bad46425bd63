//! Finds luad's published files, in the directory that LUAD_SRC names (an absolute path) or in shared/docs/src beside
//! the repository, and names them as modules. They are compiled where they stand, unchanged.
use std::path::{Path, PathBuf};
use std::{env, fs};

/// The published files, by crate.
const PUBLISHED: [(&str, &[&str]); 2] = [
    ("luad-core", &["limits", "model", "reader"]),
    ("luad-dialect-lua51", &["chunk", "header", "opcodes", "roles", "validator"]),
];

/// The directory of the published files.
fn source() -> PathBuf {
    let here = PathBuf::from(env::var("CARGO_MANIFEST_DIR").unwrap());
    let source = match env::var("LUAD_SRC") {
        Ok(dir) => PathBuf::from(dir),
        Err(_) => here.join("../../../shared/docs/src"),
    };
    source.canonicalize().expect("luad's published files: set LUAD_SRC to their directory")
}

fn main() {
    println!("cargo:rerun-if-env-changed=LUAD_SRC");
    let source = source();
    let mut modules = String::new();
    for (package, names) in PUBLISHED {
        for name in names {
            let file = source.join(format!("crates/{package}/src/{name}.rs"));
            println!("cargo:rerun-if-changed={}", file.display());
            modules += &format!("#[allow(warnings)]\n#[path = {file:?}]\npub mod {name};\n");
        }
    }
    fs::write(Path::new(&env::var("OUT_DIR").unwrap()).join("published.rs"), modules).unwrap();
}
