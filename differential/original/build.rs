// Finds the original sources and writes a file of `mod` items that name them; they are compiled as they stand.
use std::path::{Path, PathBuf};
use std::{env, fs};

const FILES: [(&str, &str); 5] = [
    ("grammar_util", "eqlog/src/grammar_util.rs"),
    ("ast", "eqlog/src/ast.rs"),
    ("scopes", "eqlog/src/scopes.rs"),
    ("bindings", "eqlog/src/scope_checks/bindings.rs"),
    ("occurrences", "eqlog/src/scope_checks/occurrences.rs"),
];

fn sources() -> PathBuf {
    match env::var_os("EQLOG_SRC") {
        Some(folder) => PathBuf::from(folder),
        // differential/original, differential, the repository
        None => Path::new(&env::var("CARGO_MANIFEST_DIR").unwrap()).join("../../../shared/docs/src"),
    }
}

fn main() {
    println!("cargo:rerun-if-env-changed=EQLOG_SRC");
    println!("cargo:rerun-if-changed=build.rs");
    println!("cargo:rustc-check-cfg=cfg(original)");
    let folder = sources();
    let mut text = String::new();
    let mut found = true;
    for (name, file) in FILES {
        let path = folder.join(file);
        println!("cargo:rerun-if-changed={}", path.display());
        match path.canonicalize() {
            Ok(whole) => text.push_str(&format!("#[allow(dead_code)]\n#[path = {:?}]\npub mod {name};\n", whole)),
            Err(_) => found = false,
        }
    }
    if found {
        println!("cargo:rustc-cfg=original");
    } else {
        println!("cargo:warning=the original sources are not in {}: set EQLOG_SRC", folder.display());
    }
    let out = Path::new(&env::var("OUT_DIR").unwrap()).join("sources.rs");
    fs::write(out, text).unwrap();
}
