// Links the archive that the script `staticlib` at the top of the repository writes.
use std::env;
use std::path::{Path, PathBuf};

fn main() {
    println!("cargo:rerun-if-env-changed=EQLOG_LIB_DIR");
    let folder = match env::var_os("EQLOG_LIB_DIR") {
        Some(folder) => PathBuf::from(folder),
        None => Path::new(&env::var("CARGO_MANIFEST_DIR").unwrap()).join("../target/staticlib"),
    };
    let archive = folder.join("libexports.a");
    println!("cargo:rerun-if-changed={}", archive.display());
    if !archive.exists() {
        panic!("{} is not there: run ./staticlib at the top of the repository first, or set EQLOG_LIB_DIR", archive.display());
    }
    println!("cargo:rustc-link-search=native={}", folder.display());
    println!("cargo:rustc-link-lib=static=exports");
}
