//! Links libteivorm.a: of the folder in TEIVORM_LIB_DIR, of `lib` beside this package (in a release), or of `../c/out` (in the repository).
use std::path::{Path, PathBuf};

fn main() {
    println!("cargo:rerun-if-env-changed=TEIVORM_LIB_DIR");
    let here = PathBuf::from(std::env::var("CARGO_MANIFEST_DIR").expect("cargo sets CARGO_MANIFEST_DIR"));
    let folder = match std::env::var("TEIVORM_LIB_DIR") {
        Ok(folder) => PathBuf::from(folder),
        Err(_) => near(&here).expect("libteivorm.a is missing: set TEIVORM_LIB_DIR"),
    };
    println!("cargo:rustc-link-search=native={}", folder.display());
    println!("cargo:rustc-link-lib=static=teivorm");
    println!("cargo:rerun-if-changed={}", folder.join("libteivorm.a").display());
}

fn near(here: &Path) -> Option<PathBuf> {
    ["../lib", "../c/out"].map(|it| here.join(it)).into_iter().find(|it| it.join("libteivorm.a").is_file())
}
