// Links the proved library that `rt lib` writes in crates/exports, or the one in the folder that CURRYCREAM_LIBRARY names.
use std::path::{Path, PathBuf};

fn main() {
    let root = Path::new(env!("CARGO_MANIFEST_DIR")).parent().unwrap();
    let folder = match std::env::var_os("CURRYCREAM_LIBRARY") {
        Some(named) => PathBuf::from(named),
        None => root.join("crates/exports/out"),
    };
    println!("cargo:rerun-if-env-changed=CURRYCREAM_LIBRARY");
    println!("cargo:rerun-if-changed={}", folder.join("libexports.a").display());
    println!("cargo:rustc-link-search=native={}", folder.display());
    println!("cargo:rustc-link-lib=static=exports");
}
