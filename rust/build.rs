//! Finds the archive: in the folder that BOUNDS_LIBRARY names, else where `tools/archive` puts it in this repository.

use std::env;
use std::path::PathBuf;

fn main() {
    println!("cargo:rerun-if-env-changed=BOUNDS_LIBRARY");
    let root = PathBuf::from(env::var_os("CARGO_MANIFEST_DIR").unwrap_or_default());
    let named = env::var_os("BOUNDS_LIBRARY").filter(|name| !name.is_empty());
    let folder = root.join(named.map_or_else(|| PathBuf::from("../target/lib"), PathBuf::from));
    let Ok(archive) = folder.join("libbounds.a").canonicalize() else {
        eprintln!(
            "{} has no libbounds.a: run `tools/archive` in the repository, or let BOUNDS_LIBRARY name a folder that has one, by its whole path",
            folder.display()
        );
        std::process::exit(1);
    };
    println!("cargo:rerun-if-changed={}", archive.display());
    println!("cargo:rustc-link-search=native={}", folder.display());
    println!("cargo:rustc-link-lib=static=bounds");
}
