//! Links the engine's static library: from the folder in ENGINE_LIB_DIR, else
//! from where `rt lib` in crates/engine leaves it.

use std::env;
use std::path::PathBuf;

fn main() {
    println!("cargo:rerun-if-env-changed=ENGINE_LIB_DIR");
    let own = env::var_os("CARGO_MANIFEST_DIR").map_or_else(PathBuf::new, PathBuf::from);
    let folder = match env::var_os("ENGINE_LIB_DIR") {
        Some(folder) => PathBuf::from(folder),
        None => own.join("../crates/engine/out"),
    };
    let archive = folder.join("libengine.a");
    println!("cargo:rerun-if-changed={}", archive.display());
    assert!(
        archive.exists(),
        "{} is missing: `rt lib` in crates/engine makes it",
        archive.display()
    );
    println!("cargo:rustc-link-search=native={}", folder.display());
    println!("cargo:rustc-link-lib=static=engine");
}
