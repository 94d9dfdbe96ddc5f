//! Links the archive that `tools/archive` writes.
use std::{env, path::PathBuf};

fn main() {
    let here = PathBuf::from(env::var("CARGO_MANIFEST_DIR").expect("cargo sets it"));
    let archives = match env::var("POMTVIA_ARCHIVE_DIR") {
        Ok(dir) => PathBuf::from(dir),
        Err(_) => here.join("../../target/staticlib"),
    };
    println!("cargo:rustc-link-search=native={}", archives.display());
    println!("cargo:rustc-link-lib=static=hook");
    println!("cargo:rerun-if-env-changed=POMTVIA_ARCHIVE_DIR");
    println!("cargo:rerun-if-changed={}", archives.join("libhook.a").display());
}
