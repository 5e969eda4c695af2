//! Links the archive that `interface/try` makes. `TIEBEAMER_ARCHIVES` names another folder for it.
use std::{env, path::PathBuf};

fn main() {
    println!("cargo:rerun-if-env-changed=TIEBEAMER_ARCHIVES");
    let folder = env::var_os("TIEBEAMER_ARCHIVES")
        .map(PathBuf::from)
        .unwrap_or_else(|| {
            let here = env::var_os("CARGO_MANIFEST_DIR").expect("cargo sets it");
            PathBuf::from(here).join("../../target/staticlib")
        });
    println!(
        "cargo:rerun-if-changed={}",
        folder.join("libtiebeamer.a").display()
    );
    println!("cargo:rustc-link-search=native={}", folder.display());
    println!("cargo:rustc-link-lib=static=tiebeamer");
}
