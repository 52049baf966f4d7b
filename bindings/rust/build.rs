//! Links the archive of the proved library: from the folder that QS_LIB_DIR names, or else from ../../target/staticlib.

use std::env;
use std::path::{Path, PathBuf};

fn main() {
    println!("cargo:rerun-if-env-changed=QS_LIB_DIR");
    let folder = match env::var_os("QS_LIB_DIR") {
        Some(folder) => PathBuf::from(folder),
        // Of this build, not of the one that made the build script: a copied target folder has another's.
        None => {
            let package = env::var_os("CARGO_MANIFEST_DIR").expect("cargo sets it");
            Path::new(&package).join("../../target/staticlib")
        }
    };
    let archive = folder.join("libexports.a");
    println!("cargo:rerun-if-changed={}", archive.display());
    if !archive.is_file() {
        eprintln!(
            "{} is missing: build it with `tools/build archive`, or set QS_LIB_DIR to the folder that has it.",
            archive.display()
        );
        std::process::exit(1);
    }
    println!("cargo:rustc-link-search=native={}", folder.display());
    println!("cargo:rustc-link-lib=static=exports");
}
