//! Links `libinterpolator.a`, from the folder that `INTERPOLATOR_LIB` names, or from where
//! `bindings/c` builds it.
use std::env;
use std::path::PathBuf;
use std::process::exit;

const ARCHIVE: &str = "libinterpolator.a";

fn main() {
    println!("cargo:rerun-if-env-changed=INTERPOLATOR_LIB");
    let folder = match env::var_os("INTERPOLATOR_LIB") {
        Some(folder) => PathBuf::from(folder),
        None => PathBuf::from(env!("CARGO_MANIFEST_DIR")).join("../c/build"),
    };
    let archive = folder.join(ARCHIVE);
    println!("cargo:rerun-if-changed={}", archive.display());
    if !archive.is_file() {
        eprintln!("there is no {ARCHIVE} in {}", folder.display());
        eprintln!(
            "build it by `make` in bindings/c, or set INTERPOLATOR_LIB to the folder that has it"
        );
        exit(1);
    }
    println!("cargo:rustc-link-search=native={}", folder.display());
    println!("cargo:rustc-link-lib=static=interpolator");
}
