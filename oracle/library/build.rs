//! Links the static library of our reader.

use std::env;
use std::path::{Path, PathBuf};

/// Where the library is, seen from this folder, unless `EMULATE_LIB` names
/// another folder.
const USUAL_PLACE: &str = "../../target/staticlib";

fn main() {
    println!("cargo:rerun-if-env-changed=EMULATE_LIB");
    let folder = match env::var_os("EMULATE_LIB") {
        Some(folder) => PathBuf::from(folder),
        None => {
            let here = env::var("CARGO_MANIFEST_DIR").expect("cargo sets CARGO_MANIFEST_DIR");
            Path::new(&here).join(USUAL_PLACE)
        }
    };
    let library = folder.join("libemulate.a");
    if !library.exists() {
        panic!(
            "{} is not there; build it, or set EMULATE_LIB to its folder",
            library.display()
        );
    }
    println!("cargo:rerun-if-changed={}", library.display());
    println!("cargo:rustc-link-search=native={}", folder.display());
    println!("cargo:rustc-link-lib=static=emulate");
}
