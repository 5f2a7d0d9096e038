//! Finds the original's sources and writes the lines that compile them,
//! unchanged, as modules of this crate.

use std::path::{Path, PathBuf};
use std::{env, fs};

/// Where the sources are, seen from this folder, unless `ORIGINAL_SRC` names
/// another place.
const USUAL_PLACE: &str = "../../shared/docs/src/crates/ag-engine/src";

/// The original's files that the harness compiles.
const MODULES: [&str; 2] = ["ast", "emulate"];

fn main() {
    println!("cargo:rerun-if-env-changed=ORIGINAL_SRC");
    let place = sources();
    let lines: String = MODULES.iter().map(|name| module(&place, name)).collect();
    let out = PathBuf::from(env::var("OUT_DIR").expect("cargo sets OUT_DIR"));
    fs::write(out.join("original.rs"), lines).expect("OUT_DIR can be written");
}

fn sources() -> PathBuf {
    match env::var_os("ORIGINAL_SRC") {
        Some(place) => PathBuf::from(place),
        None => {
            let here = env::var("CARGO_MANIFEST_DIR").expect("cargo sets CARGO_MANIFEST_DIR");
            Path::new(&here).join(USUAL_PLACE)
        }
    }
}

fn module(place: &Path, name: &str) -> String {
    let file = place.join(format!("{name}.rs"));
    let file = file.canonicalize().unwrap_or_else(|why| {
        panic!(
            "{}: {why}; set ORIGINAL_SRC to the folder of the original's ast.rs and emulate.rs",
            file.display()
        )
    });
    println!("cargo:rerun-if-changed={}", file.display());
    format!("#[path = {file:?}]\npub mod {name};\n")
}
