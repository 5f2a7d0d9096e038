//! Compiles and links the check and the walker in C.

use std::env;
use std::path::{Path, PathBuf};
use std::process::Command;

fn main() {
    let here =
        PathBuf::from(env::var("CARGO_MANIFEST_DIR").expect("cargo sets CARGO_MANIFEST_DIR"));
    let out = PathBuf::from(env::var("OUT_DIR").expect("cargo sets OUT_DIR"));
    for header in ["files.h", "check.h", "walker.h"] {
        println!("cargo:rerun-if-changed={}", here.join(header).display());
    }
    link(&here, &out, "check");
    link(&here, &out, "walker");
}

fn link(here: &Path, out: &Path, name: &str) {
    let source = here.join(format!("{name}.c"));
    println!("cargo:rerun-if-changed={}", source.display());
    let object = out.join(format!("{name}.o"));
    let archive = out.join(format!("lib{name}.a"));
    let mut compile = Command::new("cc");
    compile.args(["-O3", "-std=c11", "-Wall", "-Wextra", "-g", "-c"]);
    succeed(compile.arg(source).arg("-o").arg(&object));
    succeed(Command::new("ar").arg("crs").arg(&archive).arg(&object));
    println!("cargo:rustc-link-search=native={}", out.display());
    println!("cargo:rustc-link-lib=static={name}");
}

fn succeed(command: &mut Command) {
    let status = command.status();
    let fine = status.as_ref().is_ok_and(|status| status.success());
    assert!(fine, "{command:?}: {status:?}");
}
