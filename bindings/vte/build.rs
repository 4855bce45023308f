// SPDX-License-Identifier: MIT
//! Says which calls the version has, and finds the module `ansi` in the sources of vte.
use std::env;
use std::fs;
use std::path::{Path, PathBuf};
use std::process;

fn main() {
    println!("cargo:rerun-if-env-changed=VTE_SOURCE");
    println!("cargo:rustc-check-cfg=cfg(by_byte)");
    let minor = named("CARGO_PKG_VERSION_MINOR").parse::<u32>();
    if minor.is_ok_and(|it| it < 14) {
        println!("cargo:rustc-cfg=by_byte");
    }
    if env::var_os("CARGO_FEATURE_ANSI").is_none() {
        return;
    }
    let module = source().join("src/ansi.rs");
    if !module.is_file() {
        eprintln!(
            "vte: {} is not there: set VTE_SOURCE to the folder with the sources of vte {}",
            module.display(),
            named("CARGO_PKG_VERSION"),
        );
        process::exit(1);
    }
    println!("cargo:rerun-if-changed={}", module.display());
    let text = format!("#[path = {module:?}]\npub mod ansi;\n");
    let file = Path::new(&named("OUT_DIR")).join("ansi.rs");
    if let Err(error) = fs::write(&file, text) {
        eprintln!("vte: {}: {error}", file.display());
        process::exit(1);
    }
}

fn named(name: &str) -> String {
    env::var(name).unwrap_or_default()
}

// The folder with the sources of vte.
fn source() -> PathBuf {
    let version = named("CARGO_PKG_VERSION");
    let debian = || format!("/usr/share/cargo/registry/vte-{version}").into();
    env::var_os("VTE_SOURCE").map_or_else(debian, PathBuf::from)
}
