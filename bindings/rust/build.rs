// SPDX-License-Identifier: MIT
//! Links the archive of the proved library. `ESCAPE_STREAM_LIB` names the folder that has it.
//! Without that it is looked for in `../../lib`, where a release has it, and then by `pkg-config`;
//! without any of these the crate can be checked and documented, and not linked. A program without
//! the feature `oneshot` gets the parser's part of the archive alone, which asks for no memory.
use std::env;
use std::path::{Path, PathBuf};
use std::process::{self, Command};

const ARCHIVE: &str = "libescape_stream.a";

fn main() {
    println!("cargo:rerun-if-env-changed=ESCAPE_STREAM_LIB");
    if !is_built_for(
        &variable("CARGO_CFG_TARGET_OS"),
        &variable("CARGO_CFG_TARGET_ARCH"),
    ) {
        println!(
            "cargo:warning=there is no {ARCHIVE} for {}: it runs on Linux, on x86-64 and aarch64",
            variable("TARGET")
        );
        return;
    }
    let named = env::var_os("ESCAPE_STREAM_LIB").map(PathBuf::from);
    let Some(folder) = named.or_else(beside).or_else(installed) else {
        println!(
            "cargo:warning=to link it, set ESCAPE_STREAM_LIB to the folder that has {ARCHIVE}, or \
             PKG_CONFIG_PATH to that with escape_stream.pc"
        );
        return;
    };
    let archive = folder.join(ARCHIVE);
    if !archive.is_file() {
        eprintln!("escape-stream: {} is not there", archive.display());
        process::exit(1);
    }
    println!("cargo:rerun-if-changed={}", archive.display());
    println!("cargo:rustc-link-search=native={}", folder.display());
    println!("cargo:rustc-link-lib=static=escape_stream");
}

fn variable(name: &str) -> String {
    env::var(name).unwrap_or_default()
}

// Whether there are archives for a system and a processor.
fn is_built_for(system: &str, processor: &str) -> bool {
    system == "linux" && matches!(processor, "x86_64" | "aarch64")
}

// The folder of the archive that is installed, for this machine alone.
fn installed() -> Option<PathBuf> {
    if variable("HOST") != variable("TARGET") {
        return None;
    }
    println!("cargo:rerun-if-env-changed=PKG_CONFIG_PATH");
    let words = ["--variable=libdir", "escape_stream"];
    let found = Command::new("pkg-config").args(words).output().ok()?;
    let folder = PathBuf::from(String::from_utf8(found.stdout).ok()?.trim());
    folder.join(ARCHIVE).is_file().then_some(folder)
}

// The folder of a release that has the archive.
fn beside() -> Option<PathBuf> {
    let folder = Path::new(&env::var_os("CARGO_MANIFEST_DIR")?).join("../../lib");
    folder.join(ARCHIVE).is_file().then_some(folder)
}
