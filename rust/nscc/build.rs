//! Links the proved library, which stands outside of Cargo's folders. Its archive is for x86-64: on
//! another processor a bridge to it is built, a program for the emulator.

use std::path::{Path, PathBuf};
use std::process::{self, Command};
use std::{env, fs};

/// The variable that names a folder with an archive for this processor.
const FOLDER: &str = "NSCC_ARCHIVE_DIR";
const ARCHIVE: &str = "libnscc.a";

fn main() {
    println!("cargo:rerun-if-env-changed={FOLDER}");
    println!("cargo:rustc-check-cfg=cfg(bridge)");
    let root = PathBuf::from(variable("CARGO_MANIFEST_DIR")).join("../..");
    let named = env::var_os(FOLDER).map(PathBuf::from);
    let native = named.is_some() || variable("CARGO_CFG_TARGET_ARCH") == "x86_64";
    let folder = named.unwrap_or_else(|| root.join("target/lib"));
    let archive = folder.join(ARCHIVE);
    println!("cargo:rerun-if-changed={}", archive.display());
    if !archive.is_file() {
        fail(&format!(
            "{} is missing.\nMake it with `tools/library` at the repository's root, \
             or name its folder in {FOLDER}.",
            archive.display()
        ));
    }
    if native {
        println!("cargo:rustc-link-search=native={}", folder.display());
        println!("cargo:rustc-link-lib=static:-bundle=nscc");
    } else {
        build_bridge(&root, &archive);
    }
}

fn build_bridge(root: &Path, archive: &Path) {
    let script = root.join("tools/x86-64");
    let bridge = PathBuf::from(variable("OUT_DIR")).join("bridge");
    for file in ["bridge.c", "../../include/nscc.h", "../../tools/x86-64"] {
        println!("cargo:rerun-if-changed={file}");
    }
    let compiled = Command::new(&script)
        .arg("cc")
        .args([bridge.as_path(), Path::new("bridge.c"), archive])
        .args(["-std=c99", "-O2", "-Wall", "-Wextra", "-Werror", "-I"])
        .arg(root.join("include"))
        .status();
    if !compiled.is_ok_and(|status| status.success()) {
        fail("The bridge to the library for x86-64 could not be built.");
    }
    let script = fs::canonicalize(script).expect("it has just been run");
    println!("cargo:rustc-cfg=bridge");
    println!("cargo:rustc-env=NSCC_RUN={}", script.display());
    println!("cargo:rustc-env=NSCC_BRIDGE={}", bridge.display());
}

fn variable(name: &str) -> String {
    env::var(name).expect("Cargo sets it")
}

fn fail(message: &str) -> ! {
    eprintln!("{message}");
    process::exit(1);
}
