//! Links `libashwoodrung.a`, the proved static library, which `tools/build.sh archive` writes to the repository's `target/staticlib`. Another folder
//! is named by the environment variable ASHWOODRUNG_LIB.

use std::env;
use std::path::PathBuf;

fn main() {
    println!("cargo:rerun-if-env-changed=ASHWOODRUNG_LIB");
    let here = PathBuf::from(env::var("CARGO_MANIFEST_DIR").expect("CARGO_MANIFEST_DIR"));
    let folder = match env::var_os("ASHWOODRUNG_LIB") {
        Some(folder) => PathBuf::from(folder),
        None => here.join("../../target/staticlib"),
    };
    let archive = folder.join("libashwoodrung.a");
    println!("cargo:rerun-if-changed={}", archive.display());
    if !archive.is_file() {
        eprintln!(
            "no {}: build it with `tools/build.sh archive` in the repository, or name its folder in ASHWOODRUNG_LIB",
            archive.display()
        );
        std::process::exit(1);
    }
    let target = env::var("CARGO_CFG_TARGET_ARCH").unwrap_or_default();
    if target != "x86_64" {
        eprintln!("libashwoodrung.a links into x86-64 programs only: build with --target x86_64-unknown-linux-gnu");
        std::process::exit(1);
    }
    println!("cargo:rustc-link-search=native={}", folder.display());
    println!("cargo:rustc-link-lib=static=ashwoodrung");
}
