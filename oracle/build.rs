//! Finds the crate's own files (folder in the environment variable RAPIER_SRC) and writes the
//! `mod` lines that compile them in place. Only `persistent.rs` is copied, because the oracle has
//! to read three fields that are private to it: the copy is the file byte for byte, followed by
//! `src/probe.rs.in`.

use std::path::{Path, PathBuf};
use std::{env, fs};

const ALLOW: &str = "#[allow(dead_code, unused_imports, clippy::all)]\n#[rustfmt::skip]\n";

fn main() {
    println!("cargo::rerun-if-env-changed=RAPIER_SRC");
    let Some(source) = env::var_os("RAPIER_SRC").map(PathBuf::from) else {
        eprintln!(
            "set RAPIER_SRC to the folder `src` of rapier3d 0.35.3, whose two files are compiled as they stand"
        );
        std::process::exit(1);
    };
    let source = fs::canonicalize(&source)
        .unwrap_or_else(|e| panic!("RAPIER_SRC folder {}: {e}", source.display()));
    let out = PathBuf::from(env::var("OUT_DIR").expect("OUT_DIR"));

    let arena = file(&source, "data/arena.rs");
    let union_find = file(&source, "data/union_find.rs");
    let handle = file(&source, "dynamics/rigid_body_handle.rs");
    let global_split = file(&source, "dynamics/island_manager/global_split.rs");
    let persistent = file(&source, "dynamics/island_manager/persistent.rs");

    println!("cargo::rerun-if-changed=src/probe.rs.in");
    let mut text = fs::read(&persistent).expect("persistent.rs");
    text.extend(fs::read("src/probe.rs.in").expect("src/probe.rs.in"));
    let probed = out.join("persistent.rs");
    fs::write(&probed, text).expect("copy of persistent.rs");

    mods(
        &out.join("data_mods.rs"),
        &[("arena", &arena), ("union_find", &union_find)],
    );
    mods(
        &out.join("dynamics_mods.rs"),
        &[("rigid_body_handle", &handle)],
    );
    mods(
        &out.join("island_mods.rs"),
        &[("persistent", &probed), ("global_split", &global_split)],
    );
}

fn file(source: &Path, name: &str) -> PathBuf {
    let path = source.join(name);
    println!("cargo::rerun-if-changed={}", path.display());
    assert!(path.is_file(), "no file {}", path.display());
    path
}

fn mods(file: &Path, list: &[(&str, &Path)]) {
    let text: String = list
        .iter()
        .map(|(name, path)| format!("{ALLOW}#[path = {path:?}]\npub(crate) mod {name};\n"))
        .collect();
    fs::write(file, text).expect("mod lines");
}
