//! Links the keeper: the archives of `export_cells`, `export_sizes`, `export_wakes`, `export_states`, `export_tables`,
//! `export_feed`, `export_bench`, `export_saved` and `c_host` in the folder that KEEPER_ARCHIVES names,
//! or in `target/archives` of the repository.

use std::env;
use std::fs;
use std::path::{Path, PathBuf};

fn main() {
    let package = PathBuf::from(env::var_os("CARGO_MANIFEST_DIR").expect("cargo sets it"));
    let out = PathBuf::from(env::var_os("OUT_DIR").expect("cargo sets it"));
    let folder = env::var_os("KEEPER_ARCHIVES")
        .map_or_else(|| package.join("../../target/archives"), PathBuf::from);
    println!("cargo:rerun-if-env-changed=KEEPER_ARCHIVES");
    println!("cargo:rustc-link-search=native={}", out.display());
    for name in [
        "export_cells",
        "export_sizes",
        "export_wakes",
        "export_states",
        "export_tables",
        "export_feed",
        "export_bench",
        "export_saved",
        "c_host",
    ] {
        link(name, &folder, &out);
    }
}

/// Links a copy of the archive, so that cargo links anew when it has changed.
fn link(name: &str, folder: &Path, out: &Path) {
    let file = format!("lib{name}.a");
    let archive = folder.join(&file);
    println!("cargo:rerun-if-changed={}", archive.display());
    if let Err(error) = fs::copy(&archive, out.join(&file)) {
        panic!(
            "{}: {error}; `tests/archives target/archives {name}` makes it",
            archive.display()
        );
    }
    println!("cargo:rustc-link-lib=static={name}");
}
