//! Finds the archive of the proved filter and hands it to the linker.
//!
//! DEBLOCK_ARCHIVE names it; without that it is target/staticlib/libdeblock.a, which
//! `host/native-staticlib deblock_c target/staticlib/libdeblock.a` writes for the machine that it runs on.

use std::env;
use std::path::PathBuf;

fn main() {
    println!("cargo::rerun-if-env-changed=DEBLOCK_ARCHIVE");
    let root = PathBuf::from(env::var("CARGO_MANIFEST_DIR").expect("cargo sets it")).join("../..");
    let usual = root.join("target/staticlib/libdeblock.a");
    let archive = env::var_os("DEBLOCK_ARCHIVE").map_or(usual, PathBuf::from);
    println!("cargo::rerun-if-changed={}", archive.display());
    let Ok(found) = archive.canonicalize() else {
        println!("cargo::error=the archive {} was not found", archive.display());
        println!("cargo::error=write it with `host/native-staticlib deblock_c target/staticlib/libdeblock.a`,");
        println!("cargo::error=or name one with DEBLOCK_ARCHIVE=FILE, by its whole path");
        return;
    };
    let name = found.file_name().and_then(|s| s.to_str()?.strip_prefix("lib")?.strip_suffix(".a"));
    let (Some(folder), Some(name)) = (found.parent(), name) else {
        println!("cargo::error={}: an archive is called libNAME.a", found.display());
        return;
    };
    println!("cargo::rustc-link-search=native={}", folder.display());
    println!("cargo::rustc-link-lib=static={name}");
    // for build scripts of those that link it, as DEP_DEBLOCK_ARCHIVE
    println!("cargo::metadata=archive={}", found.display());
}
