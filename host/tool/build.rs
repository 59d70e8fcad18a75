//! Writes what `deblock --version` prints: version, commit, and what the archive was proved with.

use std::env;
use std::path::PathBuf;

#[path = "src/version.rs"]
mod version;

fn main() {
    let root = PathBuf::from(env::var_os("CARGO_MANIFEST_DIR").expect("cargo sets it")).join("../..");
    let number = env::var("CARGO_PKG_VERSION").expect("cargo sets it");
    let archive = env::var_os("DEP_DEBLOCK_ARCHIVE").expect("the binding's build script tells it");
    let proved = PathBuf::from(archive).with_extension("txt");
    let (commit, archive) = (version::commit(&root), version::proved(&proved));
    let out = PathBuf::from(env::var_os("OUT_DIR").expect("cargo sets it")).join("version.txt");
    std::fs::write(out, format!("deblock {number}\ncommit: {commit}\n{archive}")).expect("cargo's own folder");

    let made_of = version::MADE_OF.iter().map(|part| root.join(part));
    for watched in made_of.chain(version::log(&root)).chain([proved]) {
        println!("cargo::rerun-if-changed={}", watched.display());
    }
}
