//! Finds the Rust original and lays it before the compiler.
//!
//! `predict.rs` is compiled where it stands. `deblock.rs` is compiled twice: where it stands, for the filter,
//! and as a copy with one declaration after its text, which makes `src/probe.rs` a child module that sees the
//! private `derive_mb_bs`. (`include!` is refused, since the file starts with `//!`.)

use std::path::{Path, PathBuf};
use std::{env, fs};

const PLACE: &str = "crates/rusty_h264-common/src";

fn main() {
    println!("cargo::rerun-if-env-changed=DEBLOCK_SRC");
    let here = PathBuf::from(env::var("CARGO_MANIFEST_DIR").expect("cargo sets it"));
    let out = PathBuf::from(env::var("OUT_DIR").expect("cargo sets it"));
    let Some(sources) = find(&here) else {
        return;
    };
    let (deblock, predict) = (sources.join("deblock.rs"), sources.join("predict.rs"));
    let probe = here.join("src/probe.rs");
    let probed = out.join("deblock_probed.rs");

    let text = read(&deblock);
    fs::write(&probed, format!("{text}\n#[path = {probe:?}]\npub mod probe;\n")).expect("OUT_DIR can be written");
    let mods = [("deblock", &deblock), ("predict", &predict), ("probed", &probed)];
    let lines: String = mods
        .iter()
        .map(|(name, path)| {
            format!("#[allow(unused, clippy::all, rustdoc::all)]\n#[path = {path:?}]\npub mod {name};\n")
        })
        .collect();
    fs::write(out.join("original.rs"), lines).expect("OUT_DIR can be written");
    for path in [&deblock, &predict, &probe] {
        println!("cargo::rerun-if-changed={}", path.display());
    }
}

/// The folder of the original's sources: in DEBLOCK_SRC, else in docs/src of the repository.
fn find(here: &Path) -> Option<PathBuf> {
    let top = env::var_os("DEBLOCK_SRC").map_or(here.join("../../docs/src"), PathBuf::from);
    let folder = top.join(PLACE);
    if !folder.join("deblock.rs").is_file() {
        println!("cargo::error=the Rust original (deblock.rs and predict.rs) is not in {}", folder.display());
        println!("cargo::error=say where with DEBLOCK_SRC=FOLDER, the folder that holds {PLACE}");
        return None;
    }
    Some(folder.canonicalize().expect("it exists"))
}

fn read(path: &Path) -> String {
    fs::read_to_string(path).unwrap_or_else(|e| panic!("{}: {e}", path.display()))
}
