//! Puts the original, unchanged, and `src/beside_original.rs` after it into one file, so that the harness can call the original's private functions.

use std::path::{Path, PathBuf};
use std::{env, fs};

const ORIGINAL: &str = "../../docs/src/crates/core/src/image_reach.rs";
const BESIDE: &str = "src/beside_original.rs";

fn main() {
    let here = PathBuf::from(env::var("CARGO_MANIFEST_DIR").expect("cargo names the manifest's folder"));
    let out = PathBuf::from(env::var("OUT_DIR").expect("cargo names a folder for what is built"));
    let both = out.join("image_reach.rs");
    fs::write(&both, format!("{}\n{}", text(&here.join(ORIGINAL)), text(&here.join(BESIDE)))).expect("the copy can be written");
    // The original begins with inner comments, which `include!` refuses: so the module is named by its path, and this one line is included.
    let line = format!("#[allow(dead_code)]\n#[path = {:?}]\nmod original;\n", both.display().to_string());
    fs::write(out.join("original_module.rs"), line).expect("the module's line can be written");
}

fn text(path: &Path) -> String {
    println!("cargo:rerun-if-changed={}", path.display());
    fs::read_to_string(path).unwrap_or_else(|why| panic!("{}: {why}", path.display()))
}
