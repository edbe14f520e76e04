//! Finds libimage_reach.a: in the folder that IMAGE_REACH_LIB_DIR names, or where `tools/staticlib` writes it.

use std::env;
use std::path::PathBuf;

fn main() {
    let folder = match env::var_os("IMAGE_REACH_LIB_DIR") {
        Some(folder) => PathBuf::from(folder),
        None => PathBuf::from(env::var_os("CARGO_MANIFEST_DIR").unwrap()).join("../../target/staticlib"),
    };
    let library = folder.join("libimage_reach.a");
    if env::var("CARGO_CFG_TARGET_ARCH").as_deref() != Ok("x86_64") {
        panic!("the library is compiled for x86-64 Linux only");
    }
    if !library.is_file() {
        panic!(
            "{} is missing: run `tools/staticlib` in the repository, or set IMAGE_REACH_LIB_DIR to its folder",
            library.display()
        );
    }
    println!("cargo:rustc-link-search=native={}", folder.display());
    println!("cargo:rerun-if-changed={}", library.display());
    println!("cargo:rerun-if-env-changed=IMAGE_REACH_LIB_DIR");
}
