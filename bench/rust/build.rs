//! With the feature `library`: link libvodlasim_c.a from the folder VODLASIM_LIB, by default crates/vodlasim_c/out of the repository.

use std::{env, path::Path};

fn main() {
    println!("cargo:rerun-if-env-changed=VODLASIM_LIB");
    if env::var_os("CARGO_FEATURE_LIBRARY").is_none() {
        return;
    }
    let crate_folder = env::var("CARGO_MANIFEST_DIR").unwrap();
    let folder = env::var("VODLASIM_LIB").unwrap_or(format!("{crate_folder}/../../crates/vodlasim_c/out"));
    let library = Path::new(&folder).join("libvodlasim_c.a");
    println!("cargo:rerun-if-changed={}", library.display());
    println!("cargo:rustc-link-search=native={folder}");
    println!("cargo:rustc-link-lib=static=vodlasim_c");
}
