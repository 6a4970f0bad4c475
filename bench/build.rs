//! With the feature `proved`: links the static library of the proved judge,
//! which `./staticlib` makes; with `earlier`, also that of an earlier commit,
//! which `bench/earlier` makes.

use std::env;
use std::path::PathBuf;

fn main() {
    println!("cargo::rerun-if-changed=build.rs");
    if env::var_os("CARGO_FEATURE_PROVED").is_some() {
        link("claysaucer", "`./staticlib` at the root");
    }
    if env::var_os("CARGO_FEATURE_EARLIER").is_some() {
        link("earlier", "`bench/earlier COMMIT`");
    }
}

/// Links a static library, or says which command makes it.
fn link(name: &str, maker: &str) {
    let manifest = env::var("CARGO_MANIFEST_DIR").expect("cargo sets it");
    let folder = PathBuf::from(manifest).join("../target/staticlib");
    let library = folder.join(format!("lib{name}.a"));
    println!("cargo::rerun-if-changed={}", library.display());
    if library.is_file() {
        println!("cargo::rustc-link-search=native={}", folder.display());
        println!("cargo::rustc-link-lib=static={name}");
    } else {
        println!(
            "cargo::error=target/staticlib/lib{name}.a is not there: \
             run {maker} first, which proves the judge and makes it"
        );
    }
}
