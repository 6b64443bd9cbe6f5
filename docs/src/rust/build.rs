//! Links libyakuemi.a: from YAKUEMI_LIB, or from where `build.sh` puts it.
use std::{env, path::PathBuf};

fn main() {
    let folder = env::var("YAKUEMI_LIB").map(PathBuf::from).unwrap_or_else(|_| {
        PathBuf::from(env::var("CARGO_MANIFEST_DIR").unwrap()).join("../../../target/lib")
    });
    println!("cargo:rerun-if-env-changed=YAKUEMI_LIB");
    println!("cargo:rerun-if-changed={}", folder.join("libyakuemi.a").display());
    println!("cargo:rustc-link-search=native={}", folder.display());
    println!("cargo:rustc-link-lib=static=yakuemi");
}
