//! Links libpb.a: from the folder that PB_LIB_DIR names, or else from lib/ of this crate, or else the one that the repository carries.

use std::env;
use std::path::PathBuf;

fn main() {
    println!("cargo:rerun-if-env-changed=PB_LIB_DIR");
    let here =
        PathBuf::from(env::var_os("CARGO_MANIFEST_DIR").expect("cargo names the crate's folder"));
    let named = env::var_os("PB_LIB_DIR").map(PathBuf::from);
    let folder = named.unwrap_or_else(|| {
        let inside = here.join("lib");
        if inside.join("libpb.a").is_file() {
            inside
        } else {
            here.join("../../dist/x86_64-linux-gnu")
        }
    });
    let library = folder.join("libpb.a");
    if !library.is_file() {
        panic!(
            "{} is not there: run ./build, and set PB_LIB_DIR to its folder out",
            library.display()
        );
    }
    let target = ["CARGO_CFG_TARGET_OS", "CARGO_CFG_TARGET_ARCH"]
        .map(|name| env::var(name).unwrap_or_default());
    if target != ["linux", "x86_64"] {
        panic!(
            "libpb.a is for Linux on x86-64, and not for {} on {}",
            target[0], target[1]
        );
    }
    println!("cargo:rerun-if-changed={}", library.display());
    println!("cargo:rustc-link-search=native={}", folder.display());
    println!("cargo:rustc-link-lib=static=pb");
}
