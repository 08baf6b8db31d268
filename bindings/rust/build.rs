//! Links the engine's archive, and the toolchain's C library below it. They are in the folder that JSONPATH_LIB_DIR names, else in
//! `lib/` beside this file, as the packed crate has them, else where the repository builds them.

use std::env;
use std::path::PathBuf;

const ARCHIVE: &str = "libjsonpath_c.a";

/// The folder of the archives.
fn archives() -> PathBuf {
    if let Some(folder) = env::var_os("JSONPATH_LIB_DIR") {
        return PathBuf::from(folder);
    }
    let beside = PathBuf::from(
        env::var_os("CARGO_MANIFEST_DIR").expect("cargo names the manifest's folder"),
    );
    let packed = beside.join("lib");
    if packed.join(ARCHIVE).exists() {
        packed
    } else {
        beside.join("../lib")
    }
}

/// Whether what is built is for the one system that the archives are for.
fn is_for_linux() -> bool {
    let of_target = |name: &str| env::var(name).unwrap_or_default();
    of_target("CARGO_CFG_TARGET_OS") == "linux" && of_target("CARGO_CFG_TARGET_ARCH") == "x86_64"
}

fn main() {
    let folder = archives();
    if !folder.join(ARCHIVE).exists() {
        println!("cargo:warning=there is no {ARCHIVE} in {}", folder.display());
    }
    if !is_for_linux() {
        println!("cargo:warning=the archives are for Linux on x86-64 alone");
    }
    let folder = folder.display();
    println!("cargo:rerun-if-env-changed=JSONPATH_LIB_DIR");
    println!("cargo:rerun-if-changed={folder}/{ARCHIVE}");
    println!("cargo:rustc-link-search=native={folder}");
    println!("cargo:rustc-link-lib=static=jsonpath_c");
    println!("cargo:rustc-link-lib=static=libc_c");
}
