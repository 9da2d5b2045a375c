//! Finds the two static libraries: that of `crates/settle_c`, which `rt lib` proves and builds, and the toolchain's, through which it calls `malloc`.
//!
//! `SETTLE_LIB_DIR` and `SETTLE_HEAP_DIR` name other folders that have them.

use std::env;
use std::path::{Path, PathBuf};
use std::process::Command;

/// The folder of `libsettle_c.a`, which is built where it is not there.
fn settle_folder() -> PathBuf {
    if let Some(folder) = env::var_os("SETTLE_LIB_DIR") {
        return folder.into();
    }
    let package = env::var_os("CARGO_MANIFEST_DIR").expect("cargo names the package's folder");
    let krate = Path::new(&package).join("../../crates/settle_c");
    let folder = krate.join("out");
    if !folder.join("libsettle_c.a").exists() {
        let status = Command::new("rt").arg("lib").current_dir(&krate).status().expect("`rt` can be run");
        assert!(status.success(), "`rt lib` fails in {}", krate.display());
    }
    folder
}

/// The folder of `liblibc_c.a`, beside that of the program `rt`.
fn heap_folder() -> PathBuf {
    if let Some(folder) = env::var_os("SETTLE_HEAP_DIR") {
        return folder.into();
    }
    let paths = env::var_os("PATH").unwrap_or_default();
    let rt = env::split_paths(&paths).map(|path| path.join("rt")).find(|path| path.is_file());
    let rt = rt.and_then(|path| path.canonicalize().ok()).expect("`rt` is on the path");
    rt.parent().and_then(Path::parent).expect("`rt` lies in the toolchain's folder").join("c")
}

fn main() {
    for (folder, library) in [(settle_folder(), "settle_c"), (heap_folder(), "libc_c")] {
        println!("cargo:rerun-if-changed={}", folder.join(format!("lib{library}.a")).display());
        println!("cargo:rustc-link-search=native={}", folder.display());
        println!("cargo:rustc-link-lib=static={library}");
    }
    println!("cargo:rerun-if-env-changed=SETTLE_LIB_DIR");
    println!("cargo:rerun-if-env-changed=SETTLE_HEAP_DIR");
}
