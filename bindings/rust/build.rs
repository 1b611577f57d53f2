//! Finds libpatchname.a: in PATCHNAME_LIB_DIR, or where `rt lib` in crates/patchname writes it.
use std::env;
use std::path::{Path, PathBuf};

fn folder() -> PathBuf {
    match env::var_os("PATCHNAME_LIB_DIR") {
        Some(folder) => PathBuf::from(folder),
        None => Path::new(&env::var_os("CARGO_MANIFEST_DIR").unwrap()).join("../../crates/patchname/out"),
    }
}

fn main() {
    let folder = folder();
    let library = folder.join("libpatchname.a");
    println!("cargo:rerun-if-env-changed=PATCHNAME_LIB_DIR");
    println!("cargo:rerun-if-changed={}", library.display());
    let target = |part: &str| env::var(format!("CARGO_CFG_TARGET_{part}")).unwrap();
    if (target("ARCH"), target("OS")) != ("x86_64".into(), "linux".into()) {
        panic!("libpatchname.a is for Linux on x86-64");
    }
    if !library.is_file() {
        panic!("{}: not found; `rt lib` in crates/patchname writes it, or set PATCHNAME_LIB_DIR", library.display());
    }
    println!("cargo:rustc-link-search=native={}", folder.display());
    println!("cargo:rustc-link-lib=static=patchname");
}
