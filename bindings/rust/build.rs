//! Links libhyperplonk.a: the repository's, or that of the folder that HYPERPLONK_LIB_DIR names.
use std::{env, path::PathBuf, process::exit};

fn main() {
    println!("cargo:rerun-if-env-changed=HYPERPLONK_LIB_DIR");
    let is = |name: &str, due: &str| env::var(name).is_ok_and(|is| is == due);
    if !is("CARGO_CFG_TARGET_ARCH", "x86_64") || !is("CARGO_CFG_TARGET_OS", "linux") {
        eprintln!("hyperplonk: libhyperplonk.a is for x86-64 Linux, and the target is another");
        exit(1);
    }
    let manifest = PathBuf::from(env::var_os("CARGO_MANIFEST_DIR").unwrap());
    let folder = env::var_os("HYPERPLONK_LIB_DIR").map_or(manifest.join("../../target/staticlib"), PathBuf::from);
    let folder = folder.canonicalize().unwrap_or(folder);
    let library = folder.join("libhyperplonk.a");
    println!("cargo:rerun-if-changed={}", library.display());
    if !library.is_file() {
        eprintln!("hyperplonk: there is no {}", library.display());
        eprintln!("hyperplonk: write it with `bindings/build` at the root of the repository,");
        eprintln!("hyperplonk: or name the folder that has libhyperplonk.a in HYPERPLONK_LIB_DIR");
        exit(1);
    }
    println!("cargo:rustc-link-search=native={}", folder.display());
    println!("cargo:rustc-link-lib=static=hyperplonk");
}
