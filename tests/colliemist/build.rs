//! Links `libcolliemist.a`: from the folder that COLLIEMIST_LIB_DIR names, or
//! else from where `./archive` puts it.

use std::env;
use std::path::PathBuf;

fn main() {
    println!("cargo:rerun-if-env-changed=COLLIEMIST_LIB_DIR");
    let here = PathBuf::from(env::var_os("CARGO_MANIFEST_DIR").expect("cargo sets it"));
    let folder = match env::var_os("COLLIEMIST_LIB_DIR") {
        Some(folder) => PathBuf::from(folder),
        None => here.join("../../target/staticlib"),
    };
    let library = folder.join("libcolliemist.a");
    println!("cargo:rerun-if-changed={}", library.display());
    if !library.exists() {
        panic!(
            "there is no {}: run `./archive` first, or name the library's folder in COLLIEMIST_LIB_DIR",
            library.display()
        );
    }
    println!("cargo:rustc-link-search=native={}", folder.display());
    println!("cargo:rustc-link-lib=static=colliemist");
}
