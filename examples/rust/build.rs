//! Links `libgridlay.a`, which `./gridlay library` builds. GRIDLAY_LIBRARY names another one.

use std::env;
use std::path::PathBuf;

fn main() {
    println!("cargo:rerun-if-env-changed=GRIDLAY_LIBRARY");
    let here = PathBuf::from(env::var_os("CARGO_MANIFEST_DIR").expect("cargo tells the folder"));
    let library = match env::var_os("GRIDLAY_LIBRARY") {
        Some(named) => PathBuf::from(named),
        None => here.join("../../out/libgridlay.a"),
    };
    let library = match library.canonicalize() {
        Ok(library) if library.ends_with("libgridlay.a") => library,
        _ => panic!(
            "{} is no libgridlay.a: ./gridlay library builds it",
            library.display()
        ),
    };
    println!("cargo:rerun-if-changed={}", library.display());
    let folder = library.parent().expect("a file stands in a folder");
    println!("cargo:rustc-link-search=native={}", folder.display());
    println!("cargo:rustc-link-lib=static=gridlay");
}
