//! Names the library that `make -C bindings/c` builds, or the one in the folder `RACHONPAS_LIBRARY_FOLDER`.
use std::env;
use std::path::PathBuf;
use std::process::exit;

fn main() {
    println!("cargo:rerun-if-env-changed=RACHONPAS_LIBRARY_FOLDER");
    let folder = match env::var_os("RACHONPAS_LIBRARY_FOLDER") {
        Some(folder) => PathBuf::from(folder),
        None => PathBuf::from(env!("CARGO_MANIFEST_DIR")).join("../c/out"),
    };
    let library = folder.join("librachonpas.a");
    println!("cargo:rerun-if-changed={}", library.display());
    // Documentation needs no library.
    if !library.exists() && env::var_os("DOCS_RS").is_none() {
        eprintln!(
            "rachonpas: there is no {}: build it by `make -C bindings/c` in the repository, or name its folder by \
             the environment's RACHONPAS_LIBRARY_FOLDER",
            library.display()
        );
        exit(1);
    }
    println!("cargo:rustc-link-search=native={}", folder.display());
    println!("cargo:rustc-link-lib=static=rachonpas");
}
