//! Links the archive libmlca.a from the folder that MLCA_LIB_DIR names. Without it the package still builds,
//! and the comparison says that it was built without a kernel.

use std::path::Path;

fn main() {
    println!("cargo:rerun-if-env-changed=MLCA_LIB_DIR");
    println!("cargo:rustc-check-cfg=cfg(mlca_linked)");
    let Ok(folder) = std::env::var("MLCA_LIB_DIR") else {
        println!("cargo:warning=MLCA_LIB_DIR is not set: built without libmlca.a, nothing can be compared");
        return;
    };
    let archive = Path::new(&folder).join("libmlca.a");
    assert!(archive.is_file(), "MLCA_LIB_DIR is set, but there is no file {}", archive.display());
    println!("cargo:rerun-if-changed={}", archive.display());
    println!("cargo:rustc-link-search=native={folder}");
    println!("cargo:rustc-link-lib=static=mlca");
    println!("cargo:rustc-cfg=mlca_linked");
}
