//! Links `libtxc_c.a`, which `make library` makes: from the folder that TXC_LIBRARY names, else from bindings/out.
use std::path::PathBuf;

fn main() {
    println!("cargo:rerun-if-env-changed=TXC_LIBRARY");
    let own = PathBuf::from(std::env::var("CARGO_MANIFEST_DIR").unwrap()).join("../out");
    let folder = std::env::var_os("TXC_LIBRARY").map_or(own, PathBuf::from);
    let archive = folder.join("libtxc_c.a");
    if !archive.exists() {
        panic!("{} is not there: run `make library` or `make try-library`, and name its folder by TXC_LIBRARY", archive.display());
    }
    let folder = folder.canonicalize().unwrap();
    println!("cargo:rerun-if-changed={}", archive.display());
    println!("cargo:rustc-link-search=native={}", folder.display());
    println!("cargo:rustc-link-lib=static=txc_c");
}
