//! Looks for the port, target/staticlib/libcapi.a at the repository's root or in the folder in L3_PORT, and links it.
//! Without it the cfg `port_at_hand` stays unset and everything still compiles.
use std::env;
use std::path::PathBuf;

fn main() {
    println!("cargo:rustc-check-cfg=cfg(port_at_hand)");
    println!("cargo:rerun-if-env-changed=L3_PORT");
    println!("cargo:rerun-if-changed=build.rs");
    let here = PathBuf::from(env::var("CARGO_MANIFEST_DIR").unwrap());
    let folder = match env::var_os("L3_PORT") {
        Some(folder) => here.join(folder),
        None => here.join("../target/staticlib"),
    };
    let library = folder.join("libcapi.a");
    println!("cargo:rerun-if-changed={}", library.display());
    if library.exists() {
        println!("cargo:rustc-link-search=native={}", folder.display());
        println!("cargo:rustc-link-lib=static=capi");
        println!("cargo:rustc-cfg=port_at_hand");
    }
}
