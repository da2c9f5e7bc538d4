//! Links the static library that `rt lib` in crates/capi writes: crates/capi/out/libcapi.a of the repository, or that of CAPESHARD_LIB's folder.
use std::env;
use std::path::PathBuf;

fn main() {
    let folder = match env::var_os("CAPESHARD_LIB") {
        Some(folder) => PathBuf::from(folder),
        None => PathBuf::from(env::var_os("CARGO_MANIFEST_DIR").unwrap()).join("../../crates/capi/out"),
    };
    println!("cargo:rerun-if-env-changed=CAPESHARD_LIB");
    println!("cargo:rerun-if-changed={}", folder.join("libcapi.a").display());
    println!("cargo:rustc-link-search=native={}", folder.display());
    println!("cargo:rustc-link-lib=static=capi");
}
