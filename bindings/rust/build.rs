//! Links librr.a from the folder that RR_LIB names, or from `librr` at the top of the repository, where `./build --lib` puts it.
use std::env;
use std::path::PathBuf;

fn main() {
    println!("cargo:rerun-if-env-changed=RR_LIB");
    let here = PathBuf::from(env::var("CARGO_MANIFEST_DIR").expect("cargo sets CARGO_MANIFEST_DIR"));
    let folder = env::var_os("RR_LIB").map_or_else(|| here.join("../../librr"), PathBuf::from);
    println!("cargo:rerun-if-changed={}", folder.join("librr.a").display());
    println!("cargo:rustc-link-search=native={}", folder.display());
    println!("cargo:rustc-link-lib=static=rr");
}
