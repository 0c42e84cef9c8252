//! Links libwavgrut.a of the folder that WAVGRUT_LIB names (default: crates/wavgrut/out of the repository).
use std::env;
use std::path::PathBuf;

fn main() {
    let here = PathBuf::from(env::var_os("CARGO_MANIFEST_DIR").expect("set by cargo"));
    let folder =
        env::var_os("WAVGRUT_LIB").map_or_else(|| here.join("../../crates/wavgrut/out"), PathBuf::from);
    let library = folder.join("libwavgrut.a");
    println!("cargo:rerun-if-env-changed=WAVGRUT_LIB");
    println!("cargo:rerun-if-changed={}", library.display());
    assert!(library.exists(), "{} is not there: `rt lib` in crates/wavgrut makes it", library.display());
    println!("cargo:rustc-link-search=native={}", folder.display());
    println!("cargo:rustc-link-lib=static=wavgrut");
}
