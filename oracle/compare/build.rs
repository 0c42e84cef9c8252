//! Links the port, if it is there: libwavgrut.a of the folder WAVGRUT_LIB (default: the repository's crates/wavgrut/out).
//! Without it everything but `compare`, `sweep` and `bench` works.
use std::env;
use std::path::PathBuf;

fn main() {
    println!("cargo:rustc-check-cfg=cfg(port)");
    println!("cargo:rerun-if-env-changed=WAVGRUT_LIB");
    let manifest = PathBuf::from(env::var_os("CARGO_MANIFEST_DIR").expect("set by cargo"));
    let folder = match env::var_os("WAVGRUT_LIB") {
        Some(folder) => PathBuf::from(folder),
        None => manifest.join("../../crates/wavgrut/out"),
    };
    let library = folder.join("libwavgrut.a");
    println!("cargo:rerun-if-changed={}", library.display());
    if library.exists() {
        println!("cargo:rustc-cfg=port");
        println!("cargo:rustc-link-search=native={}", folder.display());
        println!("cargo:rustc-link-lib=static=wavgrut");
    }
}
