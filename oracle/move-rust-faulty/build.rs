//! Hands copies of the repository's files, and of the reader of a unit, to the compiler, with every fault of
//! src/faults.rs in them, each behind its own switch.
#[path = "src/faults.rs"]
mod faults;
#[path = "../move-rust/originals.rs"]
mod originals;

use std::path::{Path, PathBuf};
use std::{env, fs};

fn main() {
    let manifest = PathBuf::from(env::var_os("CARGO_MANIFEST_DIR").expect("set by cargo"));
    let out = PathBuf::from(env::var_os("OUT_DIR").expect("set by cargo"));
    let reader = manifest.join("../unit/src/read.rs");
    for file in [&reader, &manifest.join("src/faults.rs")] {
        println!("cargo:rerun-if-changed={}", file.display());
    }
    let text = fs::read_to_string(&reader).expect("unit stands beside this crate");
    let faulty_reader = out.join("read.rs");
    fs::write(&faulty_reader, with_faults("read", &text)).expect("OUT_DIR can be written");
    let modules = [
        ("faults", manifest.join("src/faults.rs")),
        ("switch", manifest.join("src/switch.rs")),
        ("read", faulty_reader),
    ];
    originals::declare(with_faults, &modules.iter().map(declaration).collect::<String>());
}

fn declaration((name, file): &(&str, impl AsRef<Path>)) -> String {
    format!("#[path = {:?}]\npub mod {name};\n", file.as_ref())
}

/// The text of a file with its faults. Each replaced text must stand there exactly once.
fn with_faults(file: &str, text: &str) -> String {
    let mut changed = text.to_string();
    for (number, fault) in faults::FAULTS.iter().enumerate().filter(|(_, fault)| fault.file == file) {
        let places = text.matches(fault.from).count();
        assert_eq!(places, 1, "{}: the text to replace stands {places} times", fault.what);
        let to = fault.to.replace("FAULT", &format!("crate::switch::is_on({number})"));
        changed = changed.replacen(fault.from, &to, 1);
    }
    changed
}
