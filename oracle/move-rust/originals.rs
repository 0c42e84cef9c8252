//! What the build scripts of `move-rust` and `move-rust-faulty` share: find the repository's files, and write the
//! module declarations that lib.rs includes.
//!
//! Four files are compiled where they stand. type_safety.rs and stack_usage_verifier.rs keep what a walk needs
//! private, so each is copied and a line is appended that declares a child module, `walk`; a child module sees the
//! private items. The copy's front is then compared with the file, byte by byte.
use std::path::{Path, PathBuf};
use std::{env, fs};

/// Where a file is found under MOVE_SRC, and the walk that is appended to it.
struct Original {
    name: &'static str,
    crate_name: &'static str,
    walk: Option<&'static str>,
}

const fn plain(name: &'static str) -> Original {
    Original { name, crate_name: "move-binary-format", walk: None }
}

const fn walked(name: &'static str, walk: &'static str) -> Original {
    Original { name, crate_name: "move-bytecode-verifier", walk: Some(walk) }
}

const ORIGINALS: [Original; 6] = [
    plain("binary_views"),
    plain("control_flow_graph"),
    plain("errors"),
    plain("file_format"),
    walked("stack_usage_verifier", "walk_stack_usage.rs"),
    walked("type_safety", "walk_types.rs"),
];

/// The folder named by MOVE_SRC, or the docs/src of the folder `shared` beside the repository.
fn move_src(manifest: &Path) -> PathBuf {
    println!("cargo:rerun-if-env-changed=MOVE_SRC");
    let folder = match env::var_os("MOVE_SRC") {
        Some(folder) => PathBuf::from(folder),
        None => manifest.join("../../../shared/docs/src"),
    };
    let found =
        folder.canonicalize().unwrap_or_else(|error| panic!("MOVE_SRC, {}: {error}", folder.display()));
    // For a test that reads the files.
    println!("cargo:rustc-env=MOVE_SRC_FOUND={}", found.display());
    found
}

/// Writes originals.rs to OUT_DIR. `change` gives the text that is compiled for a file: the file's own, but for the
/// faulty copy. `more` is appended to the declarations.
pub fn declare(change: impl Fn(&str, &str) -> String, more: &str) {
    let manifest = PathBuf::from(env::var_os("CARGO_MANIFEST_DIR").expect("set by cargo"));
    let out = PathBuf::from(env::var_os("OUT_DIR").expect("set by cargo"));
    let source = move_src(&manifest);
    // The walks stand in move-rust/src, also when move-rust-faulty is built.
    let walks = manifest.join("../move-rust/src").canonicalize().expect("move-rust stands beside this crate");
    let mut declarations = String::new();
    for original in &ORIGINALS {
        let file = source.join(format!("language/{}/src/{}.rs", original.crate_name, original.name));
        println!("cargo:rerun-if-changed={}", file.display());
        let text = fs::read_to_string(&file).unwrap_or_else(|error| panic!("{}: {error}", file.display()));
        let changed = change(original.name, &text);
        let compiled = if original.walk.is_none() && changed == text {
            file
        } else {
            copy_with_walk(&changed, &out.join(format!("{}.rs", original.name)), original.walk, &walks)
        };
        declarations += &format!("#[allow(warnings)]\n#[path = {compiled:?}]\npub mod {};\n", original.name);
    }
    fs::write(out.join("originals.rs"), declarations + more).expect("OUT_DIR can be written");
}

/// A copy of the text with the walk's declaration appended, and nothing before that.
fn copy_with_walk(text: &str, copy: &Path, walk: Option<&str>, walks: &Path) -> PathBuf {
    let appended =
        walk.map_or(String::new(), |walk| format!("\n#[path = {:?}]\npub mod walk;\n", walks.join(walk)));
    fs::write(copy, format!("{text}{appended}")).expect("OUT_DIR can be written");
    let written = fs::read(copy).expect("it was just written");
    assert!(written.starts_with(text.as_bytes()), "{}: not the file's own bytes", copy.display());
    copy.to_path_buf()
}
