//! Where the given Rust stands: the folder in `MINIP2P_SRC`, or
//! `shared/docs/src` beside the checkout.

use std::path::{Path, PathBuf};

fn folder() -> PathBuf {
    println!("cargo::rerun-if-env-changed=MINIP2P_SRC");
    if let Some(named) = std::env::var_os("MINIP2P_SRC") {
        return PathBuf::from(named);
    }
    let here = PathBuf::from(std::env::var_os("CARGO_MANIFEST_DIR").expect("set by cargo"));
    here.ancestors()
        .map(|above| above.join("shared/docs/src"))
        .find(|found| found.is_dir())
        .expect("no folder shared/docs/src above or beside the checkout: set MINIP2P_SRC")
}

/// Writes `modules.rs`: one `#[path]` module for each given file, so that
/// rustc reads the files where they stand. `renamed` pairs a file with
/// another module name.
pub fn modules(part: &str, files: &[&str], renamed: &[(&str, &str)]) {
    let source = folder().join(part);
    let mut text = String::new();
    for file in files {
        let path = source.join(format!("{file}.rs"));
        let path = path
            .canonicalize()
            .unwrap_or_else(|error| panic!("{}: {error}", path.display()));
        println!("cargo::rerun-if-changed={}", path.display());
        let name = renamed
            .iter()
            .find(|(from, _)| from == file)
            .map_or(*file, |(_, to)| to);
        text.push_str(&format!(
            "#[allow(dead_code, unused_imports, clippy::all)]\n#[path = {path:?}]\npub mod {name};\n"
        ));
    }
    let out = std::env::var_os("OUT_DIR").expect("set by cargo");
    std::fs::write(Path::new(&out).join("modules.rs"), text).expect("OUT_DIR is writable");
}
