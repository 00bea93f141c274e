//! Links the static library that `tools/staticlib` writes, or the one
//! that KODHLACE_LIBRARY names, unless the feature `library` is off.

use std::path::{Path, PathBuf};
use std::{env, fs};

fn main() {
    println!("cargo:rerun-if-env-changed=KODHLACE_LIBRARY");
    if env::var_os("CARGO_FEATURE_LIBRARY").is_none() {
        return;
    }
    let here = env::var("CARGO_MANIFEST_DIR").expect("cargo names the package's folder");
    let library = match env::var_os("KODHLACE_LIBRARY") {
        Some(path) => PathBuf::from(path),
        None => Path::new(&here).join("../../target/staticlib/libjig.a"),
    };
    let Ok(library) = fs::canonicalize(&library) else {
        panic!(
            "there is no {}: run `tools/staticlib`, or build with --no-default-features",
            library.display()
        );
    };
    let folder = library.parent().expect("a file stands in a folder");
    let name = library.file_stem().and_then(|name| name.to_str());
    let name = name.and_then(|name| name.strip_prefix("lib"));
    println!("cargo:rerun-if-changed={}", library.display());
    println!("cargo:rustc-link-search=native={}", folder.display());
    println!(
        "cargo:rustc-link-lib=static={}",
        name.expect("a library's name")
    );
}
