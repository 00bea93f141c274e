//! Links the static library that `tools/staticlib` writes, or the one
//! that KODHLACE_LIBRARY names.

use std::path::{Path, PathBuf};
use std::{env, fs};

const VARIABLE: &str = "KODHLACE_LIBRARY";

fn main() {
    println!("cargo:rerun-if-env-changed={VARIABLE}");
    let library = library();
    println!("cargo:rerun-if-changed={}", library.display());
    let (Some(folder), Some(name)) = (library.parent(), library.file_name()) else {
        panic!("{} is no file's path", library.display());
    };
    println!("cargo:rustc-link-search=native={}", folder.display());
    println!("cargo:rustc-link-lib=static:+verbatim={}", name.display());
}

fn library() -> PathBuf {
    let path = env::var_os(VARIABLE).map_or_else(built, PathBuf::from);
    fs::canonicalize(&path)
        .unwrap_or_else(|error| panic!("{}: {error}: run differential/speed", path.display()))
}

fn built() -> PathBuf {
    let here = env::var_os("CARGO_MANIFEST_DIR").expect("cargo names the package's folder");
    Path::new(&here).join("../../target/staticlib/libjig.a")
}
