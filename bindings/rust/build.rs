//! Links the static library of the proved core. LAVTOEU_LIB names its folder, a relative one from where cargo was called;
//! without it, it is looked for where `rt lib` in crates/free_path_c writes it.

use std::env;
use std::path::{Path, PathBuf};

/// A relative folder is meant from where the caller stands, and a build script runs in the folder of its crate, `here`.
fn from_caller(folder: String, here: &Path) -> PathBuf {
    if Path::new(&folder).is_relative() {
        println!("cargo:rerun-if-env-changed=PWD");
    }
    env::var_os("PWD").map_or(here.to_path_buf(), PathBuf::from).join(folder)
}

fn main() {
    println!("cargo:rerun-if-env-changed=LAVTOEU_LIB");
    let here = PathBuf::from(env::var_os("CARGO_MANIFEST_DIR").expect("CARGO_MANIFEST_DIR"));
    let folder = env::var("LAVTOEU_LIB").map_or(here.join("../../crates/free_path_c/out"), |folder| from_caller(folder, &here));
    let library = folder.join("libfree_path_c.a");
    if !library.exists() {
        panic!("there is no {}: run `rt lib` in crates/free_path_c of the project first, or set LAVTOEU_LIB", library.display());
    }
    println!("cargo:rerun-if-changed={}", library.display());
    println!("cargo:rustc-link-search=native={}", folder.display());
    println!("cargo:rustc-link-lib=static=free_path_c");
    println!("cargo:rustc-env=LAVTOEU_LIB_FOLDER={}", folder.display());
}
