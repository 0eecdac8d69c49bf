//! Links the proved archive, which `./build fieldbook` writes. Where it stands in another folder than this
//! repository's, FIELDBOOK_LIB is the absolute path of that folder.
use std::{env, path::PathBuf};

fn main() {
    let here = PathBuf::from(env::var_os("CARGO_MANIFEST_DIR").expect("cargo names the manifest's folder"));
    let folder = env::var_os("FIELDBOOK_LIB").map_or_else(|| here.join("../../target/staticlib"), PathBuf::from);
    println!("cargo:rustc-link-search=native={}", folder.display());
    println!("cargo:rustc-link-lib=static=fieldbook");
    println!("cargo:rerun-if-changed={}", folder.join("libfieldbook.a").display());
    println!("cargo:rerun-if-env-changed=FIELDBOOK_LIB");
    println!("cargo:rerun-if-changed=build.rs");
}
