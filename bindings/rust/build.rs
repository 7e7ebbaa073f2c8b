//! Finds libtff.a and has it linked.

use std::env;
use std::path::PathBuf;
use std::process::exit;

fn main() {
    println!("cargo:rerun-if-changed=build.rs");
    println!("cargo:rerun-if-env-changed=TFF_LIB_DIR");
    let folder = library_folder();
    let library = folder.join("libtff.a");
    println!("cargo:rerun-if-changed={}", library.display());
    if !library.is_file() {
        eprintln!(
            "{} is missing: build the static library tff, or set TFF_LIB_DIR to its folder",
            library.display()
        );
        exit(1);
    }
    println!("cargo:rustc-link-search=native={}", folder.display());
    println!("cargo:rustc-link-lib=static=tff");
}

/// A relative TFF_LIB_DIR counts from this package's folder, as the default does.
fn library_folder() -> PathBuf {
    let package = PathBuf::from(env::var_os("CARGO_MANIFEST_DIR").expect("set by cargo"));
    let given = env::var_os("TFF_LIB_DIR").unwrap_or_else(|| "../../crates/tff/out".into());
    let folder = package.join(given);
    folder.canonicalize().unwrap_or(folder)
}
