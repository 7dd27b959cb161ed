//! Finds the archive `libhornherder.a` and tells the linker where it is.

use std::env;
use std::path::{Path, PathBuf};
use std::process::exit;

/// Names the archive's folder to the linker. Where the archive is not there yet this only warns, since a check
/// and the documentation need none.
fn main() {
    println!("cargo:rerun-if-env-changed=HORNHERDER_LIB_DIR");
    let named = env::var_os("HORNHERDER_LIB_DIR").unwrap_or_default();
    let folder = if named.is_empty() {
        built_folder()
    } else {
        named_folder(Path::new(&named))
    };
    let archive = folder.join("libhornherder.a");
    if !archive.is_file() {
        println!(
            "cargo:warning=there is no {}, so nothing can be linked: make it with bindings/build, or set HORNHERDER_LIB_DIR to the whole path of a folder that has it",
            archive.display()
        );
    }
    println!("cargo:rerun-if-changed={}", archive.display());
    println!("cargo:rustc-link-search=native={}", folder.display());
    println!("cargo:rustc-link-lib=static=hornherder");
}

/// The folder that `HORNHERDER_LIB_DIR` names. A relative one is refused: cargo runs this in the crate's own
/// folder, which is not where the person stands who named it.
fn named_folder(named: &Path) -> PathBuf {
    if named.is_relative() {
        eprintln!(
            "hornherder: HORNHERDER_LIB_DIR is {}, and must be a whole path, from / on",
            named.display()
        );
        exit(1)
    }
    named.to_path_buf()
}

/// The folder of the repository's own build: `target/lib` for the machine at hand, and for another one the folder
/// with its name.
fn built_folder() -> PathBuf {
    let machine = env::var("CARGO_CFG_TARGET_ARCH").unwrap_or_default();
    let host = env::var("HOST").unwrap_or_default();
    let own = host.split('-').next() == Some(&machine);
    let here = env::var_os("CARGO_MANIFEST_DIR").unwrap_or_default();
    let built = Path::new(&here).join("../../target");
    built.join(if own { "lib" } else { &machine })
}
