//! Compiles the contenders in C++ and links them into the benchmark. The library comes with its Rust crate.

use std::env;
use std::path::{Path, PathBuf};
use std::process::Command;

/// The C++ files, each with one contender or two.
const SOURCES: [&str; 3] = ["nanoflann.cpp", "cgal.cpp", "scan.cpp"];

/// The flags of a release build. No flag names a machine: the library is compiled for the plain one too.
const FLAGS: [&str; 7] = [
    "-O3",
    "-DNDEBUG",
    "-std=c++17",
    "-fPIC",
    "-Wall",
    "-Wextra",
    "-Wno-psabi",
];

/// Runs a command and stops the build where it fails.
fn run(command: &mut Command) {
    let status = command.status();
    if !matches!(&status, Ok(status) if status.success()) {
        panic!("{command:?} failed: {status:?}");
    }
}

/// The C++ compiler: the one that is named, else the one for the machine that is built for.
fn compiler() -> String {
    if let Ok(named) = env::var("CXX") {
        return named;
    }
    let (target, host) = (env::var("TARGET"), env::var("HOST"));
    match env::var("CARGO_CFG_TARGET_ARCH") {
        Ok(arch) if target != host => format!("{arch}-linux-gnu-g++"),
        _ => "g++".to_string(),
    }
}

/// Compiles the contenders into one archive in the folder.
fn compile_contenders(folder: &Path) {
    let compiler = compiler();
    let mut objects = Vec::new();
    for source in SOURCES {
        let object = folder.join(source).with_extension("o");
        let from = Path::new("cpp").join(source);
        run(Command::new(&compiler)
            .args(FLAGS)
            .arg("-c")
            .arg(from)
            .arg("-o")
            .arg(&object));
        objects.push(object);
    }
    let archive = folder.join("libcontenders.a");
    let _ = std::fs::remove_file(&archive);
    run(Command::new("ar").arg("rcs").arg(archive).args(objects));
}

/// Compiles and says what to link.
fn main() {
    let folder = PathBuf::from(env::var("OUT_DIR").expect("cargo names the folder"));
    println!("cargo:rerun-if-changed=cpp");
    println!("cargo:rerun-if-env-changed=CXX");
    compile_contenders(&folder);
    println!("cargo:rustc-link-search=native={}", folder.display());
    println!("cargo:rustc-link-lib=static=contenders");
    println!("cargo:rustc-link-lib=dylib=stdc++");
}
