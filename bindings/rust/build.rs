//! Finds the packaged library, makes sure that it is of the version that this crate is written for, and links it
//! statically.
//!
//! `bindings/package PREFIX` makes it in `PREFIX/lib`. The environment variable `NAGA_CHECK_LIB_DIR` names that folder;
//! without it, it is the one beside the first `naga_check.pc` in the folders where pkg-config looks. If there is no
//! library the crate can still be checked and documented, so that only a warning says so, and nothing can be linked.

use std::env;
use std::fs;
use std::path::{Path, PathBuf};
use std::process::exit;

const LIBRARY: &str = "libnaga_check.a";

/// Where the version of the interface stands in this crate.
const INTERFACE: &str = "src/sys.rs";

/// Where pkg-config looks by itself on x86-64 Linux.
const PKG_CONFIG_FOLDERS: [&str; 4] = [
    "/usr/local/lib/x86_64-linux-gnu/pkgconfig",
    "/usr/local/lib/pkgconfig",
    "/usr/lib/x86_64-linux-gnu/pkgconfig",
    "/usr/lib/pkgconfig",
];

/// Refuses a target that the library is not for.
fn check_target() -> Result<(), String> {
    let of_target = |name| env::var(name).unwrap_or_default();
    let [os, architecture, width] = [
        "CARGO_CFG_TARGET_OS",
        "CARGO_CFG_TARGET_ARCH",
        "CARGO_CFG_TARGET_POINTER_WIDTH",
    ]
    .map(of_target);
    if (os.as_str(), architecture.as_str(), width.as_str()) == ("linux", "x86_64", "64") {
        return Ok(());
    }
    let target = of_target("TARGET");
    Err(format!(
        "the library is for x86-64 Linux, and there is none for the target {target}"
    ))
}

/// Has the script run again when a file changes. One that isn't there counts as changed.
fn watch(file: &Path) {
    println!("cargo:rerun-if-changed={}", file.display());
}

/// The library's folder, if there is a `naga_check.pc` where pkg-config looks.
fn find_by_pkg_config() -> Option<PathBuf> {
    let named = env::var_os("PKG_CONFIG_PATH").unwrap_or_default();
    let folders = env::split_paths(&named).chain(PKG_CONFIG_FOLDERS.iter().map(PathBuf::from));
    let files: Vec<PathBuf> = folders.map(|folder| folder.join("naga_check.pc")).collect();
    let found = files.iter().find(|file| file.is_file());
    if found.is_none() {
        files.iter().for_each(|file| watch(file));
    }
    Some(found?.parent()?.parent()?.to_path_buf())
}

/// The library's folder, if it has the library.
fn find_library() -> Result<PathBuf, String> {
    let folder = match env::var_os("NAGA_CHECK_LIB_DIR") {
        Some(folder) => PathBuf::from(folder),
        None => find_by_pkg_config().ok_or("no naga_check.pc is where pkg-config looks")?,
    };
    let library = folder.join(LIBRARY);
    watch(&library);
    if library.is_file() {
        Ok(folder)
    } else {
        Err(format!("there is no {LIBRARY} in {}", folder.display()))
    }
}

/// The number after some text in a file, if the file is there and has it.
fn number_in(file: &Path, before: &str) -> Option<u32> {
    let text = fs::read_to_string(file).ok()?;
    watch(file);
    let rest = &text[text.find(before)? + before.len()..];
    let end = rest.find(|c: char| !c.is_ascii_digit())?;
    rest[..end].parse().ok()
}

/// Refuses a library whose package says that it has another version of the interface than this crate.
fn check_version(folder: &Path) -> Result<(), String> {
    let ours = number_in(Path::new(INTERFACE), "NAGA_CHECK_ABI_VERSION: u32 = ")
        .ok_or(format!("{INTERFACE} has no version of the interface"))?;
    let package = folder.join("pkgconfig/naga_check.pc");
    let header = folder.join("../include/naga_check.h");
    let theirs = number_in(&package, "abi_version=")
        .or_else(|| number_in(&header, "NAGA_CHECK_ABI_VERSION "));
    match theirs {
        Some(theirs) if theirs != ours => Err(format!(
            "the library in {} has version {theirs} of the interface, and this crate is written for version {ours}",
            folder.display()
        )),
        // Without a package the first call compares the versions.
        _ => Ok(()),
    }
}

/// Ends the build with a reason, if there is one.
fn require(result: Result<(), String>) {
    if let Err(why) = result {
        eprintln!("naga_check: {why}.");
        exit(1);
    }
}

fn main() {
    println!("cargo:rerun-if-changed=build.rs");
    println!("cargo:rerun-if-env-changed=NAGA_CHECK_LIB_DIR");
    println!("cargo:rerun-if-env-changed=PKG_CONFIG_PATH");
    require(check_target());
    match find_library() {
        Ok(folder) => {
            require(check_version(&folder));
            println!("cargo:rustc-link-search=native={}", folder.display());
        }
        Err(why) => println!(
            "cargo:warning=nothing can be linked, as {why}. Make the library with `bindings/package PREFIX`, and set \
             NAGA_CHECK_LIB_DIR to PREFIX/lib, or PKG_CONFIG_PATH to PREFIX/lib/pkgconfig."
        ),
    }
    println!("cargo:rustc-link-lib=static=naga_check");
}
