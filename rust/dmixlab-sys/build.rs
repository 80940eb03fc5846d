//! Finds `libdmixlab.a`, and has it linked.

use std::env;
use std::path::{Path, PathBuf};
use std::process::Command;

/// The archive's name.
const ARCHIVE: &str = "libdmixlab.a";

/// The variable that names the archive's folder.
const VARIABLE: &str = "DMIXLAB_LIB_DIR";

/// The folder of the repository where `make check-c` puts the archive.
const BUILT: &str = concat!(env!("CARGO_MANIFEST_DIR"), "/../../build/c");

fn main() {
    println!("cargo::rerun-if-env-changed={VARIABLE}");
    match find_folder() {
        Ok(folder) => link(&folder),
        Err(why) => println!("cargo::error={why}"),
    }
}

/// Has the archive of a folder linked.
fn link(folder: &Path) {
    let folder = folder.display();
    println!("cargo::rerun-if-changed={folder}/{ARCHIVE}");
    println!("cargo::rustc-link-search=native={folder}");
    println!("cargo::rustc-link-lib=static=dmixlab");
}

/// The archive's folder: the one that the variable names, or else the repository's, or else that
/// of the installed library.
fn find_folder() -> Result<PathBuf, String> {
    let target = env::var("TARGET").unwrap_or_default();
    if !target.starts_with("x86_64-") || !target.contains("-linux-") {
        return Err(format!(
            "{ARCHIVE} is for x86-64 Linux, and not for {target}"
        ));
    }
    if let Some(named) = env::var_os(VARIABLE) {
        return named_folder(named.into());
    }
    let built = PathBuf::from(BUILT);
    if has_archive(&built) {
        return Ok(built);
    }
    installed_folder().ok_or(format!(
        "{ARCHIVE} is neither in {BUILT} nor where pkg-config finds dmixlab: run `make check-c` \
         at the top of dmixlab's repository, or set {VARIABLE} to the archive's folder"
    ))
}

/// The folder that the variable names. Its path is absolute, since compilers run in several.
fn named_folder(named: PathBuf) -> Result<PathBuf, String> {
    if named.is_absolute() && has_archive(&named) {
        return Ok(named);
    }
    Err(format!(
        "{VARIABLE} is {}, which isn't the absolute path of a folder with {ARCHIVE}",
        named.display()
    ))
}

/// The folder of the installed library, as pkg-config knows it.
fn installed_folder() -> Option<PathBuf> {
    for variable in ["PKG_CONFIG", "PKG_CONFIG_PATH"] {
        println!("cargo::rerun-if-env-changed={variable}");
    }
    let command = env::var_os("PKG_CONFIG").unwrap_or("pkg-config".into());
    let output = Command::new(command)
        .args(["--variable=libdir", "dmixlab"])
        .output()
        .ok()?;
    let folder = String::from_utf8(output.stdout).ok()?;
    let folder = PathBuf::from(folder.trim());
    has_archive(&folder).then_some(folder)
}

/// Whether the archive is in a folder.
fn has_archive(folder: &Path) -> bool {
    folder.join(ARCHIVE).is_file()
}
