//! Finds the archive `libfirst_pass.a`, and has it linked.

use std::env;
use std::fs;
use std::path::{Path, PathBuf};
use std::process::{Command, exit};

const ARCHIVE: &str = "libfirst_pass.a";

fn main() {
    println!("cargo::rerun-if-env-changed=FIRST_PASS_DIR");
    println!("cargo::rerun-if-env-changed=PKG_CONFIG_PATH");
    match find_folder() {
        Ok(folder) => link(&folder),
        Err(message) => {
            println!("cargo::error={message}");
            exit(1);
        }
    }
}

/// The folder of an archive of this version: that of `FIRST_PASS_DIR`, or else the one that pkg-config knows.
fn find_folder() -> Result<PathBuf, String> {
    let variable = env::var_os("FIRST_PASS_DIR");
    let hint = if variable.is_some() && ask_pkg_config().is_some() {
        ": unset FIRST_PASS_DIR, since pkg-config knows the library"
    } else {
        ""
    };
    let named = match variable {
        Some(folder) => PathBuf::from(folder),
        None => ask_pkg_config().ok_or_else(|| {
            format!(
                "{ARCHIVE} is not found: set FIRST_PASS_DIR to the folder that holds it, \
                 or put the folder of first_pass.pc into PKG_CONFIG_PATH"
            )
        })?,
    };
    let folder = fs::canonicalize(&named).map_err(|e| format!("{}: {e}{hint}", named.display()))?;
    if !folder.join(ARCHIVE).is_file() {
        return Err(format!("there is no {ARCHIVE} in {}{hint}", folder.display()));
    }
    check_version(&folder)?;
    Ok(folder)
}

/// The folder of the library that pkg-config knows.
fn ask_pkg_config() -> Option<PathBuf> {
    let program = env::var_os("PKG_CONFIG").unwrap_or_else(|| "pkg-config".into());
    let output = Command::new(program).args(["--variable=libdir", "first_pass"]).output().ok()?;
    let folder = String::from_utf8(output.stdout).ok()?;
    (output.status.success() && !folder.trim().is_empty()).then(|| folder.trim().into())
}

/// Compares the version in `first_pass.pc`, if it is there, with that of this crate. Below 1.0 the records may change
/// with the second number.
fn check_version(folder: &Path) -> Result<(), String> {
    let Ok(description) = fs::read_to_string(folder.join("pkgconfig/first_pass.pc")) else {
        return Ok(());
    };
    let found = description
        .lines()
        .find_map(|line| line.strip_prefix("Version:"))
        .unwrap_or("unknown")
        .trim();
    let wanted = env!("CARGO_PKG_VERSION");
    if first_two(found) == first_two(wanted) {
        return Ok(());
    }
    Err(format!(
        "the library in {} has the version {found}, and this crate needs {wanted}",
        folder.display()
    ))
}

fn first_two(version: &str) -> Vec<&str> {
    version.split('.').take(2).collect()
}

fn link(folder: &Path) {
    println!("cargo::rerun-if-changed={}", folder.join(ARCHIVE).display());
    println!("cargo::rustc-link-search=native={}", folder.display());
    println!("cargo::rustc-link-lib=static=first_pass");
}
