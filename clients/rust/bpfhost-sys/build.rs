//! Finds `libbpfhost.a`: in the folder that `BPFHOST_LIB` names, or else the one that pkg-config knows as `bpfhost`.

use std::env;
use std::path::PathBuf;
use std::process::Command;

const ARCHIVE: &str = "libbpfhost.a";

fn main() {
    println!("cargo::rerun-if-env-changed=BPFHOST_LIB");
    println!("cargo::rerun-if-env-changed=PKG_CONFIG_PATH");
    match folder() {
        Ok(folder) => {
            println!("cargo::rerun-if-changed={}", folder.join(ARCHIVE).display());
            println!("cargo::rustc-link-search=native={}", folder.display());
            println!("cargo::rustc-link-lib=static=bpfhost");
        }
        Err(why) => println!("cargo::error={why}"),
    }
}

/// The folder of the library, or what is missing.
fn folder() -> Result<PathBuf, String> {
    let (named_by, folder) = match env::var_os("BPFHOST_LIB") {
        Some(folder) => ("BPFHOST_LIB", PathBuf::from(folder)),
        None => ("bpfhost.pc", PathBuf::from(told_by_pkg_config()?)),
    };
    let shown = folder.display();
    if folder.is_relative() {
        return Err(format!("{named_by} names {shown}, which has to be a whole path from / on"));
    }
    if !folder.join(ARCHIVE).is_file() {
        return Err(format!(
            "{named_by} names {shown}, where no {ARCHIVE} is: `tools/library {shown}` of bpfhost makes it"
        ));
    }
    Ok(folder)
}

/// The folder of the library, as `bpfhost.pc` names it.
fn told_by_pkg_config() -> Result<String, String> {
    let wanted = format!(
        "set BPFHOST_LIB to the folder that `tools/library FOLDER` of bpfhost has filled with {ARCHIVE}, or name it in PKG_CONFIG_PATH"
    );
    match Command::new("pkg-config").args(["--variable=libdir", "bpfhost"]).output() {
        Ok(told) if told.status.success() => Ok(String::from_utf8_lossy(&told.stdout).trim().to_string()),
        Ok(_) => Err(format!("pkg-config knows no bpfhost: {wanted}")),
        Err(_) => Err(format!("BPFHOST_LIB is not set, and pkg-config can't be run: {wanted}")),
    }
}
