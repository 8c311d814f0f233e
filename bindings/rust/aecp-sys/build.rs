//! Finds libaecp.a, or libaecp.so if `AECP_DYNAMIC` is set: in the folder that `AECP_LIB_DIR` names,
//! else in the folder that pkg-config names.

use std::path::PathBuf;
use std::process::Command;
use std::{env, process};

fn main() {
    println!("cargo:rerun-if-changed=build.rs");
    let names = ["AECP_DYNAMIC", "AECP_LIB_DIR", "DOCS_RS"];
    let of_pkg_config = ["", "_PATH", "_LIBDIR", "_SYSROOT_DIR"].map(|end| format!("PKG_CONFIG{end}"));
    for name in names.into_iter().chain(of_pkg_config.iter().map(String::as_str)) {
        println!("cargo:rerun-if-env-changed={name}");
    }
    if env::var_os("DOCS_RS").is_some() {
        return; // documentation links nothing
    }
    let (kind, name) = match env::var_os("AECP_DYNAMIC") {
        Some(_) => ("dylib", "libaecp.so"),
        None => ("static", "libaecp.a"),
    };
    match folder_of(name) {
        Ok(folder) => {
            println!("cargo:rerun-if-changed={}", folder.join(name).display());
            println!("cargo:rustc-link-search=native={}", folder.display());
            println!("cargo:rustc-link-lib={kind}=aecp");
        }
        Err(why) => {
            eprintln!("aecp-sys: {why}. Set AECP_LIB_DIR to the folder of {name}, or install aecp.pc.");
            process::exit(1);
        }
    }
}

/// The folder that contains a file of the library.
fn folder_of(name: &str) -> Result<PathBuf, String> {
    let folder = match env::var_os("AECP_LIB_DIR") {
        Some(named) => PathBuf::from(named),
        None => folder_of_pkg_config()?,
    };
    if folder.join(name).is_file() {
        Ok(folder)
    } else {
        Err(format!("{} has no {name}", folder.display()))
    }
}

/// The folder that pkg-config names.
fn folder_of_pkg_config() -> Result<PathBuf, String> {
    let program = env::var_os("PKG_CONFIG").unwrap_or_else(|| "pkg-config".into());
    let ended = Command::new(&program).args(["--variable=libdir", "aecp"]).output();
    match ended {
        Ok(it) if it.status.success() => {
            Ok(PathBuf::from(String::from_utf8_lossy(&it.stdout).trim()))
        }
        Ok(_) => Err("pkg-config finds no aecp".into()),
        Err(fault) => Err(format!("{} can't be run: {fault}", program.to_string_lossy())),
    }
}
