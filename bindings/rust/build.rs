//! Finds the static library `libsegrx.a` that `make install` put in place: in the folder that
//! `SEGRX_LIB_DIR` names, or else where `pkg-config` says.

use std::env;
use std::path::Path;
use std::process::{exit, Command};

const LIBRARY: &str = "libsegrx.a";

fn main() {
    for variable in [
        "SEGRX_LIB_DIR",
        "PKG_CONFIG",
        "PKG_CONFIG_PATH",
        "PKG_CONFIG_LIBDIR",
    ] {
        println!("cargo:rerun-if-env-changed={}", variable);
    }
    match folder() {
        Ok(folder) => {
            println!("cargo:rerun-if-changed={}/{}", folder, LIBRARY);
            println!("cargo:rustc-link-search=native={}", folder);
            println!("cargo:rustc-link-lib=static=segrx");
        }
        Err(why) => {
            eprintln!("segrx: {}", why);
            eprintln!(
                "Install the library: `make install PREFIX=..` in segrx's repository. Then have"
            );
            eprintln!("SEGRX_LIB_DIR name the folder of {}, or", LIBRARY);
            eprintln!("PKG_CONFIG_PATH that of segrx.pc, as absolute paths.");
            exit(1);
        }
    }
}

/// The folder that has the library.
fn folder() -> Result<String, String> {
    let (who, folder) = match env::var("SEGRX_LIB_DIR") {
        Ok(folder) => ("SEGRX_LIB_DIR", folder),
        Err(_) => ("pkg-config", told_by_pkg_config()?),
    };
    if Path::new(&folder).join(LIBRARY).is_file() {
        Ok(folder)
    } else {
        Err(format!(
            "{} says `{}`, where no {} is",
            who, folder, LIBRARY
        ))
    }
}

fn told_by_pkg_config() -> Result<String, String> {
    let command = env::var("PKG_CONFIG").unwrap_or_else(|_| "pkg-config".to_string());
    let ran = Command::new(&command)
        .args(["--print-errors", "--variable=libdir", "segrx"])
        .output()
        .map_err(|error| format!("SEGRX_LIB_DIR isn't set, and {}: {}", command, error))?;
    if !ran.status.success() {
        let why = String::from_utf8_lossy(&ran.stderr);
        return Err(format!(
            "SEGRX_LIB_DIR isn't set, and {} says:\n{}",
            command, why
        ));
    }
    Ok(String::from_utf8_lossy(&ran.stdout).trim_end().to_string())
}
