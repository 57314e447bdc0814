//! Does nothing, but for the feature `proved`: then it finds liblbk in the folder that LBK_LIB_DIR names, else next to
//! this file in `lib/TARGET`, else by pkg-config, and links it statically, or as liblbk.so if LBK_SHARED is set.

use std::env;
use std::path::PathBuf;
use std::process::{exit, Command};

fn variable(name: &str) -> Option<String> {
    println!("cargo:rerun-if-env-changed={}", name);
    env::var(name).ok().filter(|value| !value.is_empty())
}

/// The output of pkg-config, if it is installed and succeeds.
fn pkg_config(arguments: &[&str]) -> Option<String> {
    let program = variable("PKG_CONFIG").unwrap_or_else(|| "pkg-config".into());
    let output = Command::new(program).args(arguments).output().ok()?;
    if !output.status.success() {
        return None;
    }
    String::from_utf8(output.stdout).ok()
}

fn by_pkg_config() -> Option<PathBuf> {
    variable("PKG_CONFIG_PATH");
    pkg_config(&["--exists", "lbk >= 0.2.0", "lbk < 0.3.0"])?;
    let folder = pkg_config(&["--variable=libdir", "lbk"])?;
    Some(folder.trim().into())
}

/// The folder of the library that the crate contains for the target, if there is one.
fn bundled() -> Option<PathBuf> {
    let crate_folder: PathBuf = env::var_os("CARGO_MANIFEST_DIR")?.into();
    let folder = crate_folder.join("lib").join(env::var_os("TARGET")?);
    if folder.is_dir() {
        Some(folder)
    } else {
        None
    }
}

fn main() {
    println!("cargo:rerun-if-changed=build.rs");
    // (`--cfg plain` in RUSTFLAGS chooses plain arrays in the place of vectors)
    println!("cargo:rustc-check-cfg=cfg(plain, docsrs)");
    if env::var_os("CARGO_FEATURE_PROVED").is_none() {
        return;
    }
    let named = variable("LBK_LIB_DIR").map(PathBuf::from);
    let folder = named.or_else(bundled).or_else(by_pkg_config).unwrap_or_else(|| {
        eprintln!("no liblbk of version 0.2: install it, and set LBK_LIB_DIR to its folder, or PKG_CONFIG_PATH to that of lbk.pc");
        exit(1)
    });
    let kind = if variable("LBK_SHARED").is_some() { "dylib" } else { "static" };
    println!("cargo:rustc-link-search=native={}", folder.display());
    println!("cargo:rustc-link-lib={}=lbk", kind);
}
