//! Finds the static library libnr.a, in this order:
//! - in the folder that the environment's NR_DIR names, or in `lib` below it;
//! - where pkg-config says that nr of this version is;
//! - in ../../../lib, where `make install` puts it beside this crate;
//! - in ../out, where `make -C c` leaves it in a checkout.
//!
//! The practice table is beside this file, or in a checkout in two of ../../examples.

use std::env;
use std::path::{Path, PathBuf};
use std::process::Command;

fn main() {
    for name in ["NR_DIR", "PKG_CONFIG", "PKG_CONFIG_PATH", "PKG_CONFIG_LIBDIR", "PKG_CONFIG_SYSROOT_DIR"] {
        println!("cargo:rerun-if-env-changed={name}");
    }
    let folder = folder().unwrap_or_else(|why| {
        eprintln!("nr: {why}: NR_DIR=FOLDER names where it is, docs/install.md says how to get it");
        std::process::exit(1)
    });
    println!("cargo:rerun-if-changed={}", folder.join("libnr.a").display());
    println!("cargo:rustc-link-search=native={}", folder.display());
    println!("cargo:rustc-link-lib=static=nr");
    let installed = sources().join("practice.csv");
    let examples = ["drawn.csv", "practice.csv"].map(|name| sources().join("../../examples").join(name));
    let files = if installed.is_file() { vec![installed] } else { examples.to_vec() };
    let texts = files.iter().map(|file| std::fs::read(file).expect("the practice table can be read"));
    let practice = PathBuf::from(env::var_os("OUT_DIR").unwrap_or_default()).join("practice.csv");
    std::fs::write(&practice, texts.collect::<Vec<_>>().concat()).expect("OUT_DIR can be written");
    println!("cargo:rustc-env=NR_PRACTICE={}", practice.display());
}

/// The folder of this file.
fn sources() -> PathBuf {
    PathBuf::from(env::var_os("CARGO_MANIFEST_DIR").unwrap_or_default())
}

/// The folder that has libnr.a, or why there is none.
fn folder() -> Result<PathBuf, String> {
    if let Some(named) = env::var_os("NR_DIR") {
        let named = PathBuf::from(named);
        let places = [named.join("lib"), named.clone()];
        return first(&places).ok_or(format!("libnr.a is not in {}", named.display()));
    }
    let beside = ["../../../lib", "../../../lib/x86_64-linux-gnu", "../out"].map(|place| sources().join(place));
    let places: Vec<PathBuf> = said_by_pkg_config().into_iter().chain(beside).collect();
    first(&places).ok_or("libnr.a is neither where pkg-config says nor in ../../../lib or ../out".to_string())
}

/// The first of these folders that has libnr.a.
fn first(places: &[PathBuf]) -> Option<PathBuf> {
    places.iter().find(|place| Path::new(place).join("libnr.a").is_file()).cloned()
}

/// The folder of the library by pkg-config, if there is one of this version.
fn said_by_pkg_config() -> Option<PathBuf> {
    let tool = env::var_os("PKG_CONFIG").unwrap_or("pkg-config".into());
    let wanted = concat!("nr = ", env!("CARGO_PKG_VERSION"));
    let said = Command::new(tool).args(["--libs-only-L", wanted]).output().ok()?;
    let words = String::from_utf8(said.stdout).ok()?;
    let folder = words.trim().strip_prefix("-L")?.replace("\\ ", " ");
    said.status.success().then(|| PathBuf::from(folder))
}
