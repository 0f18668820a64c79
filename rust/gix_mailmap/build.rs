//! Finds the static library. The first of these counts: the file that GIX_MAILMAP_LIBRARY names in the environment,
//! what `make lib` built in the repository that this crate is in, and the one that was installed with this crate or that
//! pkg-config knows.
use std::env;
use std::path::{Path, PathBuf};
use std::process::Command;

const NAME: &str = "libgix_mailmap.a";

fn main() {
    println!("cargo:rerun-if-env-changed=GIX_MAILMAP_LIBRARY");
    println!("cargo:rerun-if-env-changed=PKG_CONFIG_PATH");
    let file = named().or_else(built).or_else(beside).or_else(installed).unwrap_or_else(|| {
        panic!("there is no {NAME}: run `make lib`, install it, or name it in the variable GIX_MAILMAP_LIBRARY")
    });
    println!("cargo:rerun-if-changed={}", file.display());
    let folder = file.parent().unwrap_or(Path::new("."));
    println!("cargo:rustc-link-search=native={}", folder.display());
    println!("cargo:rustc-link-lib=static=gix_mailmap");
}

/// The file that the environment names.
fn named() -> Option<PathBuf> {
    let file = PathBuf::from(env::var_os("GIX_MAILMAP_LIBRARY").filter(|name| !name.is_empty())?);
    if file.file_name().is_some_and(|name| name == NAME) && file.is_file() {
        return Some(file);
    }
    panic!("GIX_MAILMAP_LIBRARY has to name a file {NAME}: there is none at {}", file.display());
}

/// A path from the folder of this crate.
fn from_here(path: &str) -> Option<PathBuf> {
    Some(Path::new(&env::var_os("CARGO_MANIFEST_DIR")?).join(path))
}

/// The library for the target's processor in this repository.
fn built() -> Option<PathBuf> {
    let out = from_here("../../crates/gix_mailmap_c/out")?;
    let folder = match env::var("CARGO_CFG_TARGET_ARCH").ok()?.as_str() {
        "x86_64" => out.join("c"),
        arch => out.join(arch).join("c"),
    };
    existing(folder.join(NAME))
}

/// The library in PREFIX/lib, if this crate is in PREFIX/share/gix_mailmap/rust.
fn beside() -> Option<PathBuf> {
    let folder = from_here("../../../gix_mailmap/rust/gix_mailmap").filter(|folder| folder.is_dir())?;
    existing(folder.join("../../../../lib").join(NAME))
}

/// The library that is installed, if it is for the target's processor as far as pkg-config knows.
fn installed() -> Option<PathBuf> {
    let words = ["--variable=libdir", "gix_mailmap"];
    let found = Command::new("pkg-config").args(words).output().ok().filter(|found| found.status.success())?;
    existing(Path::new(String::from_utf8(found.stdout).ok()?.trim()).join(NAME))
}

fn existing(file: PathBuf) -> Option<PathBuf> {
    file.is_file().then_some(file)
}
