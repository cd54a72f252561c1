//! Finds the library that `./library` lays out: in target/library of the repository, or where GUMBYRA_LIB_DIR says.

use std::env;
use std::path::{Path, PathBuf};

fn main() {
    println!("cargo::rerun-if-env-changed=GUMBYRA_LIB_DIR");
    let lib_dir = lib_dir();
    let found = lib_dir.canonicalize().map_err(|error| error.to_string()).and_then(|dir| check(&dir).map(|()| dir));
    match found {
        Ok(dir) => {
            println!("cargo::rustc-link-search=native={}", dir.display());
            println!("cargo::rustc-link-lib=static=gumbyra");
        }
        Err(why) => println!(
            "cargo::error=no Gumbyra library in {}: {why}. In Gumbyra's repository `./library` lays it out in \
             target/library; elsewhere set GUMBYRA_LIB_DIR to the absolute path of its folder lib",
            lib_dir.display()
        ),
    }
}

/// The folder that should have it.
fn lib_dir() -> PathBuf {
    let of_repository = || Path::new(&variable("CARGO_MANIFEST_DIR")).join("../../target/library/lib");
    env::var_os("GUMBYRA_LIB_DIR").map_or_else(of_repository, PathBuf::from)
}

/// The archive is there, and its version has this crate's first two numbers; an error tells what is wrong.
fn check(lib_dir: &Path) -> Result<(), String> {
    let (archive, package) = (lib_dir.join("libgumbyra.a"), lib_dir.join("pkgconfig/gumbyra.pc"));
    println!("cargo::rerun-if-changed={}", archive.display());
    println!("cargo::rerun-if-changed={}", package.display());
    if !archive.exists() {
        return Err("there is no libgumbyra.a in it".to_string());
    }
    let package = std::fs::read_to_string(package).map_err(|error| format!("pkgconfig/gumbyra.pc: {error}"))?;
    let of_library = package.lines().find_map(|line| line.strip_prefix("Version: ")).unwrap_or("unknown");
    let own = variable("CARGO_PKG_VERSION");
    // A program goes with every library of its first two numbers.
    let is_same =
        own.rsplit_once('.').map(|(first_two, _)| first_two) == of_library.rsplit_once('.').map(|(two, _)| two);
    is_same.then_some(()).ok_or(format!("it is of version {of_library}, and this crate of {own}"))
}

/// What cargo says in a variable.
fn variable(name: &str) -> String {
    env::var(name).unwrap_or_else(|error| panic!("{name}: {error}"))
}
