//! What the tests here share: places, compiling and running.

use std::fs;
use std::io::ErrorKind;
use std::path::{Path, PathBuf};
use std::process::{Command, Output};

/// A program that was linked with a library goes with every one of this major and minor version.
pub fn interface() -> &'static str {
    gumbyra::VERSION.rsplit_once('.').expect("three numbers").0
}

pub const STRICT: [&str; 4] = ["-Wall", "-Wextra", "-Wpedantic", "-Werror"];

pub fn repository() -> PathBuf {
    Path::new(env!("CARGO_MANIFEST_DIR")).join("../..").canonicalize().expect("the repository")
}

pub fn library() -> PathBuf {
    repository().join("target/library")
}

pub fn example(name: &str) -> PathBuf {
    repository().join("c/examples").join(name)
}

/// A place for what a test makes; tests run at the same time, so each has names of its own.
pub fn scratch(name: &str) -> PathBuf {
    Path::new(env!("CARGO_TARGET_TMPDIR")).join(name)
}

/// A file in that place.
pub fn written(name: &str, bytes: &[u8]) -> PathBuf {
    fs::write(scratch(name), bytes).expect("there is room");
    scratch(name)
}

pub fn run(command: &mut Command) -> Output {
    command.output().unwrap_or_else(|error| panic!("{command:?}: {error}"))
}

/// What a command prints, which must end well.
pub fn printed(command: &mut Command) -> String {
    let output = run(command);
    assert!(output.status.success(), "{command:?}: {}", String::from_utf8_lossy(&output.stderr));
    String::from_utf8(output.stdout).expect("it prints text")
}

/// A tool that not every machine has. Without it there is nothing to try, and the test says so.
pub fn is_there(tool: &str) -> bool {
    let error = Command::new(tool).arg("--version").output().err();
    let missing = error.is_some_and(|error| error.kind() == ErrorKind::NotFound);
    if missing {
        println!("{tool} is not installed: what needs it is not tried");
    }
    !missing
}

/// A program linked with the archive.
pub fn compiled(source: &Path, include: &Path, name: &str) -> PathBuf {
    let (program, archive) = (scratch(name), library().join("lib/libgumbyra.a"));
    let mut compiler = Command::new("cc");
    compiler.arg("-std=c11").args(STRICT).arg("-I").arg(include).args([source, &archive]);
    printed(compiler.arg("-o").arg(&program));
    program
}

/// A program of an example. It is compiled as its first lines say, so they must say it.
pub fn built(name: &str) -> PathBuf {
    let source = example(name).with_extension("c");
    let line =
        format!("cc c/examples/{name}.c -Itarget/library/include target/library/lib/libgumbyra.a -o target/{name}");
    assert!(fs::read_to_string(&source).expect("the example").contains(&line), "{name}.c lacks: {line}");
    compiled(&source, &library().join("include"), name)
}
