//! What `./library` lays out: header, archive, shared library and package file.

use crate::order::{check_order, on};
use crate::tools::{
    compiled, example, interface, is_there, library, printed, repository, run, scratch, written, STRICT,
};
use std::collections::BTreeSet;
use std::fs;
use std::path::Path;
use std::process::Command;

const CALLS: [&str; 8] = [
    "gumbyra_catalogue",
    "gumbyra_convert",
    "gumbyra_fit",
    "gumbyra_fit_wanted",
    "gumbyra_sentence",
    "gumbyra_text",
    "gumbyra_text_wanted",
    "gumbyra_version",
];

#[test]
fn the_layout_is_of_this_header() {
    let [of_source, of_layout] =
        ["c", "target/library"].map(|folder| repository().join(folder).join("include/gumbyra.h"));
    assert_eq!(fs::read(of_source).ok(), fs::read(of_layout).ok(), "./library lays it out anew");
}

#[test]
fn every_example_is_tried() {
    let files = fs::read_dir(repository().join("c/examples")).expect("the examples");
    let names: BTreeSet<_> = files.map(|file| file.expect("an example").file_name()).collect();
    let tried =
        ["catalogue.c", "draft.c", "eight_nodes.c", "enlarge.c", "fitted.c", "order.c", "order.py"].map(Into::into);
    assert_eq!(names, BTreeSet::from(tried));
}

/// Alone, and with the products that areas are declared with.
#[test]
fn the_header_is_silent_as_c_and_as_cpp() {
    let source = b"#include \"gumbyra.h\"\nuint8_t nodes[GUMBYRA_USUAL_NODES * GUMBYRA_NODE];\n";
    for (compiler, language, standard) in [("cc", "c", "c99"), ("c++", "c++", "c++11"), ("c++", "c++", "c++20")] {
        if !is_there(compiler) {
            continue;
        }
        let alone = written(&format!("alone {standard}"), source);
        let mut command = Command::new(compiler);
        command.arg(format!("-std={standard}")).args(STRICT).args(["-fsyntax-only", "-x", language]).arg(alone);
        printed(command.arg("-I").arg(library().join("include")));
    }
}

/// The names that an ELF file has for a dynamic linker: its own (`SONAME`), or those of what it needs (`NEEDED`).
fn dynamic(tag: &str, file: &Path) -> Vec<String> {
    let lines = printed(Command::new("objdump").arg("-p").arg(file));
    let tagged = lines.lines().filter_map(|line| line.trim_start().strip_prefix(tag));
    tagged.map(|name| name.trim().to_string()).collect()
}

/// Compiles with what the package file of a layout says, or without pkg-config with the same by hand. Such flags are written for a shell.
fn compiler_by_package(layout: &Path) -> Command {
    let mut command = Command::new("sh");
    let flags = if is_there("pkg-config") {
        "flags=$(pkg-config --cflags --libs gumbyra)"
    } else {
        r#"flags='-I"$LAYOUT/include" -L"$LAYOUT/lib" -lgumbyra'"#
    };
    command.arg("-c").arg(format!(r#"{flags} && eval "exec cc \"\$@\" $flags""#)).arg("sh");
    command.env("PKG_CONFIG_PATH", layout.join("lib/pkgconfig")).env("LAYOUT", layout);
    command
}

/// The layout may be moved, also to a folder with spaces in its name.
#[test]
fn the_order_program_goes_with_the_shared_library() {
    let (layout, program) = (scratch("laid out elsewhere"), scratch("order_shared"));
    let _old = fs::remove_dir_all(&layout);
    printed(Command::new("cp").arg("-a").args([library(), layout.clone()]));
    let run_path = format!("-Wl,-rpath,{}", layout.join("lib").display());
    let mut compiler = compiler_by_package(&layout);
    compiler.arg("-std=c11").args(STRICT).arg(example("order.c")).arg(run_path);
    printed(compiler.arg("-o").arg(&program));
    let name = format!("libgumbyra.so.{}", interface());
    assert!(dynamic("NEEDED", &program).contains(&name), "{program:?}");
    assert_eq!(dynamic("SONAME", &layout.join("lib/libgumbyra.so")), [name]);
    check_order("shared", on(program));
}

#[test]
fn the_shared_library_has_the_calls_of_the_header_and_no_other() {
    let symbols = printed(Command::new("nm").args(["-D", "--defined-only"]).arg(library().join("lib/libgumbyra.so")));
    let exported: Vec<&str> = symbols.lines().filter_map(|line| line.split_whitespace().last()).collect();
    assert_eq!(exported, CALLS);
    let header = fs::read_to_string(library().join("include/gumbyra.h")).expect("the header");
    let words = header.split(|c: char| !(c.is_ascii_alphanumeric() || "_(".contains(c)));
    let called: BTreeSet<&str> = words.filter_map(|word| word.split_once('(')).map(|(name, _)| name).collect();
    assert_eq!(called.into_iter().filter(|name| name.starts_with("gumbyra_")).collect::<Vec<_>>(), CALLS);
}

/// The bytes of an object in an archive.
fn object(archive: &Path, name: &str) -> Vec<u8> {
    run(Command::new("ar").arg("p").arg(archive).arg(name)).stdout
}

fn objects(archive: &Path) -> Vec<String> {
    printed(Command::new("ar").arg("t").arg(archive)).lines().map(str::to_string).collect()
}

#[test]
fn the_archive_has_the_proved_objects_as_they_are() {
    let archive = library().join("lib/libgumbyra.a");
    let mut expected = vec!["gumbyra_c.o".to_string()];
    for proved in fs::read_dir(repository().join("target/staticlib")).expect("the proved archives") {
        let proved = proved.expect("an archive").path();
        for name in objects(&proved) {
            let bytes = object(&proved, &name);
            assert!(!bytes.is_empty() && object(&archive, &name) == bytes, "{name} of {proved:?}");
            expected.push(name);
        }
    }
    let mut found = objects(&archive);
    found.sort();
    expected.sort();
    assert_eq!(found, expected, "each once");
}

/// A plug-in is a shared library that has the archive in it.
#[test]
fn the_archive_is_position_independent() {
    let (archive, plug_in) = (library().join("lib/libgumbyra.a"), scratch("plug_in.so"));
    let mut compiler = Command::new("cc");
    compiler.args(["-shared", "-fPIC", "-Wl,-z,defs", "-Wl,-z,text", "-I"]).arg(library().join("include"));
    printed(compiler.args([example("order.c"), archive]).arg("-o").arg(plug_in));
}

/// The sentences are those of docs/USE.md, where lines are broken anywhere; numbers that are no refusals have none.
#[test]
fn every_refusal_has_its_sentence() {
    let source = written(
        "sentences.c",
        b"#include <stdio.h>\n#include \"gumbyra.h\"\n\
          int main(void) { for (uint32_t n = 0; n < 20; n++) printf(\"%s\\n\", gumbyra_sentence(n));\n\
          return *gumbyra_sentence(UINT32_MAX) != 0; }\n",
    );
    let said = printed(&mut Command::new(compiled(&source, &library().join("include"), "sentences")));
    let page = fs::read_to_string(repository().join("docs/USE.md")).expect("the page");
    let page = page.split_whitespace().collect::<Vec<_>>().join(" ");
    for (number, sentence) in said.lines().enumerate() {
        let (is_refusal, listed) = (matches!(number, 1..=8 | 11..=17), format!("- **{number}** {sentence} *"));
        assert_eq!([!sentence.is_empty(), page.contains(&listed)], [is_refusal; 2], "{number}: {sentence}");
    }
}
