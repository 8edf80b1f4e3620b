//! `dolzhytik shorten` and `strip` of what clang and wasm-ld make, beside tools of LLVM. Where a tool
//! is missing, a test prints which, and passes.
use crate::program::Folder;
use crate::tools;
use dolzhytik::fallible::Global;
use dolzhytik::reader::{Section, Sections};
use std::env;
use std::fs;
use std::path::{Path, PathBuf};
use std::process::Command;

/// Compiles the C file of the example `object`, with DWARF.
fn object(name: &str) -> Option<PathBuf> {
    tools::compile("object/squares.c", &["-O1", "-g"], name)
}

/// Links an object whose other functions are missing.
fn link(object: &Path, module: &str) -> Option<PathBuf> {
    tools::link(&[object], &["--allow-undefined"], module)
}

/// Calls a command on a file with these options, and returns the path of the module.
#[track_caller]
fn written(command: &str, path: &Path, options: &[&str], name: &str) -> PathBuf {
    let output = tools::temporary(name);
    let paths = [path.to_str().unwrap(), "-o", output.to_str().unwrap()];
    let words = [&[command], &paths[..], options].concat();
    let answer = Folder::new("linked").call(&words, b"");
    assert_eq!(answer.status, 0, "{}", answer.err);
    output
}

#[track_caller]
fn shortened(path: &Path, options: &[&str], name: &str) -> PathBuf {
    written("shorten", path, options, name)
}

/// What a tool of LLVM prints of a file, without the line that has its path. The variable selects
/// another version.
fn printed(variable: &str, default: &str, options: &[&str], path: &Path) -> Option<String> {
    let tool = env::var_os(variable).unwrap_or_else(|| default.into());
    let Ok(done) = Command::new(&tool).args(options).arg(path).output() else {
        eprintln!("there is no {}", tool.display());
        return None;
    };
    assert!(
        done.status.success(),
        "{}",
        String::from_utf8_lossy(&done.stderr)
    );
    let text = String::from_utf8_lossy(&done.stdout);
    let is_path = |line: &&str| line.contains(path.to_str().unwrap());
    Some(
        text.lines()
            .filter(|line| !is_path(line))
            .collect::<Vec<_>>()
            .join("\n"),
    )
}

fn dwarf(path: &Path) -> Option<String> {
    printed("LLVM_DWARFDUMP", "llvm-dwarfdump", &["--all"], path)
}

/// The instructions of an object, with its relocations.
fn code(path: &Path) -> Option<String> {
    printed("LLVM_OBJDUMP", "llvm-objdump", &["-d", "-r"], path)
}

fn sections(module: &[u8]) -> impl Iterator<Item = Section<'_>> {
    Sections::new(Global, module).unwrap().map(Result::unwrap)
}

/// The ids and sizes of the sections, by their order.
fn sizes(module: &[u8]) -> Vec<(u8, usize)> {
    sections(module)
        .map(|it| (it.id(), it.bytes().len()))
        .collect()
}

/// clang pads the sizes of sections.
#[test]
fn an_object_with_dwarf_is_linked_as_before() {
    let Some(before) = object("kept.o") else {
        return;
    };
    let after = shortened(&before, &["--keep-code"], "kept_short.o");
    let [first, second] = [&before, &after].map(|path| fs::read(path).unwrap());
    assert!(second.len() < first.len());
    for ((id, size), (other_id, other_size)) in sizes(&first).into_iter().zip(sizes(&second)) {
        assert_eq!(id, other_id);
        let stays = id == 10 || id == 11;
        assert!(other_size <= size && (!stays || other_size == size), "{id}");
    }
    if let (Some(first), Some(second)) = (dwarf(&before), dwarf(&after)) {
        assert!(first.contains("DW_AT_low_pc"));
        assert_eq!(first, second);
    }
    // wasm-ld writes the name of the module to it.
    let linked = |object| {
        let module = link(object, "kept.wasm")?;
        Some((fs::read(&module).unwrap(), module))
    };
    let Some(((first, _), (second, module))) = linked(&before).zip(linked(&after)) else {
        return;
    };
    assert_eq!(first, second);
    // The linker leaves no padded sizes. The module with its DWARF stays as it is.
    let again = shortened(&module, &["--keep-code"], "kept_again.wasm");
    assert_eq!(second, fs::read(again).unwrap());
}

/// The bytes of all sections but the empty ones in the places of removed sections.
fn without_empty(module: &[u8]) -> Vec<&[u8]> {
    let others = sections(module).filter(|it| it.name() != Some(".objcopy.removed"));
    others.map(|it| it.bytes()).collect()
}

/// The symbols of an object file are sections too, of DWARF, and its relocations are of sections by
/// their indices.
#[test]
fn an_object_without_its_dwarf_is_linked_as_before() {
    let Some(before) = object("dwarf.o") else {
        return;
    };
    let after = written("strip", &before, &["--debug"], "no_dwarf.o");
    let [first, second] = [&before, &after].map(|path| fs::read(path).unwrap());
    let is_debug = |it: Section<'_>| it.name().is_some_and(|name| name.contains(".debug_"));
    assert!(sections(&first).any(is_debug) && !sections(&second).any(is_debug));
    if let (Some(first), Some(second)) = (code(&before), code(&after)) {
        assert!(first.contains("R_WASM_FUNCTION_INDEX_LEB"), "{first}");
        assert_eq!(first, second);
    }
    let linked = |object: &Path| {
        let options = ["--allow-undefined", "--export-all", "--strip-debug"];
        let module = tools::link(&[object], &options, "no_dwarf.wasm")?;
        Some(fs::read(module).unwrap())
    };
    let Some((first, second)) = linked(&before).zip(linked(&after)) else {
        return;
    };
    assert_eq!(without_empty(&first), without_empty(&second));
}

/// Sections that are minimized one by one are those of the library's call for modules.
#[test]
fn a_linked_module_is_the_same_by_both_ways() {
    let Some(object) = object("ways.o") else {
        return;
    };
    let Some(module) = link(&object, "ways.wasm") else {
        return;
    };
    let whole = shortened(&module, &["--drop-offsets"], "whole.wasm");
    let options = ["--drop-offsets", "--build-id=drop"];
    let by_section = shortened(&module, &options, "by_section.wasm");
    let whole = fs::read(whole).unwrap();
    assert_eq!(whole, fs::read(by_section).unwrap());
    let program = "
const imports = { env: { count() {}, sum_of_squares: (a, b) => a * a + b * b } };
const { run, calls } = new WebAssembly.Instance(module, imports).exports;
console.log(run(3, 4), run(-8, 15), calls());
";
    if let Some(printed) = tools::run(&whole, program) {
        assert_eq!(printed, "25 289 0\n");
    }
}
