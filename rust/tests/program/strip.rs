//! `dolzhytik strip`.
use crate::program::{Answer, Folder};
use crate::samples::{PADDED, PADDED_NAME, custom, module};

/// The empty section in the place of a removed one, as LLVM's strip has it.
const EMPTY: &str = "00 11 10 2e6f626a636f70792e72656d6f766564";

/// A symbol table whose one symbol is of kind 3, without flags: the section of index 1.
const SECTION_SYMBOL: &str = "02 08 04 01 03 00 01";

/// Checks what is left of the sections by these words, how many are removed, and the lines on
/// standard error before the sizes.
#[track_caller]
fn check_told(sections: &[&str], words: &[&str], left: &[&str], removed: usize, told: &[&str]) {
    let folder = Folder::new("strip");
    let (before, after) = (module(sections), module(left));
    folder.write("a.wasm", &before);
    let sizes = format!(
        "{} bytes before, {} after; sections removed: {removed}",
        before.len(),
        after.len(),
    );
    let empty = match left.iter().filter(|section| **section == EMPTY).count() {
        count if count * removed == 0 => String::new(),
        count => format!("; empty sections in their places: {count}"),
    };
    let lines = told.iter().map(|line| (*line).into());
    let lines = lines.chain([sizes + &empty]);
    let expected = Answer {
        out: Vec::new(),
        err: lines
            .map(|line: String| format!("dolzhytik: a.wasm: {line}\n"))
            .collect(),
        status: 0,
    };
    let words = [&["strip", "a.wasm", "-o", "b.wasm"], words].concat();
    assert_eq!(folder.call(&words, b""), expected);
    assert_eq!(folder.read("b.wasm"), after);
    assert_eq!(folder.read("a.wasm"), before);
    assert_eq!(folder.names(), ["a.wasm", "b.wasm"]);
}

#[track_caller]
fn check(sections: &[&str], words: &[&str], left: &[&str], removed: usize) {
    check_told(sections, words, left, removed, &[]);
}

/// Checks that these words are refused, and why.
#[track_caller]
fn check_refused(sections: &[&str], words: &[&str], why: &str) {
    let folder = Folder::new("strip_refused");
    folder.write("a.wasm", module(sections));
    let words = [&["strip", "a.wasm", "-o", "b.wasm"], words].concat();
    let fault = Answer::fault(&format!("a.wasm: {why}"));
    assert_eq!(folder.call(&words, b""), fault);
    assert_eq!(folder.names(), ["a.wasm"]);
}

#[test]
fn all_custom_sections() {
    let [types, functions, exports, code] = PADDED;
    let (debug, unnamed) = (custom(".debug_info", "ff"), "00 01 05");
    let sections = [
        types,
        &debug,
        functions,
        exports,
        code,
        PADDED_NAME,
        unnamed,
    ];
    // All bytes of the others stay, padded sizes too.
    check(&sections, &[], &PADDED, 3);
    check(&sections, &["--all"], &PADDED, 3);
    let left = [types, functions, exports, code, PADDED_NAME];
    check(&sections, &["--keep", "name"], &left, 2);
    check(&PADDED, &[], &PADDED, 0);
}

#[test]
fn debug_sections_alone() {
    let (debug, strings) = (custom(".debug_info", "ff"), custom(".debug_str", ""));
    let relocations = custom("reloc..debug_info", "01 00");
    let others = [custom("debug_info", ""), custom("producers", "00")];
    let sections = [
        PADDED[0],
        &others[0],
        &others[1],
        &debug,
        &strings,
        &relocations,
    ];
    let left = [PADDED[0], &others[0], &others[1]];
    check(&sections, &["--debug"], &left, 3);
    let left = [PADDED[0], &others[0], &others[1], &strings];
    check(&sections, &["--debug", "--keep=.debug_str"], &left, 2);
}

#[test]
fn named_sections_alone() {
    let [a, b, c] = ["a", "b", "a"].map(|name| custom(name, "07"));
    check(&[&a, &b, &c], &["a"], &[&b], 2);
    check(&[&a, &b, &c], &["b", "a"], &[], 3);
    check(&[&a, &b, &c], &["a", "--keep", "a"], &[&a, &b, &c], 0);
}

#[test]
fn options_add_up() {
    let [a, b, debug] = ["a", "b", ".debug_info"].map(|name| custom(name, "07"));
    let sections = [&a[..], &b, &debug];
    check(&sections, &["--debug", "a"], &[&b], 2);
    check(&sections, &["b", "--debug", "--keep=b"], &[&a, &b], 1);
    check(&sections, &["--all", "a"], &[], 3);
    check(&sections, &["--all", "--debug"], &[], 3);
    check(&sections, &["--all", "--keep", "b"], &[&b], 2);
}

#[test]
fn names_that_no_section_has_are_reported() {
    let [a, b] = ["a", "b"].map(|name| custom(name, "07"));
    let lacks = |name: &str| format!("no custom section {name:?}");
    let [c, d, all] = ["c", "d\n", "--all"].map(lacks);
    check_told(&[&a, &b], &["a", "c"], &[&b], 1, &[&c]);
    let words = ["--keep", "b", "--keep=d\n"];
    check_told(&[&a, &b], &words, &[&b], 1, &[&d]);
    check_told(&[&a, &b], &["--", "--all"], &[&a, &b], 0, &[&all]);
    // A section whose name does not decode has none, and neither has one of another id.
    let empty = lacks("");
    check_told(&["00 01 05"], &[""], &["00 01 05"], 0, &[&empty]);
    let code = lacks("code");
    check_told(&PADDED, &["code"], &PADDED, 0, &[&code]);
}

#[test]
fn relocations_hold_the_index_of_their_section() {
    let [types, _, _, code] = PADDED;
    let other = custom("other", "");
    // Relocations of section 1, which is the code section.
    let relocations = custom("reloc.CODE", "01 00");
    let sections = [types, code, &other, &relocations];
    check(&sections, &["other"], &[types, code, &relocations], 1);
    // Relocations of section 2.
    let relocations = custom("reloc.CODE", "02 00");
    let sections = [types, &other, code, &relocations];
    check(
        &sections,
        &["other"],
        &[types, EMPTY, code, &relocations],
        1,
    );
    check(&sections, &["other", "reloc.CODE"], &[types, code], 2);
    // Relocations that have no index: it may be any.
    let unknown = custom("reloc.x", "");
    let sections = [types, &unknown, &other];
    check(&sections, &["other"], &[types, &unknown, EMPTY], 1);
}

#[test]
fn relocations_of_a_removed_section_are_removed() {
    let [types, _, _, code] = PADDED;
    let (other, relocations) = (custom("other", ""), custom("reloc.other", "01 00"));
    let sections = [types, &other, code, &relocations];
    check(&sections, &["other"], &[types, code], 2);
    let linking = custom("linking", "02 08 04 01 03 00 03");
    let sections = [types, &other, &relocations, code, &linking];
    let left = [types, EMPTY, EMPTY, code, &linking];
    check(&sections, &["other"], &left, 2);
    // A section is kept with its relocations.
    let debug = [custom(".debug_info", "ff"), custom(".debug_str", "")];
    let relocations = [1, 2].map(|index| format!("0{index} 00"));
    let relocations = [
        custom("reloc..debug_info", &relocations[0]),
        custom("reloc..debug_str", &relocations[1]),
    ];
    let sections = [
        types,
        &debug[0],
        &debug[1],
        &relocations[0],
        &relocations[1],
    ];
    check(&sections, &["--debug"], &[types], 4);
    let left = [types, EMPTY, &debug[1], &relocations[1]];
    check(&sections, &["--debug", "--keep", ".debug_str"], &left, 2);
    let words = ["--debug", "--keep", "reloc..debug_info"];
    let why = "section 4, \"reloc..debug_info\", has the relocations of a section \
        that would be removed; keep that section too";
    check_refused(&sections, &words, why);
}

#[test]
fn symbols_and_groups_hold_indices_of_sections() {
    let [types, _, _, code] = PADDED;
    let other = custom("other", "");
    let linking = custom("linking", SECTION_SYMBOL);
    let sections = [types, code, &other, &linking];
    check(&sections, &["other"], &[types, code, &linking], 1);
    let sections = [types, &other, code, &linking];
    check(&sections, &["other"], &[types, EMPTY, code, &linking], 1);
    // A group `g` of subsection 7 without flags, whose member of kind 5 is section 1.
    let group = custom("linking", "02 07 07 01 01 67 00 01 05 01");
    let sections = [types, &other, code, &group];
    check(&sections, &["other"], &[types, EMPTY, code, &group], 1);
    // Its member is function 1.
    let group = custom("linking", "02 07 07 01 01 67 00 01 01 01");
    let sections = [types, &other, code, &group];
    check(&sections, &["other"], &[types, code, &group], 1);
    // A subsection and a version that no convention has: indices may be any.
    for data in ["02 04 00", "01 08 04 01 03 00 01"] {
        let unknown = custom("linking", data);
        let sections = [types, code, &other, &unknown];
        check(&sections, &["other"], &[types, code, EMPTY, &unknown], 1);
    }
}

#[test]
fn an_object_file_without_dwarf_can_be_linked() {
    let [types, _, _, code] = PADDED;
    let debug = custom(".debug_info", "ff");
    let linking = custom("linking", SECTION_SYMBOL);
    let (of_code, of_debug) = (
        custom("reloc.CODE", "02 00"),
        custom("reloc..debug_info", "01 00"),
    );
    let sections = [types, &debug, code, &linking, &of_code, &of_debug];
    let left = [types, EMPTY, code, &linking, &of_code];
    check(&sections, &["--debug"], &left, 2);
    check(&left, &["--debug"], &left, 0);
    check(&left, &[".objcopy.removed"], &left, 1);
    check(&sections, &["--all"], &[types, code], 4);
}

#[test]
fn sections_that_a_linker_needs_are_removed_only_if_asked_for() {
    let [types, _, _, code] = PADDED;
    let (linking, other) = (custom("linking", "02"), custom("other", ""));
    let (of_code, of_other) = (
        custom("reloc.CODE", "01 00"),
        custom("reloc.other", "04 00"),
    );
    let sections = [types, code, &linking, &of_code, &other, &of_other];
    let lost = |names: &str| {
        format!(
            "strip would remove {names}, and no linker takes the file without them; \
             --debug removes only DWARF, and NAME.. only the sections of these names"
        )
    };
    check_refused(&sections, &[], &lost("\"linking\", \"reloc.CODE\""));
    let words = ["--keep", "linking"];
    check_refused(&sections, &words, &lost("\"reloc.CODE\""));
    let words = ["--keep", "linking", "--keep", "reloc.CODE"];
    check(&sections, &words, &sections[..4], 2);
    check(&sections, &["--all"], &[types, code], 4);
    check(
        &sections,
        &["linking", "reloc.CODE", "other"],
        &[types, code],
        4,
    );
    // Relocations without symbols.
    let why = "section 4, \"reloc.CODE\", has relocations that need the symbols of \"linking\", \
        which would be removed; keep that section too";
    check_refused(&sections, &["linking"], why);
    check_refused(&sections, &["--all", "--keep=reloc.CODE"], why);
}

#[test]
fn offsets_from_the_front_of_the_module() {
    let [types, _, _, code] = PADDED;
    let (other, map) = (custom("other", ""), custom("sourceMappingURL", "01 61"));
    let sections = [types, code, &other, &map];
    check(&sections, &["other"], &[types, code, &map], 1);
    let why = "section 4, \"sourceMappingURL\", names a source map, which would be wrong, \
        since the code would move; remove it too, by its name";
    let sections = [types, &other, code, &map];
    check_refused(&sections, &["other"], why);
    check(&sections, &["other", "sourceMappingURL"], &[types, code], 2);
}

#[test]
fn standard_streams() {
    let folder = Folder::new("strip_streams");
    let sections = [PADDED[0], PADDED_NAME];
    let answer = Answer {
        out: module(&PADDED[..1]),
        ..Answer::told(&format!(
            "standard input: {} bytes before, {} after; sections removed: 1",
            module(&sections).len(),
            module(&PADDED[..1]).len(),
        ))
    };
    assert_eq!(
        folder.call(&["strip", "-", "-o-"], &module(&sections)),
        answer
    );
}
