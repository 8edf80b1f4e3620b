//! `dolzhytik dump` of what linkers read: names, symbols, relocations and data. The expected lines
//! are worked out by hand from the tool conventions, and some are those of LLVM, wabt and `xxd`.
use crate::dump::{check, shown};
use crate::program::{Answer, Folder};
use crate::samples::{bytes_of, custom, module};
use crate::tools;
use std::fs;
use std::process::Command;

// ---- names

/// An import `a.b`, which is exported too, and a function that calls it and itself.
const IMPORTS: &str = "02 07 01 0161 0162 0000";
const FUNCTIONS: &str = "03 02 01 00";
const CODE: &str = "0a 08 01 06 00 1000 1001 0b";

#[track_caller]
fn check_names(sections: &[&str], sources: &str, [first, second]: [&str; 2]) {
    let sections = [&[IMPORTS, FUNCTIONS, CODE], sections].concat();
    let lines = format!(
        "names: {sources}

section 3 (code): offset 0x17, size 8

function 1{second}: type 0, offset 0x19, size 6
 00001a: 10 00                      | call 0{first}
 00001c: 10 01                      | call 1{second}
 00001e: 0b                         | end
"
    );
    check(&sections, &["--section=code"], &lines);
}

/// wasm-objdump names functions in this order too: the later export or symbol replaces the one
/// before.
#[test]
fn the_name_section_has_precedence_then_symbols_then_exports_then_imports() {
    let exports = "07 0d 03 0178 0000 0179 0000 017a 0001";
    // Function 0 is `p`, and then `q`; function 1 has no symbol.
    let linking = custom("linking", "02 08 0b 02 004000 0170 004000 0171");
    let name = custom("name", "01 04 01 00 016e");
    check_names(&[], "imports", [" <a.b>", ""]);
    check_names(&[exports], "exports", [" <y>", " <z>"]);
    let both = "linking section, exports";
    check_names(&[exports, &linking], both, [" <q>", " <z>"]);
    let both = "name section, exports";
    check_names(&[exports, &linking, &name], both, [" <n>", " <z>"]);
    check_names(&[&name, &linking, exports], both, [" <n>", " <z>"]);
}

#[test]
fn empty_names_are_none() {
    let name = custom("name", "01 05 02 00 00 01 00");
    check_names(&["07 05 01 00 0001", &name], "imports", [" <a.b>", ""]);
}

#[test]
fn characters_that_do_not_show_are_escaped() {
    // A line break, a quote, a backslash, and a letter that is not ASCII.
    let name = custom("name", "01 09 01 00 06 0a 27 5c c3a9 3e");
    check_names(&[&name], "name section", [r" <\n'\\é>>", ""]);
}

/// A table, a memory, a global and a tag are named as functions are, in code and segments.
#[test]
fn all_entries_are_named_where_they_are_used() {
    let sections = [
        "02 24 05 0161 0162 0000 0161 0174 017000 01 0161 016d 0200 01 0161 0167 037f00 0161 0165 040000",
        "09 08 01 00 2300 0b 02 0000",
        "0a 1c 01 1a 00 110000 3f00 2300 0800 2500 1f4002 000000 0200 0b fc0a0000 0b",
        "0b 08 01 00 2300 0b 02 6162",
        // The type 0 is `ty`, the element segment 0 `el`, the data segment 0 `da`.
        &custom(
            "name",
            "0405 01 00 027479 0805 01 00 02656c 0905 01 00 026461",
        ),
    ];
    let lines = r#"names: name section, imports

section 1 (import): offset 0xa, size 36
 00000b: function 0 <a.b> (import "a" "b") (type 0 <ty>)
 000011: table 0 <a.t> (import "a" "t") 1 funcref
 000019: memory 0 <a.m> (import "a" "m") 1
 000020: global 0 <a.g> (import "a" "g") i32
 000027: tag 0 <a.e> (import "a" "e") (type 0 <ty>)

section 2 (element): offset 0x30, size 8
 000031: element 0 <el> (table 0 <a.t>) (offset (global.get 0 <a.g>)) func
         item 0 (func 0 <a.b>)
         item 1 (func 0 <a.b>)

section 3 (code): offset 0x3a, size 28

function 1: offset 0x3c, size 26
 00003d: 11 00 00                   | call_indirect 0 <a.t> (type 0 <ty>)
 000040: 3f 00                      | memory.size 0 <a.m>
 000042: 23 00                      | global.get 0 <a.g>
 000044: 08 00                      | throw 0 <a.e>
 000046: 25 00                      | table.get 0 <a.t>
 000048: 1f 40 02 00 00 00 02 00    | try_table (catch 0 <a.e> 0) (catch_all 0)
 000050: 0b                         | end
 000051: fc 0a 00 00                | memory.copy 0 <a.m> 0 <a.m>
 000055: 0b                         | end

section 4 (data): offset 0x58, size 8
 000059: data 0 <da> (memory 0 <a.m>) (offset (global.get 0 <a.g>)), size 2
 00005e: 61 62                                            ab
"#;
    let words = [
        "--section=import",
        "--section=element",
        "--section=code",
        "--section=data",
    ];
    check(&sections, &words, lines);
}

// ---- one function

/// An import `a.b`, and the functions `f`, `g`, `g` and one without a name.
#[test]
fn functions_by_index_or_name() {
    let name = custom("name", "01 0a 03 01 0166 02 0167 03 0167");
    let sections = [
        IMPORTS,
        "03 05 04 00000000",
        "0a 10 04 02000b 0300000b 0300010b 0300000b",
        &name,
    ];
    let head = "names: name section, imports

section 3 (code): offset 0x1a, size 16
";
    let first = "
function 1 <f>: type 0, offset 0x1c, size 2
 00001d: 0b                         | end
";
    let [second, third] = [(2, 0x1f, "00", "unreachable"), (3, 0x23, "01", "nop")].map(
        |(index, offset, byte, name)| {
            let [at, next] = [offset + 1, offset + 2];
            let space = " ".repeat(25);
            format!(
                "
function {index} <g>: type 0, offset {offset:#x}, size 3
 {at:06x}: {byte}{space}| {name}
 {next:06x}: 0b{space}| end
"
            )
        },
    );
    check(&sections, &["1"], &format!("{head}{first}"));
    check(&sections, &["f"], &format!("{head}{first}"));
    check(&sections, &["g"], &format!("{head}{second}{third}"));
    check(&sections, &["3", "-r"], &format!("{head}{third}"));
    let folder = Folder::new("no_function");
    for (word, why) in [
        ("h", "no function \"h\"; did you mean \"f\"?"),
        ("other", "no function \"other\""),
        ("5", "no function 5: the module has 5"),
        ("+1", "no function \"+1\""),
        ("0", "function 0 is an import, and has no body"),
        ("a.b", "function \"a.b\" is an import, and has no body"),
        ("a.", "no function \"a.\""),
    ] {
        let fault = folder.call(&["dump", "-", word], &module(&sections));
        let error = format!("standard input: {why}");
        assert_eq!(shown(fault), shown(Answer::fault(&error)));
    }
    let bad = ["0a 01 80"];
    let fault = folder.call(&["dump", "-", "0"], &module(&bad));
    let error = "standard input: section 1 (code) at offset 0xb: unexpected end of input";
    assert_eq!(shown(fault), shown(Answer::fault(error)));
}

/// Relocations of functions that are not listed are not listed either.
#[test]
fn relocations_of_one_function() {
    let sections = [
        "0a 13 02 08 00 10 8080808000 0b 08 00 10 8080808000 0b",
        &custom("reloc.CODE", "00 02 000400 000d00"),
    ];
    let lines = "section 1 (code): offset 0xa, size 19

function 1: offset 0x15, size 8
 000016: 10 80 80 80 80 00          | call 0
           000017: R_WASM_FUNCTION_INDEX_LEB 0
 00001c: 0b                         | end
";
    check(&sections, &["-r", "1"], lines);
    let first = lines.replace("function 1: offset 0x15", "function 0: offset 0xc");
    let first = first
        .replace("000016", "00000d")
        .replace("000017", "00000e");
    let first = first.replace("00001c", "000013");
    check(&sections, &["-r", "0"], &first);
}

// ---- symbols

#[test]
fn symbols_are_as_nm_shows_them() {
    let symbols = "00 10 00 00 11 00 00 05 01 0166 00 02 01 0173 00 a001 01 0165 \
        01 8202 0164 00 04 08 01 8004 0161 00 04 08 01 50 0175";
    let linking = custom("linking", &format!("02 082b 08 {symbols}"));
    let lines = r#"names: linking section, imports

section 2 (custom "linking"): offset 0x13, size 54
         symbol 0 U <a.b> function 0, flags 0x10 global default undefined
         symbol 1 w <a.b> function 0, flags 0x11 weak default undefined
         symbol 2 W <f> function 1, flags 0x5 weak hidden
         symbol 3 t <s> function 1, flags 0x2 local default
         symbol 4 T <e> function 1, flags 0xa0 global default exported no_strip
         symbol 5 d <d> data 0 offset 4 size 8, flags 0x102 local default tls
         symbol 6 D <a> data 0 offset 4 size 8, flags 0x200 global default absolute
         symbol 7 U <u> data, flags 0x50 global default undefined explicit_name
"#;
    check(&[IMPORTS, &linking], &["--section=linking"], lines);
}

// ---- relocations

/// Code, data and a custom section, their symbols, and their relocations. Those of the code are not
/// in the order of their offsets.
pub fn relocated() -> Vec<String> {
    vec![
        "0a 15 01 13 00 10 8080808000 11 8080808000 8080808000 0b".into(),
        format!("0b 2a 01 00 4100 0b 24 {}", "00".repeat(36)),
        custom("x", "00000000"),
        custom(
            "linking",
            "02 0812 04 000000 0166 050000 0174 0110 0164 030202",
        ),
        custom("reloc.CODE", "00 03 140f01 000400 060a00"),
        custom("reloc.DATA", "01 01 051a02 7c"),
        custom("reloc.x", "02 01 090003 05"),
    ]
}

const CODE_RELOCATED: &str = r#"names: linking section

section 1 (code): offset 0xa, size 21

function 0 <f>: offset 0xc, size 19
 00000d: 10 80 80 80 80 00          | call 0 <f>
           00000e: R_WASM_FUNCTION_INDEX_LEB 0 <f>
 000013: 11 80 80 80 80 00 80 80 80 | call_indirect 0 <t> (type 0)
 00001c: 80 00                      |
           000014: R_WASM_TYPE_INDEX_LEB 0
           000019: R_WASM_TABLE_NUMBER_LEB 1 <t>
 00001e: 0b                         | end
"#;

#[test]
fn relocations_are_below_what_they_patch() {
    let sections = relocated();
    let sections: Vec<&str> = sections.iter().map(|it| &**it).collect();
    for option in ["-r", "--relocations"] {
        check(&sections, &["--section=code", option], CODE_RELOCATED);
    }
    let without: String = CODE_RELOCATED
        .split_inclusive('\n')
        .filter(|line| !line.contains("R_WASM"))
        .collect();
    check(&sections, &["--section=code"], &without);
    let zeros = "00 ".repeat(16);
    let dots = ".".repeat(16);
    let lines = format!(
        "names: linking section

section 2 (data): offset 0x21, size 42
 000022: data 0 (memory 0) (offset (i32.const 0)), size 36
 000027: {zeros} {dots}
 000037: {zeros} {dots}
           00003b: R_WASM_MEMORY_ADDR_I32 2 <d>-4
 000047: 00 00 00 00                                      ....
"
    );
    check(&sections, &["-r", "--section=data"], &lines);
    let lines = r#"names: linking section

section 3 (custom "x"): offset 0x4d, size 6
 00004f: 00 00 00 00                                      ....
           00004f: R_WASM_SECTION_OFFSET_I32 3 <x>+5
"#;
    check(&sections, &["-r", "--section=x"], lines);
    let lines = r#"names: linking section

section 5 (custom "reloc.CODE"): offset 0x74, size 22
         section 0 <code>
         relocation R_WASM_TABLE_NUMBER_LEB offset 0xf symbol 1 <t>
         relocation R_WASM_FUNCTION_INDEX_LEB offset 0x4 symbol 0 <f>
         relocation R_WASM_TYPE_INDEX_LEB offset 0xa type 0
"#;
    check(&sections, &["-r", "--section=reloc.CODE"], lines);
}

/// Nothing is lost of relocations that are of no listed bytes, or of a section that there is not.
#[test]
fn other_relocations_are_at_the_end_of_the_section() {
    let sections = [
        "03 02 01 00",
        &custom("reloc.FUNCTION", "00 02 000100 005000"),
        &custom("reloc.OTHER", "09 01 000100"),
    ];
    let lines = r#"section 1 (function): offset 0xa, size 2
 00000b: function 0 (type 0)
           00000b: R_WASM_FUNCTION_INDEX_LEB 0
           00005a: R_WASM_FUNCTION_INDEX_LEB 0

section 2 (custom "reloc.FUNCTION"): offset 0xe, size 23
         section 0 <function>
         relocation R_WASM_FUNCTION_INDEX_LEB offset 0x1 symbol 0
         relocation R_WASM_FUNCTION_INDEX_LEB offset 0x50 symbol 0

section 3 (custom "reloc.OTHER"): offset 0x27, size 17
         section 9
         relocation R_WASM_FUNCTION_INDEX_LEB offset 0x1 symbol 0
"#;
    check(&sections, &["-r"], lines);
}

#[test]
fn relocations_that_do_not_decode_are_reported() {
    let folder = Folder::new("bad_relocations");
    let sections = [FUNCTIONS, &custom("reloc.FUNCTION", "00 02 000100")];
    let error = "standard input: section 2 (custom \"reloc.FUNCTION\") at offset 0x22: unexpected end of input";
    let words = ["dump", "-", "-r", "--section=function"];
    let answer = folder.call(&words, &module(&sections));
    let out = "section 1 (function): offset 0xa, size 2\n 00000b: function 0 (type 0)\n";
    let expected = Answer {
        out: out.into(),
        ..Answer::told(error)
    };
    assert_eq!(shown(answer), shown(expected));
}

/// The types by their numbers, as LLVM's `WasmRelocs.def` and the tool conventions have them.
const TYPES: [&str; 27] = [
    "FUNCTION_INDEX_LEB",
    "TABLE_INDEX_SLEB",
    "TABLE_INDEX_I32",
    "MEMORY_ADDR_LEB",
    "MEMORY_ADDR_SLEB",
    "MEMORY_ADDR_I32",
    "TYPE_INDEX_LEB",
    "GLOBAL_INDEX_LEB",
    "FUNCTION_OFFSET_I32",
    "SECTION_OFFSET_I32",
    "TAG_INDEX_LEB",
    "MEMORY_ADDR_REL_SLEB",
    "TABLE_INDEX_REL_SLEB",
    "GLOBAL_INDEX_I32",
    "MEMORY_ADDR_LEB64",
    "MEMORY_ADDR_SLEB64",
    "MEMORY_ADDR_I64",
    "MEMORY_ADDR_REL_SLEB64",
    "TABLE_INDEX_SLEB64",
    "TABLE_INDEX_I64",
    "TABLE_NUMBER_LEB",
    "MEMORY_ADDR_TLS_SLEB",
    "FUNCTION_OFFSET_I64",
    "MEMORY_ADDR_LOCREL_I32",
    "TABLE_INDEX_REL_SLEB64",
    "MEMORY_ADDR_TLS_SLEB64",
    "FUNCTION_INDEX_I32",
];

#[test]
fn every_type_of_relocations_has_the_name_of_llvm() {
    for (number, name) in TYPES.iter().enumerate() {
        let has_addend = name.starts_with("MEMORY_ADDR") || name.contains("_OFFSET_");
        let (addend, shown_addend) = match has_addend {
            true => ("07", " addend 7"),
            false => ("", ""),
        };
        let section = custom("reloc.CODE", &format!("00 01 {number:02x} 0100 {addend}"));
        let of = if number == 6 { "type" } else { "symbol" };
        let folder = Folder::new("types");
        let (out, err, _) = shown(folder.call(&["dump", "-"], &module(&[&section])));
        let line = format!("         relocation R_WASM_{name} offset 0x1 {of} 0{shown_addend}");
        assert_eq!((out.lines().last(), &*err), (Some(&*line), ""));
    }
}

// ---- rows of zeros

/// The rows of a section of an unknown id: the offset of each in the section, or `*`.
fn rows(bytes: &str) -> Vec<String> {
    let size = bytes_of(bytes).len();
    let section = format!("0e {:02x} {:02x} {bytes}", size % 128 + 128, size / 128);
    let (out, _, _) = shown(Folder::new("rows").call(&["dump", "-"], &module(&[&section])));
    let lines = out.lines().skip(1);
    let offset = |line: &str| match line.trim().split_once(':') {
        None => line.to_string(),
        Some((offset, _)) => format!("{:08x}", usize::from_str_radix(offset, 16).unwrap() - 0xb),
    };
    lines.map(offset).collect()
}

/// Bytes of which the rows are zeros or not.
fn patterns() -> impl Iterator<Item = String> {
    let row = |zero: bool| if zero { "00" } else { "07" }.repeat(16);
    let whole = (0..32u32).flat_map(move |bits| {
        let rows = (0..5).map(|i| row(bits >> i & 1 == 0));
        let whole: String = rows.collect();
        [whole.clone() + "0000", whole + "0700"]
    });
    whole.chain((1..9).map(move |count| row(true).repeat(count)))
}

#[test]
fn rows_of_zeros_are_folded() {
    let zeros = "00".repeat(16);
    let offsets = |bytes: &str| rows(bytes).join(" ");
    assert_eq!(offsets(&zeros.repeat(3)), "00000000 00000010 00000020");
    assert_eq!(offsets(&zeros.repeat(4)), "00000000 * 00000030");
    let bytes = zeros.repeat(3) + "05";
    assert_eq!(offsets(&bytes), "00000000 * 00000030");
    let bytes = zeros.repeat(2) + "05";
    assert_eq!(offsets(&bytes), "00000000 00000010 00000020");
}

#[test]
fn rows_of_zeros_are_those_of_xxd() {
    let folder = Folder::new("xxd");
    for bytes in patterns() {
        fs::write(folder.path("bytes"), bytes_of(&bytes)).unwrap();
        let mut xxd = Command::new("xxd");
        let Some(printed) = tools::printed(xxd.arg("-a").arg(folder.path("bytes"))) else {
            return;
        };
        let offset = |line: &str| line.split(':').next().unwrap().to_string();
        let expected: Vec<String> = printed.lines().map(offset).collect();
        assert_eq!(rows(&bytes), expected, "{bytes}");
    }
}

// ---- beside LLVM

/// `T name` for each symbol of an object, as `llvm-nm` and as the program shows them.
#[test]
fn symbols_of_an_object_have_the_letters_of_nm() {
    let options = ["-O1", "-g"];
    let Some(object) = tools::compile("object/squares.c", &options, "letters.o") else {
        return;
    };
    let nm = std::env::var_os("LLVM_NM").unwrap_or_else(|| "llvm-nm".into());
    let Some(printed) = tools::printed(Command::new(nm).arg(&object)) else {
        return;
    };
    let expected = printed.lines().map(|line| line[9..].to_string());
    let mut expected: Vec<String> = expected.collect();
    let path = object.to_str().unwrap();
    let words = ["dump", path, "--section=linking"];
    let (out, _, _) = shown(Folder::new("nm").call(&words, b""));
    let symbol = |line: &str| {
        let (_, symbol) = line.trim().strip_prefix("symbol ")?.split_once(' ')?;
        let (letter, name) = symbol.split_once(" <")?;
        let name = name.split_once('>')?.0;
        Some(format!("{letter} {}", name.trim_start_matches("env.")))
    };
    let mut found: Vec<String> = out.lines().filter_map(symbol).collect();
    expected.sort();
    found.sort();
    assert!(!found.is_empty());
    assert_eq!(found, expected);
}
