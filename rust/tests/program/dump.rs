//! `dolzhytik dump`. The expected lines are worked out by hand from the bytes of the modules.
use crate::program::{Answer, Folder};
use crate::samples::{PADDED, SHORT, SHORT_NAME, bytes_of, custom, module};
use std::process::Command;

/// Checks what the words print of the module, in a file and from standard input.
#[track_caller]
pub fn check(sections: &[&str], words: &[&str], text: &str) {
    let folder = Folder::new("dump");
    folder.write("a.wasm", module(sections));
    let file = [&["dump", "a.wasm"], words].concat();
    assert_eq!(shown(folder.call(&file, b"")), shown(Answer::of(text)));
    let standard = [&["dump", "-"], words].concat();
    let answer = folder.call(&standard, &module(sections));
    assert_eq!(shown(answer), shown(Answer::of(text)));
}

/// Text can be read when a test fails.
pub fn shown(answer: Answer) -> (String, String, i32) {
    let out = String::from_utf8(answer.out).unwrap();
    (out, answer.err, answer.status)
}

/// Checks the instructions of a body without locals, which are at offset 0xd.
#[track_caller]
fn check_code(code: &str, lines: &str) {
    let size = bytes_of(code).len() + 1;
    let section = format!("0a {:02x} 01 {size:02x} 00 {code}", size + 2);
    let head = format!(
        "section 1 (code): offset 0xa, size {}\n\nfunction 0: offset 0xc, size {size}\n",
        size + 2
    );
    check(&[&section], &[], &format!("{head}{lines}"));
}

/// Checks the name and operands of each instruction. The lines have only these.
#[track_caller]
fn check_instructions(rows: &[(&str, &str)]) {
    for (code, text) in rows {
        let folder = Folder::new("instructions");
        let size = bytes_of(code).len() + 1;
        let section = format!("0a {:02x} 01 {size:02x} 00 {code}", size + 2);
        let (out, err, _) = shown(folder.call(&["dump", "-"], &module(&[&section])));
        let lines: Vec<&str> = out
            .lines()
            .filter_map(|line| line.split("| ").nth(1))
            .collect();
        assert_eq!((lines, &*err), (vec![*text], ""), "{code}");
    }
}

const SHORT_DUMP: &str = r#"names: exports

section 1 (type): offset 0xa, size 7
 00000b: type 0 (func (param i32 i32) (result i32))

section 2 (function): offset 0x13, size 2
 000014: function 0 <f> (type 0)

section 3 (export): offset 0x17, size 5
 000018: export "f" (func 0 <f>)

section 4 (code): offset 0x1e, size 9

function 0 <f>: type 0, offset 0x20, size 7
 000021: 20 00                      | local.get 0
 000023: 20 01                      | local.get 1
 000025: 6a                         | i32.add
 000026: 0b                         | end

section 5 (custom "name"): offset 0x29, size 9
         module "m"
"#;

#[test]
fn all_sections() {
    let [types, functions, exports, code] = SHORT;
    check(&[], &[], "");
    check(
        &[types, functions, exports, code, SHORT_NAME],
        &[],
        SHORT_DUMP,
    );
}

#[test]
fn padded_numbers_have_all_their_bytes() {
    let code = "names: exports

section 4 (code): offset 0x29, size 11

function 0 <f>: type 0, offset 0x2c, size 8
 00002d: 20 00                      | local.get 0
 00002f: 20 81 00                   | local.get 1
 000032: 6a                         | i32.add
 000033: 0b                         | end
";
    check(&PADDED, &["--section", "code"], code);
}

#[test]
fn selected_sections() {
    let [types, functions, exports, code] = SHORT;
    let other = custom("type", "07");
    let sections = [types, functions, exports, code, SHORT_NAME, &other];
    let [head, first, _, third, _, last]: [&str; 6] = {
        let parts: Vec<&str> = SHORT_DUMP.split("\nsection ").collect();
        parts.try_into().unwrap()
    };
    let [first, third, last] = [first, third, last].map(|it| format!("section {it}"));
    let custom = "section 6 (custom \"type\"): offset 0x34, size 6\n 000039: 07                                               .\n";
    let check = |words: &[&str], listed: &[&str]| {
        check(&sections, words, &format!("{head}\n{}", listed.join("\n")));
    };
    check(&["--section=export"], &[&third]);
    check(&["--section", "3"], &[&third]);
    check(&["--id", "7"], &[&third]);
    check(&["--section", "name"], &[&last]);
    check(&["--section=type"], &[&first, custom]);
    check(&["--id=1", "--section=export"], &[&first, &third]);
    check(&["--section", "custom"], &[&last, custom]);
    check(&["--id", "0"], &[&last, custom]);
    check(&["--section", "6"], &[custom]);
}

#[test]
fn sections_that_the_module_lacks() {
    let folder = Folder::new("no_section");
    let check = |option: &str, why: &str| {
        let fault = folder.call(&["dump", "-", option], &module(&SHORT));
        assert_eq!(
            fault,
            Answer::fault(&format!("standard input: no section {why}"))
        );
    };
    check("--section=data", "\"data\"");
    check("--section=na\nmes", "\"na\\nmes\"");
    check("--section=cod", "\"cod\"; did you mean \"code\"?");
    let fault = folder.call(&["dump", "-", "--section=nmae"], &module(&[SHORT_NAME]));
    let why = "standard input: no section \"nmae\"; did you mean \"name\"?";
    assert_eq!(fault, Answer::fault(why));
    check("--section=+3", "\"+3\"");
    // The code section has number 4 and id 10.
    check("--section=10", "10: the module has 4; --id selects by id");
    check("--section=0", "0: the module has 4; --id selects by id");
    check("--id=4", "of id 4");
}

// ---- code

#[test]
fn blocks_are_indented() {
    let lines = " 00000d: 02 40                      | block
 00000f: 03 7f                      |   loop (result i32)
 000011: 41 7f                      |     i32.const -1
 000013: 04 01                      |     if (type 1)
 000015: 0c 00                      |       br 0
 000017: 05                         |     else
 000018: 0f                         |       return
 000019: 0b                         |     end
 00001a: 0b                         |   end
 00001b: 06 40                      |   try
 00001d: 08 00                      |     throw 0
 00001f: 07 00                      |   catch 0
 000021: 09 00                      |     rethrow 0
 000023: 19                         |   catch_all
 000024: 0b                         |   end
 000025: 06 40                      |   try
 000027: 18 00                      |   delegate 0
 000029: 0b                         | end
 00002a: 0b                         | end
";
    let code = "0240 037f 417f 0401 0c00 05 0f 0b 0b 0640 0800 0700 0900 19 0b 0640 1800 0b 0b";
    check_code(code, lines);
    // The indentation of deep blocks ends.
    let folder = Folder::new("deep");
    let code = "0240".repeat(60);
    let section = format!("0a 7c 01 7a 00 {code} 0b");
    let (out, _, _) = shown(folder.call(&["dump", "-"], &module(&[&section])));
    let deepest = out.lines().map(|line| line.len()).max().unwrap();
    assert_eq!(
        deepest,
        " 00000d: 02 40                      | block".len() + 64
    );
}

#[test]
fn instructions_of_many_bytes_have_more_lines() {
    let code = "fd0c 000102030405060708090a0b0c0d0e0f 0e 09 000102030405060708 09 0b";
    let lines = " 00000d: fd 0c 00 01 02 03 04 05 06 | v128.const i32x4 0x03020100 0x07060504 0x0b0a0908 0x0f0e0d0c
 000016: 07 08 09 0a 0b 0c 0d 0e 0f |
 00001f: 0e 09 00 01 02 03 04 05 06 | br_table 0 1 2 3 4 5 6 7 8 9
 000028: 07 08 09                   |
 00002b: 0b                         | end
";
    check_code(code, lines);
}

#[test]
fn operands_of_numbers() {
    check_instructions(&[
        ("41 8080808078", "i32.const -2147483648"),
        ("42 808080808080808080 7f", "i64.const -9223372036854775808"),
        ("43 00000000", "f32.const 0.0"),
        ("43 00000080", "f32.const -0.0"),
        ("43 0000c03f", "f32.const 1.5"),
        // The greatest finite float, and the least above zero.
        ("43 ffff7f7f", "f32.const 3.4028235e38"),
        ("43 01000000", "f32.const 1e-45"),
        ("43 0000807f", "f32.const inf"),
        ("43 000080ff", "f32.const -inf"),
        ("43 0000c07f", "f32.const nan"),
        ("43 0000c0ff", "f32.const -nan"),
        ("43 0100807f", "f32.const nan:0x1"),
        ("44 000000000000f03f", "f64.const 1.0"),
        ("44 000000000000f07f", "f64.const inf"),
        ("44 000000000000f8ff", "f64.const -nan"),
        ("44 010000000000f87f", "f64.const nan:0x8000000000001"),
    ]);
}

#[test]
fn operands_of_memory() {
    check_instructions(&[
        ("28 02 00", "i32.load align=4"),
        ("29 00 8001", "i64.load offset=128 align=1"),
        ("36 42 01 08", "i32.store 1 offset=8 align=4"),
        ("fe10 12 01 00", "i32.atomic.load acq_rel align=4"),
        ("fe10 12 00 00", "i32.atomic.load seq_cst align=4"),
        ("fe2e 20 03 00", "i32.atomic.rmw8.and_u (type 3) align=1"),
        ("fd54 00 04 07", "v128.load8_lane offset=4 align=1 7"),
        ("fd15 0f", "i8x16.extract_lane_s 15"),
        (
            "fd0d 000102030405060708090a0b0c0d0e1f",
            "i8x16.shuffle 0 1 2 3 4 5 6 7 8 9 10 11 12 13 14 31",
        ),
        ("3f 00", "memory.size 0"),
        ("fc08 05 01", "memory.init 1 5"),
        ("fc0a 01 02", "memory.copy 1 2"),
        ("fe03 00", "atomic.fence"),
        ("fe03 01", "atomic.fence acq_rel"),
    ]);
}

#[test]
fn operands_of_calls_and_tables() {
    check_instructions(&[
        ("10 05", "call 5"),
        ("11 05 01", "call_indirect 1 (type 5)"),
        ("13 05 01", "return_call_indirect 1 (type 5)"),
        ("14 05", "call_ref 5"),
        ("1b", "select"),
        ("1c 01 7e", "select (result i64)"),
        ("1c 02 7d7c", "select (result f32 f64)"),
        ("25 03", "table.get 3"),
        ("fc0c 05 01", "table.init 1 5"),
        ("fc0e 01 02", "table.copy 1 2"),
        (
            "1f 7b 04 00 01 02 01 01 02 02 02 03 02",
            "try_table (result v128) (catch 1 2) (catch_ref 1 2) (catch_all 2) (catch_all_ref 2)",
        ),
        ("e3 01 02 00 03 04 01 05", "resume 1 (on 3 4) (on 5 switch)"),
        ("e4 01 02 00", "resume_throw 1 2"),
        ("fe5c 01 02 03", "struct.atomic.get acq_rel 2 3"),
    ]);
}

#[test]
fn operands_of_references() {
    check_instructions(&[
        ("d0 70", "ref.null func"),
        ("d0 05", "ref.null 5"),
        ("d0 6271", "ref.null (exact 113)"),
        ("d0 656e", "ref.null (shared any)"),
        ("fb14 6c", "ref.test (ref i31)"),
        ("fb15 05", "ref.test (ref null 5)"),
        ("fb16 6b", "ref.cast (ref struct)"),
        ("fb17 6a", "ref.cast (ref null array)"),
        ("fb23 6d", "ref.cast_desc_eq (ref eq)"),
        ("fb24 6d", "ref.cast_desc_eq (ref null eq)"),
        ("fb18 01 02 6e 05", "br_on_cast 2 (ref null any) (ref 5)"),
        (
            "fb19 02 02 05 6e",
            "br_on_cast_fail 2 (ref 5) (ref null any)",
        ),
        ("fb08 05 03", "array.new_fixed 5 3"),
        ("fb1d", "i31.get_s"),
        ("fb1a", "any.convert_extern"),
    ]);
}

#[test]
fn locals_are_after_the_parameters() {
    // Functions 1 and 2 have type 0, with two parameters. Function 0 is an import, and function 3
    // has a type that there is not.
    let sections = [
        "01 06 01 60 02 7f7e 00",
        "02 07 01 01 61 01 62 00 00",
        "03 04 03 00 00 07",
        "0a 16 03 08 03 01 7f 00 7c 02 70 0b 04 01 01 69 0b 06 02 01 7b 02 7f 0b",
    ];
    let lines = "names: imports

section 4 (code): offset 0x21, size 22

function 1: type 0, offset 0x23, size 8
 000024: 01 7f                      | local 2 i32
 000026: 00 7c                      | local f64
 000028: 02 70                      | local 3..4 funcref
 00002a: 0b                         | end

function 2: type 0, offset 0x2c, size 4
 00002d: 01 69                      | local 2 exnref
 00002f: 0b                         | end

function 3: type 7, offset 0x31, size 6
 000032: 01 7b                      | local +0 v128
 000034: 02 7f                      | local +1..+2 i32
 000036: 0b                         | end
";
    check(&sections, &["--section=code"], lines);
}

#[test]
fn names_of_functions_and_globals() {
    let sections = [
        "01 04 01 60 00 00",
        "03 03 02 00 00",
        "06 06 01 7f 01 41 00 0b",
        // `call 1`, `global.get 0`, `ref.func 0`, `call 9`.
        "0a 12 02 0c 00 10 01 23 00 d2 00 10 09 1a 1a 0b 03 00 00 0b",
        // Function 0 is `a"`, function 1 is `b`, global 0 is `g`.
        "00 15 04 6e616d65 01 08 02 00 02 6122 01 01 62 07 04 01 00 01 67",
    ];
    let lines = r#"names: name section

section 4 (code): offset 0x1d, size 18

function 0 <a">: type 0, offset 0x1f, size 12
 000020: 10 01                      | call 1 <b>
 000022: 23 00                      | global.get 0 <g>
 000024: d2 00                      | ref.func 0 <a">
 000026: 10 09                      | call 9
 000028: 1a                         | drop
 000029: 1a                         | drop
 00002a: 0b                         | end

function 1 <b>: type 0, offset 0x2c, size 3
 00002d: 00                         | unreachable
 00002e: 0b                         | end
"#;
    check(&sections, &["--section=code"], lines);
}

/// Object files have no name section. Where there is one, its names have precedence.
#[test]
fn names_of_symbols() {
    // The functions `f` and `x`, and the global `g`; function 1 is `b`.
    let symbols = "03 0000000166 0000010178 0200000167";
    let linking = custom("linking", &format!("02 08 10 {symbols}"));
    let name = custom("name", "01 04 01 01 01 62");
    // `call 0`, `call 1`, `global.get 0`.
    let code = "0a 0a 01 08 00 1000 1001 2300 0b";
    let lines = |sources: &str, second: &str| {
        format!(
            "names: {sources}

section 1 (code): offset 0xa, size 10

function 0 <f>: offset 0xc, size 8
 00000d: 10 00                      | call 0 <f>
 00000f: 10 01                      | call 1 <{second}>
 000011: 23 00                      | global.get 0 <g>
 000013: 0b                         | end
"
        )
    };
    let words = ["--section=code"];
    check(&[code, &linking], &words, &lines("linking section", "x"));
    let both = lines("name section, linking section", "b");
    check(&[code, &linking, &name], &words, &both);
    check(&[code, &name, &linking], &words, &both);
}

// ---- other sections

#[test]
fn types() {
    let section = "01 35 09 60 01 6f 02 7f 63 00 60 00 00 5e 78 01 50 00 5f 02 77 00 6b 01 \
        4e 02 50 01 03 5f 00 4f 02 02 03 5f 00 4e 00 65 60 00 00 5d 01 4e 02 4d 06 5f 00 4c 05 5f 00";
    let text = "section 1 (type): offset 0xa, size 53
 00000b: type 0 (func (param externref) (result i32 (ref null 0)))
 000012: type 1 (func)
 000015: type 2 (array (mut i8))
 000018: type 3 (sub (struct (field i16) (field (mut structref))))
 000020: rec of 2
 000022: type 4 (sub 3 (struct))
 000027: type 5 (sub final 2 3 (struct))
 00002d: rec of 0
 00002f: type 6 (shared (func))
 000033: type 7 (cont 1)
 000035: rec of 2
 000037: type 8 (descriptor 6) (struct)
 00003b: type 9 (describes 5) (struct)
";
    check(&[section], &[], text);
}

/// Each kind of section but types and code. The imports have two groups.
pub const ITEMS: [&str; 11] = [
    "02 40 07 0161 0162 0000 0161 0163 01 646b 0001 0161 0164 02 030102 0161 0165 037f01 \
     0161 0166 040000 0161 00 7f 02 0167 2000 0168 037b00 0161 00 7e 037e00 02 0169 016a",
    "03 02 01 00",
    "04 09 01 4000 7000 02 d0700b",
    "05 06 02 0401 080000",
    "0d 03 01 0000",
    "06 0e 02 7f00 4101 4102 6a 0b 7e03 4200 0b",
    "07 0c 03 0162 0401 00 0200 0174 0101",
    "08 01 02",
    "09 20 05 00 41000b 02 0001 01 00 01 02 03 00 00 02 01 41050b 00 01 00 05 70 02 d0700b d2000b",
    "0c 01 03",
    "0b 12 03 00 41100b 03 610a7f 01 00 02 01 41000b 01 7e",
];

const ITEMS_DUMP: &str = r#"names: name section, exports, imports

section 1 (import): offset 0xa, size 64
 00000b: function 0 <a.b> (import "a" "b") (type 0)
 000011: table 0 <a.c> (import "a" "c") 1 (ref struct)
 00001a: memory 0 <a.d> (import "a" "d") 1 2 shared
 000022: global 0 <a.e> (import "a" "e") (mut i32)
 000029: tag 0 <a.f> (import "a" "f") (type 0)
 000030: function 1 <a.g> (import "a" "g") (exact (type 0))
 000030: global 1 <a.h> (import "a" "h") v128
 00003e: global 2 <a.i> (import "a" "i") i64
 00003e: global 3 <a.j> (import "a" "j") i64

section 2 (function): offset 0x4c, size 2
 00004d: function 2 <two> (type 0)

section 3 (table): offset 0x50, size 9
 000051: table 1 <t> 2 funcref (ref.null func)

section 4 (memory): offset 0x5b, size 6
 00005c: memory 1 i64 1
 00005e: memory 2 0 (pagesize 1)

section 5 (tag): offset 0x63, size 3
 000064: tag 1 <b> (type 0)

section 6 (global): offset 0x68, size 14
 000069: global 4 i32 (i32.const 1) (i32.const 2) (i32.add)
 000071: global 5 (shared mut i64) (i64.const 0)

section 7 (export): offset 0x78, size 12
 000079: export "b" (tag 1 <b>)
 00007d: export "" (memory 0 <a.d>)
 000080: export "t" (table 1 <t>)

section 8 (start): offset 0x86, size 1
 000086: start (func 2 <two>)

section 9 (element): offset 0x89, size 32
 00008a: element 0 (table 0 <a.c>) (offset (i32.const 0)) func
         item 0 (func 0 <a.b>)
         item 1 (func 1 <a.g>)
 000091: element 1 passive func
         item 0 (func 2 <two>)
 000095: element 2 declare func
 000098: element 3 (table 1 <t>) (offset (i32.const 5)) func
         item 0 (func 0 <a.b>)
 0000a0: element 4 passive funcref
         item 0 (ref.null func)
         item 1 (ref.func 0 <a.b>)

section 10 (data count): offset 0xab, size 1
 0000ab: data count 3

section 11 (data): offset 0xae, size 18
 0000af: data 0 (memory 0 <a.d>) (offset (i32.const 16)), size 3
 0000b4: 61 0a 7f                                         a..
 0000b7: data 1 passive, size 0
 0000b9: data 2 (memory 1) (offset (i32.const 0)), size 1
 0000bf: 7e                                               ~

section 12 (custom "name"): offset 0xc2, size 13
         function 2 "two"
"#;

#[test]
fn items() {
    let names = custom("name", "01 06 01 02 03 74776f");
    let sections = [&ITEMS[..], &[&names]].concat();
    check(&sections, &[], ITEMS_DUMP);
}

#[test]
fn bytes_of_sections_of_unknown_ids() {
    let text = "section 1 (unknown): offset 0xa, size 18
 00000a: 41 20 00 ff 00 00 00 00 00 00 00 00 00 00 00 00  A ..............
 00001a: 7a 80                                            z.

section 2 (custom \"\"): offset 0x1e, size 2
 00001f: 21                                               !

section 3 (custom): offset 0x22, size 1
 000022: 05                                               .
";
    let unknown = "0e 12 412000ff 000000000000000000000000 7a80";
    check(&[unknown, "00 02 00 21", "00 01 05"], &[], text);
}

// ---- custom sections

/// Checks the lines of a custom section.
#[track_caller]
fn check_custom(name: &str, data: &str, lines: &str) {
    let size = 1 + name.len() + bytes_of(data).len();
    let names = match name {
        "name" => "names: name section\n\n",
        "linking" => "names: linking section\n\n",
        _ => "",
    };
    let head = format!("{names}section 1 (custom {name:?}): offset 0xa, size {size}\n");
    check(&[&custom(name, data)], &[], &format!("{head}{lines}"));
}

#[test]
fn names() {
    let data = "0002016d 01040100 0166 0206 010001 010178 0306 010001 00016c 0404 0100 0174 \
        0504 0100 0161 0604 0100 0162 0704 0100 0163 0804 0100 0164 0904 0100 0165 \
        0a06 010201 000167 0b04 0100 0168 0c06 010001 000169 7f01 05";
    let lines = r#"         module "m"
         function 0 "f"
         local 1 "x" of function 0
         label 0 "l" of function 0
         type 0 "t"
         table 0 "a"
         memory 0 "b"
         global 0 "c"
         element 0 "d"
         data 0 "e"
         field 0 "g" of type 2
         tag 0 "h"
         name 0 "i" of entry 0
         subsection 127 of 1 bytes
"#;
    check_custom("name", data, lines);
}

#[test]
fn unknown_subsections() {
    let lines = "         subsection 6 of 1 bytes\n         needed \"a\"\n";
    check_custom("dylink.0", "06 01 ff 02 03 01 01 61", lines);
    // The linking section names no entry.
    let linking = custom("linking", "02 0a 01 00");
    let lines =
        "section 1 (custom \"linking\"): offset 0xa, size 12\n         subsection 10 of 1 bytes\n";
    check(&[&linking], &[], lines);
}

#[test]
fn linking() {
    let symbols =
        "0000 01 0166 0210 00 0100 0164 00 00 04 0110 0175 0302 05 0400 00 0174 0500 00 0162";
    let data = format!(
        "02 0505 01 0164 02 01 0604 01 e807 00 0707 01 0163 00 01 01 02 0821 07 {symbols} 0904 03617263"
    );
    let lines = r#"         segment 0 "d" align 2^2 flags 0x1 strings
         init symbol 0 <f> priority 1000
         comdat "c" flags 0x0
         function 2 of comdat "c"
         symbol 0 T <f> function 1, flags 0x0 global default
         symbol 1 U global 0, flags 0x10 global default undefined
         symbol 2 D <d> data 0 <d> offset 0 size 4, flags 0x0 global default
         symbol 3 U <u> data, flags 0x10 global default undefined
         symbol 4 d section 5, flags 0x2 local default
         symbol 5 D <t> tag 0, flags 0x0 global default
         symbol 6 D <b> table 0, flags 0x0 global default
         architecture "arc"
"#;
    check_custom("linking", &data, lines);
}

#[test]
fn producers_and_hints() {
    let line = "         producer \"C\" (version \"11\") (field \"language\")\n";
    check_custom("producers", "01 08 6c616e6775616765 01 0143 023131", line);
    let lines = "         function 3 offset 0x5 likely\n         function 3 offset 0x80 unlikely\n";
    let data = "01 03 02 05 01 01 8001 01 00";
    check_custom("metadata.code.branch_hint", data, lines);
}

#[test]
fn compilation_hints() {
    let lines = "         function 3 offset 0x5 frequency 32\n         function 3 offset 0x80 frequency 0\n";
    let data = "01 03 02 05 01 20 8001 01 00";
    check_custom("metadata.code.instr_freq", data, lines);
    let lines = "         function 3 offset 0x0 order 1\n         function 4 offset 0x0 order 2 hotness 300\n";
    let data = "02 03 01 00 01 01 04 01 00 03 02 ac02";
    check_custom("metadata.code.compilation_order", data, lines);
    let lines = "         function 3 offset 0x5 calls function 9 90%\n         function 3 offset 0x5 calls function 8 10%\n";
    check_custom(
        "metadata.code.call_targets",
        "01 03 01 05 04 09 5a 08 0a",
        lines,
    );
}

#[test]
fn target_features() {
    let lines = r#"         feature "atomics" used
         feature "simd128" disallowed
         feature "mvp" required
"#;
    let data = "03 2b 07 61746f6d696373 2d 07 73696d64313238 3d 03 6d7670";
    check_custom("target_features", data, lines);
}

#[test]
fn dylink() {
    let lines = r#"         memory size 300 align 2^4
         table size 5 align 2^0
         needed "a.so"
         export "f" flags 0x1 weak
         import "g" of "env" flags 0x10 undefined
         runtime path "/l"
"#;
    let data = "0105 ac02 04 05 00 0206 01 04612e736f 0304 01 0166 01 0408 01 03656e76 0167 10 0504 01 022f6c";
    check_custom("dylink.0", data, lines);
}

#[test]
fn relocations() {
    let lines = "         section 3
         relocation R_WASM_FUNCTION_INDEX_LEB offset 0x4 symbol 0
         relocation R_WASM_MEMORY_ADDR_LEB offset 0x12c symbol 1 addend -1
         relocation R_WASM_MEMORY_ADDR_I64 offset 0x8 symbol 2 addend -8
";
    let data = "03 03 00 04 00 03 ac02 01 7f 10 08 02 78";
    check_custom("reloc.CODE", data, lines);
}

#[test]
fn debug_files() {
    let line = "         source map \"a.map\"\n";
    check_custom("sourceMappingURL", "05 612e6d6170", line);
    check_custom(
        "external_debug_info",
        "01 64",
        "         debug file \"d\"\n",
    );
    check_custom("build_id", "02 12 f4", "         build \"12f4\"\n");
}

#[test]
fn core_dumps() {
    check_custom("core", "00 0170", "         process \"p\"\n");
    check_custom("coremodules", "01 00 016d", "         module 0 \"m\"\n");
    let instance = "         instance 0 (module 0) (memories 2) (globals 3 4)\n";
    check_custom("coreinstances", "01 00 00 01 02 02 0304", instance);
    let lines = "         thread \"t\"
         frame 0 (instance 0) (func 2) (offset 5) (locals (i32 42) missing) (stack (f64 1.5) (f32 nan) (i64 -1))
";
    let stack = "03 7c000000000000f83f 7d0000c07f 7e7f";
    check_custom(
        "corestack",
        &format!("00 0174 01 00 00 02 05 02 7f2a 01 {stack}"),
        lines,
    );
}

// ---- errors

/// Checks the error of the section, and that what is before it is printed.
#[track_caller]
fn check_error(section: &str, error: &str, lines: &str) {
    let folder = Folder::new("dump_error");
    let answer = shown(folder.call(&["dump", "-"], &module(&[section])));
    let error = format!("dolzhytik: standard input: section 1 {error}\n");
    assert_eq!((&*answer.1, answer.2), (&*error, 1));
    let (_head, after) = answer.0.split_once('\n').unwrap();
    assert_eq!(after, lines);
}

#[test]
fn errors() {
    let function = "\nfunction 0: offset 0xc, size 3\n";
    let unknown = "(code) at offset 0xd: unknown opcode";
    check_error("0a 05 01 03 00 ff 0b", unknown, function);
    let ended = "(code) at offset 0xf: unexpected end of input";
    check_error("0a 05 01 03 00 41 80", ended, function);
    let first = "\nfunction 0: offset 0xc, size 2\n 00000d: 0b                         | end\n";
    check_error(
        "0a 04 02 02 00 0b",
        "(code) at offset 0xe: unexpected end of input",
        first,
    );
    // The offset is that of the bad byte also if there are more functions.
    let unknown = "(code) at offset 0xd: unknown opcode";
    check_error("0a 08 02 03 00 ff 0b 02 00 0b", unknown, function);
    let function_0 = " 00000b: function 0 (type 0)\n";
    let mismatch = "(function) at offset 0xc: bytes remain after the value";
    check_error("03 03 01 00 05", mismatch, function_0);
    let large = "(function) at offset 0xf: integer too large";
    check_error("03 06 01 ffffffff1f", large, "");
    check_error(
        "05 03 01 10 01",
        "(memory) at offset 0xb: unexpected byte or value",
        "",
    );
    check_error(
        "07 05 01 01 ff 00 00",
        "(export) at offset 0xc: invalid UTF-8",
        "",
    );
    check_error(
        "08 00",
        "(start) at offset 0xa: unexpected end of input",
        "",
    );
}

#[test]
fn custom_sections_that_do_not_decode_are_reported_and_listed_as_bytes() {
    let folder = Folder::new("dump_custom");
    let answer = folder.call(
        &["dump", "-"],
        &module(&[&custom("name", "0105 01"), "08 01 00"]),
    );
    let out = "section 1 (custom \"name\"): offset 0xa, size 8
 00000f: 01 05 01                                         ...

section 2 (start): offset 0x14, size 1
 000014: start (func 0)
";
    let error = "section 1 (custom \"name\") at offset 0x12: unexpected end of input";
    let expected = Answer {
        out: out.into(),
        ..Answer::told(&format!("standard input: {error}"))
    };
    assert_eq!(shown(answer), shown(expected));
}

#[test]
fn imports_that_do_not_decode_leave_no_indices() {
    let folder = Folder::new("dump_imports");
    let sections = ["02 07 01 0161 0162 09 00", SHORT[3]];
    let words = ["dump", "-", "--section", "code"];
    let error = "standard input: section 1 (import) at offset 0xf: unexpected byte or value";
    assert_eq!(
        folder.call(&words, &module(&sections)),
        Answer::fault(error)
    );
}

// ---- output

#[test]
fn json() {
    let folder = Folder::new("dump_json");
    let check = |sections: &[&str], words: &[&str], text: &str| {
        let words = [&["dump", "-", "--json"], words].concat();
        let answer = folder.call(&words, &module(sections));
        assert_eq!(shown(answer), shown(Answer::of(text)));
    };
    check(
        &[],
        &[],
        "{\"version\": 1, \"names\": [], \"sections\": []}\n",
    );
    let text = r#"{"version": 1, "names": ["name section"], "sections": [
  {"section": 1, "id": 3, "kind": "function", "name": null, "offset": 10, "size": 2, "items": [
    {"kind": "function", "index": 0, "name": "f\"", "offset": 11, "type": 0}
  ]},
  {"section": 2, "id": 10, "kind": "code", "name": null, "offset": 14, "size": 8, "items": [
    {"kind": "body", "index": 0, "name": "f\"", "type": 0, "offset": 16, "size": 6, "locals": [
      {"offset": 17, "bytes": "017f", "first": null, "count": 1, "type": "i32"}
    ], "code": [
      {"offset": 19, "bytes": "2000", "name": "local.get", "operands": [{"kind": "local", "index": 0}]},
      {"offset": 21, "bytes": "0b", "name": "end", "operands": []}
    ]}
  ]},
  {"section": 3, "id": 0, "kind": "custom", "name": "name", "offset": 24, "size": 12, "items": [
    {"kind": "name", "of": "function", "index": 0, "name": "f\""}
  ]},
  {"section": 4, "id": 0, "kind": "custom", "name": "a", "offset": 38, "size": 4, "items": [
    {"kind": "bytes", "offset": 40, "size": 2, "bytes": "0102"}
  ]},
  {"section": 5, "id": 6, "kind": "global", "name": null, "offset": 44, "size": 1, "items": []}
]}
"#;
    let names = custom("name", "01 05 01 00 02 6622");
    let sections = [
        "03 02 01 00",
        "0a 08 01 06 01 017f 2000 0b",
        &names,
        &custom("a", "0102"),
        "06 01 00",
    ];
    check(&sections, &[], text);
}

#[test]
fn json_of_a_section_that_does_not_decode_ends_before_it() {
    let folder = Folder::new("dump_json_error");
    let answer = folder.call(
        &["dump", "-", "--json"],
        &module(&["0a 06 01 04 00 01 ff 0b"]),
    );
    let text = r#"{"version": 1, "names": [], "sections": [
  {"section": 1, "id": 10, "kind": "code", "name": null, "offset": 10, "size": 6, "items": [
    {"kind": "body", "index": 0, "name": null, "type": null, "offset": 12, "size": 4, "locals": [], "code": [
      {"offset": 13, "bytes": "01", "name": "nop", "operands": []}
    ]}
  ]}
]}
"#;
    let expected = Answer {
        out: text.into(),
        ..Answer::fault("standard input: section 1 (code) at offset 0xe: unknown opcode")
    };
    assert_eq!(shown(answer), shown(expected));
}

/// The listing is longer than the buffers of the program and of a pipe.
#[test]
fn a_closed_pipe_ends_silently() {
    let folder = Folder::new("dump_closed");
    let code = "01".repeat(0x3fff);
    folder.write(
        "a.wasm",
        module(&[&format!("0a 858001 01 818001 00 {code} 0b")]),
    );
    let mut command = Command::new(env!("CARGO_BIN_EXE_dolzhytik"));
    command
        .args(["dump", "a.wasm"])
        .current_dir(folder.path(""));
    let whole = command.output().unwrap();
    assert!(whole.status.success() && whole.stdout.len() > 500_000);
    let (reader, writer) = std::io::pipe().unwrap();
    drop(reader);
    let output = command.stdout(writer).output().unwrap();
    assert!(output.status.success());
    assert_eq!(output.stderr, b"");
}
