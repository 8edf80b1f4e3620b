// Written by tools/to-rust from tests/wasm_tool_tests/src/versions.rtt: change that.
// Tests of recipes of version 2, with ample memory.

use crate::checks::{check_sections, check_versioned_fault};
use dolzhytik::fallible::recipe::{RecipeCause, RecipeFault, assemble};

#[test]
fn version_lines() {
    let rt = crate::host::HostRuntime;
    let cases = [
        ("version 2", ""),
        ("version 2\nfunc 0", "03020100"),
        ("\n  \r\n   version   2  \r\nfunc 0\r\n", "03020100"),
        (
            "# a module\n #version 3\nversion 2 # of 2026\nfunc 0",
            "03020100",
        ),
        // A recipe of version 1, in which words after the needed ones are ignored.
        ("func 0 1 # 2", "03020100"),
        ("", ""),
    ];
    for (recipe, sections) in cases {
        check_sections(&rt, rt.alloc(), recipe, sections);
    }
}

#[test]
fn other_version_lines() {
    let rt = crate::host::HostRuntime;
    let cases = [
        ("version", 1),
        ("version 1", 1),
        ("version 3", 1),
        ("version 02", 1),
        ("version 2 2", 1),
        ("Version 2", 1),
        ("\nversion 22", 2),
        ("func 0\nversion 2", 2),
        ("version 2\nversion 2", 2),
        ("version 2\n\nfunc 0\nversion 1", 4),
        ("#\nfunc 0", 1),
        ("name a\n# b", 2),
        ("import a b func 0", 1),
        ("table 1", 1),
        ("elem 0 0", 1),
        ("locals 1 i32", 1),
    ];
    for (recipe, line) in cases {
        check_versioned_fault(&rt, rt.alloc(), recipe, (line, RecipeCause::UnknownCommand));
    }
}

#[test]
fn assemble_takes_version_1_alone() {
    let rt = crate::host::HostRuntime;
    let fault = assemble(rt.alloc(), "version 2\nfunc 0").err();
    let cause = RecipeCause::UnknownCommand;
    assert_eq!(rt; fault, Some(RecipeFault { line: 1, cause }));
}

#[test]
fn comments() {
    let rt = crate::host::HostRuntime;
    let cases = [
        (
            "version 2\nfunc 0 # of the type 0\n# no function\n   #\nbody 0b #",
            "030201000a040102000b",
        ),
        // The text of `name` is the remaining line.
        ("version 2\nname a # b", "000d046e616d650006056120232062"),
        ("version 2\nname #", "0009046e616d6500020123"),
        ("version 2\nexport a#b func 0 #c", "0707010361236200 00"),
    ];
    for (recipe, sections) in cases {
        check_sections(&rt, rt.alloc(), recipe, sections);
    }
}

#[test]
fn limits() {
    let rt = crate::host::HostRuntime;
    let cases = [
        ("version 2\nmemory 1 2", "050401010102"),
        ("version 2\nmemory 1\nmemory 0 0", "050602000101 0000"),
        (
            "version 2\nmemory 0 18446744073709551615",
            "050d010100ffffffffffffffffff01",
        ),
        // The types of tables are `funcref` (70), a flag, and the limits.
        ("version 2\ntable 128", "04050170008001"),
        ("version 2\ntable 0 1\ntable 2", "040802700100017000 02"),
        // In version 1 a second word is ignored.
        ("memory 1 2", "0503010001"),
    ];
    for (recipe, sections) in cases {
        check_sections(&rt, rt.alloc(), recipe, sections);
    }
}

#[test]
fn imports() {
    let rt = crate::host::HostRuntime;
    let cases = [
        (
            "version 2\nimport env f func 128",
            "020a0103656e7601660080 01",
        ),
        (
            "version 2\nimport env memory memory 1",
            "020f0103656e76066d656d6f7279020001",
        ),
        (
            "version 2\nimport m a memory 1 2",
            "0209 01016d0161 02010102",
        ),
        ("version 2\nimport m t table 1", "0209 01016d0174 01700001"),
        (
            "version 2\nimport m t table 1 2",
            "020a 01016d0174 0170010102",
        ),
        ("version 2\nimport m g global i64", "0208 01016d0167 037e00"),
        (
            "version 2\nimport m g global mut externref # mutable",
            "0208 01016d0167 036f01",
        ),
        (
            "version 2\nimport m g global i32\nimport n mut func 0",
            "0210 02 016d0167037f00 016e036d7574 0000",
        ),
    ];
    for (recipe, sections) in cases {
        check_sections(&rt, rt.alloc(), recipe, sections);
    }
}

#[test]
fn elements() {
    let rt = crate::host::HostRuntime;
    let cases = [
        // The flag 0, `i32.const 0`, `end`, and two indices.
        ("version 2\nelem 0 0 1", "0908 01 0041000b 020001"),
        ("version 2\nelem -1 128 # one", "0908 01 00417f0b 018001"),
        (
            "version 2\nelem 1 2\nelem 3 4294967295",
            "0911 02 0041010b 0102 0041030b 01ffffffff0f",
        ),
    ];
    for (recipe, sections) in cases {
        check_sections(&rt, rt.alloc(), recipe, sections);
    }
}

#[test]
fn locals() {
    let rt = crate::host::HostRuntime;
    let cases = [
        // Each body has the locals since the one before it.
        (
            "version 2\nlocals 2 i32\nlocals 1 f64\nbody 0b\nbody 0b",
            "0a0b 02 06 02 027f 017c 0b 02 00 0b",
        ),
        (
            "version 2\nbody 0b\nlocals 4294967295 i64\nfunc 0\nbody 0b",
            "03020100 0a0d 02 02 00 0b 08 01 ffffffff0f7e 0b",
        ),
        (
            "version 2\nlocals 1 i32\nlocals 1 i64\nlocals 1 f32\nlocals 1 f64\nlocals 1 v128\n\
             locals 1 funcref\nlocals 0 externref\nbody 0b",
            "0a12 01 10 07 017f 017e 017d 017c 017b 0170 006f 0b",
        ),
    ];
    for (recipe, sections) in cases {
        check_sections(&rt, rt.alloc(), recipe, sections);
    }
}

#[test]
fn order_of_sections() {
    let rt = crate::host::HostRuntime;
    check_sections(
        &rt,
        rt.alloc(),
        "version 2\nname m\ndata 0 61\nlocals 1 i64\nbody 0b\nelem 0 0\nstart 0\nexport f func 0\n\
         global 1\nmemory 1 1\ntable 1\nfunc 0\nimport a b func 0\ntype 600000",
        "010401600000 0207 01 0161 0162 0000 03020100 040401700001 050401010101 0606017f0041010b \
         07050101660000 080100 0907010041000b0100 0a06010401017e0b 0b07010041000b0161 \
         0009046e616d650002016d",
    );
}

#[test]
fn faults() {
    let rt = crate::host::HostRuntime;
    let cases = [
        ("func 0 1", RecipeCause::SurplusWord),
        ("func x 1", RecipeCause::SurplusWord),
        ("type 600000 ##\ntype 600000 00", RecipeCause::SurplusWord),
        ("memory 1 2 3", RecipeCause::SurplusWord),
        ("memory 1 x", RecipeCause::BadNumber),
        ("memory 18446744073709551616 1", RecipeCause::BadNumber),
        ("type # 600000", RecipeCause::MissingWord),
        ("func 0# 1", RecipeCause::SurplusWord),
        ("func 0#", RecipeCause::BadNumber),
        ("name", RecipeCause::MissingWord),
        ("start 0 1", RecipeCause::SurplusWord),
        ("global 0 1", RecipeCause::SurplusWord),
        ("export a func 0 1", RecipeCause::SurplusWord),
        ("export a funcs 0 1", RecipeCause::SurplusWord),
        ("body 0b 0b", RecipeCause::SurplusWord),
        ("data 0 00 00", RecipeCause::SurplusWord),
        ("import a b", RecipeCause::MissingWord),
        ("import a b tag 0", RecipeCause::UnknownCommand),
        ("import a b func", RecipeCause::MissingWord),
        ("import a b func x", RecipeCause::BadNumber),
        ("import a b func 0 1", RecipeCause::SurplusWord),
        ("import a b table", RecipeCause::MissingWord),
        ("import a b memory x", RecipeCause::BadNumber),
        ("import a b memory 1 2 3", RecipeCause::SurplusWord),
        ("import a b global", RecipeCause::MissingWord),
        ("import a b global mut", RecipeCause::MissingWord),
        ("import a b global i33", RecipeCause::UnknownType),
        ("import a b global i32 mut", RecipeCause::SurplusWord),
        ("table", RecipeCause::MissingWord),
        ("table -1", RecipeCause::BadNumber),
        ("table 1 2 3", RecipeCause::SurplusWord),
        ("elem 0", RecipeCause::MissingWord),
        ("elem x 0", RecipeCause::BadNumber),
        ("elem 0 1 x", RecipeCause::BadNumber),
        ("elem 0 4294967296", RecipeCause::BadNumber),
        ("locals 1", RecipeCause::MissingWord),
        ("locals 4294967296 i32", RecipeCause::BadNumber),
        ("locals 1 int", RecipeCause::UnknownType),
        ("locals x int", RecipeCause::BadNumber),
        ("locals 1 i32 i32", RecipeCause::SurplusWord),
        ("oops", RecipeCause::UnknownCommand),
    ];
    for (text, cause) in cases {
        let recipe = format!(in rt.alloc(); "# 1\nversion 2\n\n{text}\noops").expect(
            "accepted",
        );
        let line = if text.contains('\n') { 5 } else { 4 };
        check_versioned_fault(&rt, rt.alloc(), recipe.as_str(), (line, cause));
    }
}

#[test]
fn locals_without_a_body() {
    let rt = crate::host::HostRuntime;
    let cases = [
        "version 2\nlocals 1 i32",
        "version 2\nlocals 1 i32\nbody 0b\nlocals 0 i32\nfunc 0\n",
    ];
    for recipe in cases {
        check_versioned_fault(&rt, rt.alloc(), recipe, (0, RecipeCause::UnusedLocals));
    }
}

#[test]
fn texts_of_faults() {
    let rt = crate::host::HostRuntime;
    let cases = [
        (RecipeCause::SurplusWord, "line 7: surplus word"),
        (RecipeCause::UnknownType, "line 7: unknown type"),
        (RecipeCause::UnusedLocals, "line 7: locals without a body"),
    ];
    for (cause, text) in cases {
        let fault = RecipeFault { line: 7, cause };
        let shown = format!(in rt.alloc(); "{fault}").expect("accepted");
        assert_eq!(rt; shown.as_str(), text);
    }
}
