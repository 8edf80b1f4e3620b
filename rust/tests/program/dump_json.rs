//! The JSON of `dolzhytik dump`: its schema, and fields by hand.
use crate::dump::{ITEMS, shown};
use crate::dump_objects::relocated;
use crate::program::Folder;
use crate::samples::{bytes_of, custom, module};
use crate::schema::validated;
use crate::tools;

/// A body with an operand of each kind.
const CODE: [&str; 33] = [
    "41 7f",
    "42 7f",
    "43 0000c07f",
    "44 000000000000f83f",
    "fd0c 000102030405060708090a0b0c0d0e0f",
    "28 02 00",
    "fe10 12 01 00",
    "fe2e 20 03 00",
    "fd15 0f",
    "2000",
    "1000",
    "2300",
    "0800",
    "2500",
    "110000",
    "d070",
    "d0 6271",
    "fb14 6c",
    "fb15 05",
    "fb18 01 02 6e 05",
    "1c 01 7e",
    "1c 01 6371",
    "fb02 0001",
    "fb08 0503",
    "fc08 0000",
    "fc0c 0000",
    "fe03 01",
    "0e 0100 00",
    "0240 0b",
    "027f 0b",
    "0201 0b",
    "1f7b 04 000102 010102 0202 0302 0b",
    "e3 01 02 000304 0105",
];

/// Modules that have each kind of item and of operand.
fn modules() -> Vec<Vec<u8>> {
    let code = CODE.concat() + "fd0d 000102030405060708090a0b0c0d0e1f 0b";
    let size = bytes_of(&code).len() + 3;
    let leb = |number: usize| format!("{:02x} {:02x}", number % 128 + 128, number / 128);
    let types = "01 35 09 60 01 6f 02 7f 63 00 60 00 00 5e 78 01 50 00 5f 02 77 00 6b 01 \
        4e 02 50 01 03 5f 00 4f 02 02 03 5f 00 4e 00 65 60 00 00 5d 01 4e 02 4d 06 5f 00 4c 05 5f 00";
    let code = format!("0a {} 01 {} 01 01 7f {code}", leb(size + 3), leb(size));
    let relocated = relocated();
    let relocated: Vec<&str> = relocated.iter().map(|it| &**it).collect();
    let names = "0002016d 01040100 0166 0206 010001 010178 0306 010001 00016c 0404 0100 0174 \
        0a06 010201 000167 0b04 0100 0168 0c06 010001 000169 7f01 05";
    let symbols =
        "0000 01 0166 0210 00 0100 0164 00 00 04 0110 0175 0302 05 0400 00 0174 0500 00 0162";
    let linking = format!(
        "02 0505 01 0164 02 01 0604 01 e807 00 0707 01 0163 00 01 01 02 0821 07 {symbols} 0904 03617263"
    );
    let customs = [
        custom("name", names),
        custom("linking", &linking),
        custom("producers", "01 08 6c616e6775616765 01 0143 023131"),
        custom("metadata.code.branch_hint", "01 03 02 05 01 01 8001 01 00"),
        custom("metadata.code.instr_freq", "01 03 01 05 01 20"),
        custom(
            "metadata.code.compilation_order",
            "01 03 02 00 01 01 00 02 01 05",
        ),
        custom("metadata.code.call_targets", "01 03 01 05 02 09 5a"),
        custom("target_features", "01 2b 03 6d7670"),
        custom(
            "dylink.0",
            "0105 ac02 04 05 00 0206 01 04612e736f 0304 01 0166 01 0408 01 03656e76 0167 10 0504 01 022f6c",
        ),
        custom("sourceMappingURL", "05 612e6d6170"),
        custom("external_debug_info", "01 64"),
        custom("build_id", "02 12 f4"),
        custom("core", "00 0170"),
        custom("coremodules", "01 00 016d"),
        custom("coreinstances", "01 00 00 01 02 02 0304"),
        custom(
            "corestack",
            "00 0174 01 00 00 02 05 02 7f2a 01 03 7c000000000000f83f 7d0000c07f 7e7f",
        ),
        custom("reloc.OTHER", "09 01 000100"),
        custom("reloc.name", "00 01 000100"),
    ];
    let customs: Vec<&str> = customs.iter().map(|it| &**it).collect();
    vec![
        module(&[types, &code]),
        module(&ITEMS),
        module(&relocated),
        module(&customs),
    ]
}

fn json_of(folder: &Folder, module: &[u8]) -> Vec<u8> {
    let answer = folder.call(&["dump", "-r", "--json", "-"], module);
    assert_eq!((&*answer.err, answer.status), ("", 0));
    answer.out
}

#[test]
fn the_schema_has_each_kind_of_item_and_operand() {
    let folder = Folder::new("schema");
    let modules = modules();
    let listings: Vec<_> = modules.iter().map(|it| json_of(&folder, it)).collect();
    if let Some(printed) = validated("dump.json", &folder, &listings) {
        assert_eq!(printed, "");
    }
}

/// The schema rejects other versions, members that it lacks, and members that are texts.
#[test]
fn the_schema_rejects_other_json() {
    let folder = Folder::new("schema_rejects");
    let listing = json_of(&folder, &modules()[0]);
    let listing = String::from_utf8(listing).unwrap();
    for (from, to) in [
        ("\"version\": 1", "\"version\": 2"),
        ("\"locals\": [", "\"texts\": [], \"locals\": ["),
        ("{\"kind\": \"i32\", \"value\": -1}", "\"-1\""),
        ("\"offset\": ", "\"place\": "),
    ] {
        assert!(listing.contains(from), "{from}");
        let Some(printed) = validated(
            "dump.json",
            &folder,
            &[listing.replacen(from, to, 1).into()],
        ) else {
            return;
        };
        assert_ne!(printed, "", "{from}");
    }
}

#[test]
fn the_json_of_an_object_of_clang_is_of_the_schema() {
    let Some(object) = tools::compile("object/squares.c", &["-O1", "-g"], "schema.o") else {
        return;
    };
    let folder = Folder::new("schema_clang");
    let listing = json_of(&folder, &std::fs::read(object).unwrap());
    if let Some(printed) = validated("dump.json", &folder, &[listing]) {
        assert_eq!(printed, "");
    }
}

/// The members of an instruction, a symbol and data, each of which is its own field.
#[test]
fn fields_of_objects() {
    let sections = relocated();
    let sections: Vec<&str> = sections.iter().map(|it| &**it).collect();
    let listing = json_of(&Folder::new("fields"), &module(&sections));
    let listing = String::from_utf8(listing).unwrap();
    for line in [
        r#"{"version": 1, "names": ["linking section"], "sections": ["#,
        r#"{"offset": 13, "bytes": "108080808000", "name": "call", "operands": [{"kind": "function", "index": 0, "name": "f"}], "relocations": [{"type": "R_WASM_FUNCTION_INDEX_LEB", "offset": 14, "section_offset": 4, "target": {"kind": "symbol", "index": 0, "name": "f"}, "addend": null}]},"#,
        r#"{"kind": "symbol", "index": 2, "name": "d", "letter": "U", "of": "data", "entry": null, "binding": "global", "visibility": "default", "undefined": true, "flags": 16, "flag_words": ["undefined"]},"#,
        r#"{"kind": "relocation", "type": "R_WASM_MEMORY_ADDR_I32", "offset": 59, "section_offset": 26, "target": {"kind": "symbol", "index": 2, "name": "d"}, "addend": -4}"#,
    ] {
        assert!(listing.lines().any(|it| it.trim() == line), "{listing}");
    }
    let zeros = "00".repeat(36);
    let data =
        format!(r#""data": {{"offset": 39, "size": 36, "bytes": "{zeros}", "relocations": ["#);
    assert!(listing.contains(&data), "{listing}");
}

/// An undefined symbol has its import.
#[test]
fn imports_of_symbols() {
    let sections = [
        "02 07 01 0161 0162 0000",
        &custom("linking", "02 08 04 01 001000"),
    ];
    let (out, _, _) =
        shown(Folder::new("imports").call(&["dump", "-", "--json"], &module(&sections)));
    let symbol = r#"{"kind": "symbol", "index": 0, "name": "a.b", "letter": "U", "of": "function", "entry": {"kind": "function", "index": 0, "name": "a.b"}, "import": {"module": "a", "name": "b"}, "binding": "#;
    assert!(out.contains(symbol), "{out}");
    let import = r#"{"kind": "function", "index": 0, "name": "a.b", "offset": 11, "type": 0, "import": {"module": "a", "name": "b"}}"#;
    assert!(out.contains(import), "{out}");
}
