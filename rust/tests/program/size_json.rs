//! The schema of the JSON of `dolzhytik size`.
use crate::program::{Answer, Folder};
use crate::samples::module;
use crate::schema::validated;
use crate::tools;
use crate::why::{SECTIONS, named};

const SCHEMA: &str = "size.json";

/// An export of function 2 and a start function 4.
const EXPORT: &str = "07 05 01 01 66 00 02";
const START: &str = "08 01 04";

/// The sections of `--why`, with the start function, and a table of the initial value `ref.func 6`.
fn with_other_roots() -> Vec<u8> {
    let table = "04 09 01 40 00 70 00 01 d2 06 0b";
    let mut sections = SECTIONS;
    (sections[3], sections[5]) = (table, EXPORT);
    module(&[&sections[..6], &[START], &sections[6..]].concat())
}

/// The JSON of the words, which have these files.
fn json_of(folder: &Folder, words: &[&str]) -> Answer {
    folder.write("named", named());
    folder.write("roots", with_other_roots());
    folder.write("empty", module(&[]));
    folder.write("damaged", module(&["0a 04 02 02 00 0b"]));
    folder.write("data", module(&["0b 06 01 01 03 010203"]));
    folder.call(&[&["size", "--json"], words].concat(), b"")
}

/// Words whose JSON has each kind of the schema, and `null` for each part that may be missing.
const WORDS: [&[&str]; 16] = [
    &["named"],
    &["named", "--functions=1"],
    &["named", "--functions=0"],
    &["damaged"],
    &["empty"],
    &["named", "roots"],
    &["roots", "data"],
    &["damaged", "named", "--functions=1"],
    &["empty", "empty", "--functions=0"],
    &["named", "--why=leaf"],
    &["named", "--why=mid", "--functions=0"],
    &["named", "--why=dead"],
    &["named", "--why=4"],
    &["named", "--why=a.b"],
    &["roots", "--why=3"],
    &["roots", "--why=6"],
];

#[test]
fn the_schema_has_each_kind_of_reference_and_part() {
    let folder = Folder::new("size_schema");
    let words = WORDS.iter().copied();
    let words = words.chain([&["roots", "--why=4"][..], &["named", "--why=2"]]);
    let files: Vec<_> = words.map(|words| json_of(&folder, words).out).collect();
    assert!(files.iter().all(|file| file.starts_with(b"{")));
    if let Some(printed) = validated(SCHEMA, &folder, &files) {
        assert_eq!(printed, "");
    }
}

/// The schema rejects members that it lacks, missing ones, and values of other types.
#[test]
fn the_schema_rejects_other_json() {
    let folder = Folder::new("size_schema_rejects");
    let changes: [(&[&str], &str, &str); 8] = [
        (&["named"], "\"groups\": ", "\"prefixes\": "),
        (&["named"], "\"bytes\": 142", "\"bytes\": \"142\""),
        (&["named"], "{\"prefix\": null", "{\"prefix\": 0"),
        (&["named", "roots"], "\"change\": ", "\"growth\": "),
        (&["named", "roots"], "\"count\": ", "\"number\": "),
        (
            &["named", "--why=mid"],
            "\"kind\": \"call\"",
            "\"kind\": \"br\"",
        ),
        (&["named", "--why=mid"], "\"offset\": 71", "\"offset\": -1"),
        (&["named", "--why=dead"], "\"path\": null", "\"path\": []"),
    ];
    for (words, from, to) in changes {
        let json = String::from_utf8(json_of(&folder, words).out).unwrap();
        assert!(json.contains(from), "{json}");
        let changed = json.replacen(from, to, 1);
        let Some(printed) = validated(SCHEMA, &folder, &[changed.into()]) else {
            return;
        };
        assert_ne!(printed, "", "{from}");
    }
}

#[test]
fn the_json_of_an_object_of_clang_is_of_the_schema() {
    let Some(object) = tools::compile("object/squares.c", &["-O1", "-g"], "size_schema.o") else {
        return;
    };
    let folder = Folder::new("size_schema_clang");
    let object = std::fs::read(object).unwrap();
    let words = [&["-"][..], &["-", "--why=0"]];
    let files = words.map(|words| {
        let answer = folder.call(&[&["size", "--json"], words].concat(), &object);
        assert_eq!((&*answer.err, answer.status), ("", 0));
        answer.out
    });
    if let Some(printed) = validated(SCHEMA, &folder, &files[..1]) {
        assert_eq!(printed, "");
    }
    if let Some(printed) = validated(SCHEMA, &folder, &files[1..]) {
        assert_eq!(printed, "");
    }
}
