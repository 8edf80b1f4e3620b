//! `dolzhytik shorten --keep-code`.
use crate::program::{Answer, Folder};
use crate::samples::{PADDED, PADDED_NAME, SHORT, SHORT_NAME, UNREAD, custom, module};
use crate::shortened::check_shortened;

/// An active segment of one byte at `i32.const 0`, whose size and number are padded.
const PADDED_DATA: &str = "0b 8800 01 00 41 8000 0b 01 09";

/// A section of DWARF that has the byte ff, and a padded size.
const PADDED_DEBUG: &str = "00 8d00 0b 2e64656275675f696e666f ff";

#[track_caller]
fn check(sections: &[&str], kept: usize, expected: &[&str]) {
    check_keeping(sections, kept, expected, &[]);
}

#[track_caller]
fn check_keeping(sections: &[&str], kept: usize, expected: &[&str], undecoded: &[&str]) {
    let told = match kept {
        1 => "1 section copied".to_owned(),
        kept => format!("{kept} sections copied"),
    };
    check_shortened(sections, &["--keep-code"], expected, &told, undecoded);
}

#[test]
fn code_and_data_stay() {
    let debug = custom(".debug_info", "ff");
    let sections = [&PADDED[..], &[PADDED_DATA, PADDED_DEBUG, PADDED_NAME]].concat();
    let expected = [
        SHORT[0],
        SHORT[1],
        SHORT[2],
        PADDED[3],
        PADDED_DATA,
        &debug,
        SHORT_NAME,
    ];
    check(&sections, 2, &expected);
    // Without offsets too. A section that does not decode is kept as well.
    check_keeping(
        &[UNREAD, PADDED[3], PADDED[1]],
        2,
        &[UNREAD, PADDED[3], SHORT[1]],
        &["1 (function) at offset 0xc: unexpected end of input"],
    );
    check(&[], 0, &[]);
    // Sections of an id past 13 are any bytes.
    check(&["0e 8200 80 00"], 0, &["0e 02 80 00"]);
}

#[test]
fn what_relocations_and_symbols_name_stays() {
    let of_code = custom("reloc.CODE", "02 00");
    let of_debug = custom("reloc..debug_info", "03 00");
    let sections = [
        PADDED[0],
        PADDED[1],
        PADDED[3],
        PADDED_DEBUG,
        PADDED_NAME,
        &of_code,
        &of_debug,
    ];
    let expected = [
        SHORT[0],
        SHORT[1],
        PADDED[3],
        PADDED_DEBUG,
        SHORT_NAME,
        &of_code,
        &of_debug,
    ];
    check(&sections, 2, &expected);
    // A symbol of kind 3 without flags, which is section 1. Builders don't write such a section.
    let debug = custom(".debug_info", "ff");
    let linking = custom("linking", "02 08 04 01 03 00 01");
    let sections = [PADDED[1], PADDED_DEBUG, PADDED_NAME, PADDED[3], &linking];
    check(
        &sections[..4],
        1,
        &[SHORT[1], &debug, SHORT_NAME, PADDED[3]],
    );
    let expected = [SHORT[1], PADDED_DEBUG, SHORT_NAME, PADDED[3], &linking];
    check(&sections, 2, &expected);
    // Relocations of a section that the module lacks.
    let lacking = custom("reloc.x", "ffffffff0f 00");
    check(&[PADDED[1], &lacking], 0, &[SHORT[1], &lacking]);
}

#[test]
fn with_a_source_map_all_before_the_code_stays() {
    let map = custom("sourceMappingURL", "01 61");
    let sections = [
        PADDED[0],
        PADDED[1],
        PADDED[3],
        PADDED_DATA,
        PADDED_NAME,
        &map,
    ];
    let expected = [
        PADDED[0],
        PADDED[1],
        PADDED[3],
        PADDED_DATA,
        SHORT_NAME,
        &map,
    ];
    check(&sections, 4, &expected);
    // The columns of a source map are offsets into the code: there is none.
    check(&[PADDED[0], &map], 0, &[SHORT[0], &map]);
}

#[test]
fn branch_hints_of_code_that_stays() {
    // A hint at offset 3 of function 0, with a padded index. The code section is kept.
    let padded = custom("metadata.code.branch_hint", "01 8000 01 03 01 01");
    let minimal = custom("metadata.code.branch_hint", "01 00 01 03 01 01");
    check(&[&padded, PADDED[3]], 1, &[&minimal, PADDED[3]]);
}

#[test]
fn indices_that_do_not_decode() {
    let folder = Folder::new("keep_code_indices");
    let check = |sections: &[&str], why: &str| {
        let words = ["shorten", "-", "--keep-code", "-ob.wasm"];
        let fault = folder.call(&words, &module(sections));
        assert_eq!(fault, Answer::fault(&format!("standard input: {why}")));
    };
    // The payload is at 0xa, and ends after the name.
    check(
        &[&custom("reloc.CODE", "")],
        "section 1 (custom \"reloc.CODE\") at offset 0x15: unexpected end of input",
    );
    // The version is after 2 bytes of the section and 8 of the name.
    check(
        &[&custom("linking", "03")],
        "section 1 (custom \"linking\") at offset 0x12: unexpected byte or value",
    );
    assert!(folder.names().is_empty());
}

#[test]
fn dry_runs() {
    let folder = Folder::new("keep_code_dry");
    let sections = [&PADDED[..], &[PADDED_DEBUG]].concat();
    let answer = Answer {
        out: "    before      after      saved  name
         8          8          0  header
        13          9          4  type
         7          4          3  function
         7          7          0  export
        17         17          0  code
        16         15          1  custom \".debug_info\"
        68         60          8  all
"
        .into(),
        ..Answer::told("standard input: 68 bytes before, 60 after; 1 section copied (dry run)")
    };
    let words = ["shorten", "-", "--keep-code", "--dry-run"];
    assert_eq!(folder.call(&words, &module(&sections)), answer);
}
