//! `dolzhytik shorten --build-id`, which keeps or drops the section `build_id`.
use crate::program::{Answer, Folder};
use crate::samples::{PADDED, PADDED_NAME, SHORT, SHORT_NAME, UNREAD, custom, module};
use crate::shortened::check_shortened;

/// The end of the report, by the number of dropped sections.
const NONE: &str = "0 sections copied undecoded";
const ONE: &str = "1 section dropped, 0 copied undecoded";
const TWO: &str = "2 sections dropped, 0 copied undecoded";

/// The section `build_id` with one byte, whose size is padded, and in its minimal encoding.
const PADDED_ID: &str = "00 8b00 08 6275696c645f6964 01 07";
const SHORT_ID: &str = "00 0b 08 6275696c645f6964 01 07";

const ONLY: &str = "identifies the module, whose code would change; \
    --build-id drop drops it, --build-id keep keeps it, and --dry-run prints what each saves";

const OFFSETS: &str = "holds offsets that would become wrong; \
    --drop-offsets drops such sections, --keep-code keeps code and data byte for byte, \
    and --dry-run prints what each saves";

#[track_caller]
fn check(sections: &[&str], options: &[&str], expected: &[&str], told: &str) {
    check_shortened(sections, options, expected, told, &[]);
}

/// Checks the refusal of these words.
#[track_caller]
fn check_refused(sections: &[&str], options: &[&str], why: &str) {
    let folder = Folder::new("build_id_refused");
    let words = [&["shorten", "-", "-ob.wasm"], options].concat();
    let fault = folder.call(&words, &module(sections));
    assert_eq!(fault, Answer::fault(&format!("standard input: {why}")));
    assert!(folder.names().is_empty());
}

#[test]
fn is_the_only_reason() {
    let sections = [&PADDED[..], &[PADDED_ID]].concat();
    let why = format!("section 5, \"build_id\", {ONLY}");
    check_refused(&sections, &[], &why);
    let keep = ["--build-id", "keep"];
    check(&sections, &keep, &[&SHORT[..], &[SHORT_ID]].concat(), NONE);
    let drop = ["--build-id=drop"];
    check(&sections, &drop, &SHORT, ONE);
    // Two of the name.
    let both = [&[PADDED_ID], &PADDED[..], &[PADDED_ID]].concat();
    check_refused(&both, &[], &format!("section 1, \"build_id\", {ONLY}"));
    check(&both, &drop, &SHORT, TWO);
}

#[test]
fn is_not_the_only_reason() {
    let debug = custom(".debug_info", "ff");
    let sections = [&[PADDED_ID], &PADDED[..], &[&debug]].concat();
    let why = format!("section 6, \".debug_info\", {OFFSETS}");
    for options in [&[][..], &["--build-id=keep"], &["--build-id=drop"]] {
        check_refused(&sections, options, &why);
    }
    let dropped = ["--drop-offsets"];
    check(&sections, &dropped, &SHORT, TWO);
    let dropped = ["--drop-offsets", "--build-id", "drop"];
    check(&sections, &dropped, &SHORT, TWO);
    let kept = ["--build-id=keep", "--drop-offsets"];
    let expected = [&[SHORT_ID], &SHORT[..]].concat();
    check(&sections, &kept, &expected, ONE);
}

#[test]
fn code_that_stays() {
    // No code changes.
    let sections = [PADDED[0], PADDED[1], SHORT[3], PADDED_ID];
    let minimal = [SHORT[0], SHORT[1], SHORT[3], SHORT_ID];
    check(&sections, &[], &minimal, NONE);
    check(&sections, &["--build-id=keep"], &minimal, NONE);
    check(&sections, &["--build-id=drop"], &minimal[..3], ONE);
    let sections = [PADDED[0], PADDED[1], PADDED[3], PADDED_ID];
    let kept = [SHORT[0], SHORT[1], PADDED[3], SHORT_ID];
    check(&sections, &["--keep-code"], &kept, "1 section copied");
    check(
        &sections,
        &["--keep-code", "--build-id=keep"],
        &kept,
        "1 section copied",
    );
    let dropped = ["--keep-code", "--build-id=drop"];
    check(
        &sections,
        &dropped,
        &kept[..3],
        "1 section dropped, 1 copied",
    );
}

#[test]
fn modules_without_it() {
    let name = [PADDED_NAME, UNREAD, "0e 8200 80 00"];
    let short = [SHORT_NAME, UNREAD, "0e 02 80 00"];
    let (before, after) = ([&PADDED[..], &name].concat(), [&SHORT[..], &short].concat());
    // The section that does not decode ends after 8 + 44 + 15 + 4 bytes.
    let undecoded = ["6 (function) at offset 0x47: unexpected end of input"];
    let check = |options: &[&str], told: &str| {
        check_shortened(&before, options, &after, told, &undecoded);
    };
    check(&[], "1 section copied undecoded");
    check(&["--build-id=keep"], "1 section copied undecoded");
    check(
        &["--build-id=drop"],
        "0 sections dropped, 1 copied undecoded",
    );
}

#[test]
fn indices_and_offsets_after_a_dropped_section() {
    let why = |number: usize, name: &str| {
        format!(
            "section {number}, {name:?}, holds section indices or offsets that would become wrong; \
             --build-id keep leaves them right"
        )
    };
    let relocations = custom("reloc.CODE", "01 00");
    let sections = [SHORT_ID, SHORT[3], &relocations];
    check_refused(&sections, &["--build-id=drop"], &why(3, "reloc.CODE"));
    check(&sections, &["--build-id=keep"], &sections, NONE);
    let sections = [SHORT[0], SHORT[3], &relocations, SHORT_ID];
    check(&sections, &["--build-id=drop"], &sections[..3], ONE);
    let map = custom("sourceMappingURL", "01 61");
    let sections = [SHORT_ID, SHORT[3], &map];
    let dropped = ["--build-id=drop", "--keep-code"];
    check_refused(&sections, &dropped, &why(3, "sourceMappingURL"));
    let sections = [SHORT[3], SHORT_ID, &map];
    check(
        &sections,
        &dropped,
        &[SHORT[3], &map],
        "1 section dropped, 1 copied",
    );
}

/// The rules for offsets are those of modules that the library minimizes.
#[test]
fn offsets_with_the_option() {
    let keep = &["--build-id=keep"][..];
    let map = custom("sourceMappingURL", "01 61");
    let relocations = custom("reloc.CODE", "01 00");
    let other = custom("other", "");
    let padded_other = "00 8600 05 6f74686572";
    for options in [&[][..], keep] {
        // The code is elsewhere, or it is not.
        let why = format!("section 3, \"sourceMappingURL\", {OFFSETS}");
        check_refused(&[PADDED[0], SHORT[3], &map], options, &why);
        let sections = [SHORT[3], &map, PADDED[0]];
        check(&sections, options, &[SHORT[3], &map, SHORT[0]], NONE);
        // A custom section changes, or only others do.
        let why = format!("section 2, \"reloc.CODE\", {OFFSETS}");
        check_refused(&[padded_other, &relocations], options, &why);
        let sections = [PADDED[0], &other, &relocations];
        check(&sections, options, &[SHORT[0], &other, &relocations], NONE);
        // Data changes.
        let data = "0b 8800 01 00 41 8000 0b 01 09";
        let linking = custom("linking", "02");
        let why = format!("section 1, \"linking\", {OFFSETS}");
        check_refused(&[&linking, data], options, &why);
    }
}

#[test]
fn dry_runs_that_are_refused() {
    let folder = Folder::new("build_id_dry");
    let lines = "    before      after      saved  name
         8          8          0  header
        17         11          6  code
        14          0         14  custom \"build_id\", dropped
        39         19         20  all
";
    let answer = Answer {
        out: lines.into(),
        ..Answer::fault(&format!("standard input: section 2, \"build_id\", {ONLY}"))
    };
    let words = ["shorten", "-", "--dry-run"];
    let sections = module(&[PADDED[3], PADDED_ID]);
    assert_eq!(folder.call(&words, &sections), answer);
}
