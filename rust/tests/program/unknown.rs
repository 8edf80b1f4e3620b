//! Subsections of unknown ids in `linking` and `dylink.0`, which may hold any indices and offsets.
use crate::program::{Answer, Folder};
use crate::samples::{PADDED, SHORT, custom, module};
use crate::shortened::check_shortened;

/// The section of a dynamic library with a subsection 6 of one byte: with a size and a
/// subsection's size in two bytes, and in its minimal encoding.
const PADDED_LIBRARY: &str = "00 8d00 08 64796c696e6b2e30 06 8100 ff";
const LIBRARY: &str = "00 0c 08 64796c696e6b2e30 06 01 ff";

/// The empty section in the place of a removed one.
const EMPTY: &str = "00 11 10 2e6f626a636f70792e72656d6f766564";

#[test]
fn is_minimized_where_code_stays() {
    let padded = [&[PADDED_LIBRARY], &SHORT[..]].concat();
    let short = [&[LIBRARY], &SHORT[..]].concat();
    check_shortened(&padded, &[], &short, "0 sections copied undecoded", &[]);
}

#[test]
fn fails_where_code_changes() {
    let folder = Folder::new("unknown");
    let sections = [&[LIBRARY], &PADDED[..]].concat();
    let fault = folder.call(&["shorten", "-", "-ob.wasm"], &module(&sections));
    let expected = "standard input: section 1, \"dylink.0\", holds offsets that would become wrong; \
        --drop-offsets drops such sections, --keep-code keeps code and data byte for byte, \
        and --dry-run prints what each saves";
    assert_eq!(fault, Answer::fault(expected));
    // A known subsection holds none.
    let known = custom("dylink.0", "02 01 00");
    let sections = [&[&known[..]], &PADDED[..]].concat();
    let expected = [&[&known[..]], &SHORT[..]].concat();
    check_shortened(
        &sections,
        &[],
        &expected,
        "0 sections copied undecoded",
        &[],
    );
}

#[test]
fn stays_without_offsets() {
    let sections = [&[PADDED_LIBRARY], &PADDED[..]].concat();
    let expected = [&[LIBRARY], &SHORT[..]].concat();
    check_shortened(
        &sections,
        &["--drop-offsets"],
        &expected,
        "0 sections dropped, 0 copied undecoded",
        &[],
    );
}

#[test]
fn keeps_all_with_the_code() {
    let linking = custom("linking", "02 0a 01 00");
    for section in [PADDED_LIBRARY, &linking] {
        let sections = [&[section], &PADDED[..]].concat();
        let told = format!("{} sections copied", sections.len());
        check_shortened(&sections, &["--keep-code"], &sections, &told, &[]);
    }
}

#[test]
fn may_hold_any_index() {
    let linking = custom("linking", "02 0a 01 00");
    let removed = custom("x", "01");
    for section in [LIBRARY, &linking] {
        let folder = Folder::new("unknown_strip");
        folder.write("a.wasm", module(&[section, &removed]));
        folder.call(&["strip", "a.wasm", "x", "-o", "b.wasm"], b"");
        assert_eq!(folder.read("b.wasm"), module(&[section, EMPTY]));
    }
}
