//! Modules that are shortened.
use crate::samples::{PADDED, PADDED_NAME, SHORT, SHORT_NAME, UNREAD, bytes_of, custom, module};
use dolzhytik::fallible::{Global, Vec};
use dolzhytik::reader::{ModuleFault, Offsets, ReadFault, shorten_module};

/// What a sink has before, which is none of the module's.
const BEFORE: [u8; 2] = [0xAA, 0x03];

/// Returns the bytes that are appended to a sink, and the number of kept sections. Checks that the
/// sink is unchanged after an error.
fn appended(bytes: &[u8], offsets: Offsets) -> Result<(std::vec::Vec<u8>, usize), ModuleFault> {
    let mut sink = Vec::from_slice(Global, &BEFORE).unwrap();
    let answer = shorten_module(Global, bytes, offsets, &mut sink);
    let (before, new) = sink.split_at(BEFORE.len());
    assert_eq!(before, BEFORE);
    match answer {
        Ok(kept) => Ok((new.to_vec(), kept)),
        Err(fault) => {
            assert_eq!(new, []);
            Err(fault)
        }
    }
}

/// Checks what the module of the sections becomes, and that this stays as it is.
#[track_caller]
fn check(offsets: Offsets, sections: &[&str], kept: usize, expected: &[&str]) {
    let (bytes, expected) = (module(sections), module(expected));
    assert_eq!(appended(&bytes, offsets), Ok((expected.clone(), kept)));
    assert!(expected.len() <= bytes.len());
    assert_eq!(appended(&expected, offsets), Ok((expected, kept)));
}

/// Checks the same for both ways with offsets.
#[track_caller]
fn check_both(sections: &[&str], kept: usize, expected: &[&str]) {
    check(Offsets::Refuse, sections, kept, expected);
    check(Offsets::LeaveOut, sections, kept, expected);
}

#[track_caller]
fn check_refused(sections: &[&str], number: usize) {
    let refused = appended(&module(sections), Offsets::Refuse);
    assert_eq!(refused, Err(ModuleFault::Offsets { number }));
}

#[test]
fn header_alone() {
    check_both(&[], 0, &[]);
}

#[test]
fn padded_sizes_counts_and_indices() {
    check_both(&PADDED, 0, &SHORT);
    check_both(&SHORT, 0, &SHORT);
}

#[test]
fn order_and_ids_stay() {
    let [types, functions, exports, code] = PADDED;
    let [short_types, short_functions, short_exports, short_code] = SHORT;
    check_both(
        &[PADDED_NAME, code, types, code, exports, functions],
        0,
        &[
            SHORT_NAME,
            short_code,
            short_types,
            short_code,
            short_exports,
            short_functions,
        ],
    );
}

#[test]
fn custom_sections_are_read_as_what_their_names_stand_for() {
    check_both(&[PADDED_NAME], 0, &[SHORT_NAME]);
    // Of another name, the size and the name's length alone are numbers.
    check_both(
        &["00 8880 00 8100 61 00 8300 8100"],
        0,
        &["00 07 01 61 00 8300 8100"],
    );
}

#[test]
fn ids_that_no_kind_has_are_frames_of_bytes() {
    check_both(
        &["0e 82808000 8100", "ff 8000"],
        0,
        &["0e 02 8100", "ff 00"],
    );
}

#[test]
fn what_is_not_read_as_its_kind_is_kept_as_it_stands() {
    check_both(&[UNREAD], 1, &[UNREAD]);
    // Names that are not UTF-8; a name section with a truncated subsection; a start section with an
    // extra byte.
    let kept = [
        "00 8300 02 ff ff",
        "00 8800 8400 6e616d65 00 02",
        "08 8200 07 00",
        UNREAD,
    ];
    check_both(&kept, 4, &kept);
    let [types, _, _, code] = PADDED;
    let [short_types, _, _, short_code] = SHORT;
    check_both(
        &[types, kept[1], code, kept[2]],
        2,
        &[short_types, kept[1], short_code, kept[2]],
    );
}

/// Custom sections that hold offsets. The first two decode as the kinds of their names.
fn holders() -> [String; 9] {
    [
        custom("linking", "02"),
        custom("metadata.code.branch_hint", "00"),
        custom("linking", "63"),
        custom("reloc.CODE", "03 00"),
        custom(".debug_info", "ff"),
        custom("sourceMappingURL", "01 61"),
        custom("metadata.code.other", ""),
        custom("external_debug_info", "01 61"),
        custom("build_id", "02 abcd"),
    ]
}

#[test]
fn offsets_into_code_that_gets_shorter() {
    let [types, functions, exports, code] = PADDED;
    let [short_types, short_functions, short_exports, short_code] = SHORT;
    let short = [short_types, short_functions, short_exports, short_code];
    for holder in &holders() {
        let behind = [types, functions, exports, code, holder];
        check_refused(&behind, 5);
        check(Offsets::LeaveOut, &behind, 0, &short);
        let before = [types, holder, functions, exports, code];
        check_refused(&before, 2);
        check(Offsets::LeaveOut, &before, 0, &short);
    }
}

#[test]
fn offsets_into_data_that_gets_shorter() {
    // One passive segment of two bytes.
    let (padded, short) = ("0b 868000 01 01 8200 aabb", "0b 05 01 01 02 aabb");
    for holder in &holders() {
        check_refused(&[holder, padded], 1);
        check(Offsets::LeaveOut, &[holder, padded], 0, &[short]);
        check(Offsets::LeaveOut, &[holder, short], 0, &[short]);
    }
}

#[test]
fn offsets_into_code_that_stays() {
    let [types, functions, exports, _] = PADDED;
    let [short_types, short_functions, short_exports, code] = SHORT;
    for (place, holder) in holders().iter().enumerate() {
        // The third is no linking section: its version is none.
        let kept = usize::from(place == 2);
        let (given, short) = (
            [types, functions, exports, code, holder],
            [short_types, short_functions, short_exports, code, holder],
        );
        // The sixth is a source map, whose columns count the bytes before the code too.
        if place == 5 {
            check_refused(&given, 5);
            check(Offsets::LeaveOut, &given, 0, &short[..4]);
        } else {
            check(Offsets::Refuse, &given, kept, &short);
        }
        check(Offsets::Refuse, &short, kept, &short);
        check(Offsets::LeaveOut, &[code, holder], 0, &[code]);
        check(Offsets::Refuse, &[holder], kept, &[holder]);
    }
}

#[test]
fn offsets_beside_code_that_is_kept() {
    // It tells one body and has none.
    let code = "0a 8100 01";
    let linking = custom("linking", "02");
    check(Offsets::Refuse, &[code, &linking], 1, &[code, &linking]);
    check(Offsets::LeaveOut, &[code, &linking], 1, &[code]);
}

#[test]
fn a_section_that_holds_offsets_gets_shorter_itself() {
    let padded = "00 8a00 07 6c696e6b696e67 8200";
    check(
        Offsets::Refuse,
        &[padded, SHORT[3]],
        0,
        &[&custom("linking", "02"), SHORT[3]],
    );
}

#[test]
fn the_first_that_holds_offsets_is_named() {
    let [linking, hints, ..] = holders();
    let any = custom("any", "");
    check_refused(&[&any, PADDED[0], &hints, PADDED[3], &linking], 3);
    check(
        Offsets::LeaveOut,
        &[&any, PADDED[0], &hints, PADDED[3], &linking],
        0,
        &[&any, SHORT[0], SHORT[3]],
    );
}

/// A type section, and a custom section `a`, each with a padded size and in its fewest bytes.
const TYPES: [&str; 2] = ["01 8480808000 01 60 00 00", "01 04 01 60 00 00"];
const ANY: [&str; 2] = ["00 8200 01 61", "00 02 01 61"];

/// A function section and a code section that get no shorter.
const STAYING: [&str; 2] = ["03 02 01 00", "0a 04 01 02 00 0b"];

#[test]
fn a_source_map_counts_from_the_first_byte_of_the_module() {
    let [functions, code] = STAYING;
    let map = custom("sourceMappingURL", "01 75");
    // The code would move from 0x18 to 0x14.
    let moving = [TYPES[0], functions, code, &map];
    check_refused(&moving, 4);
    check(Offsets::LeaveOut, &moving, 0, &[TYPES[1], functions, code]);
    // Sections after the code may become shorter, and so may any section if there is no code.
    let behind = |any| [TYPES[1], functions, code, &map, any];
    check(Offsets::Refuse, &behind(ANY[0]), 0, &behind(ANY[1]));
    check(Offsets::Refuse, &[TYPES[0], &map], 0, &[TYPES[1], &map]);
    // The map itself is before the code, and its size prefix is padded. Of two code sections the
    // second moves.
    let padded = "00 9300 10 736f757263654d617070696e6755524c 01 75";
    check_refused(&[padded, functions, code], 1);
    check_refused(&[code, &map, ANY[0], code], 2);
}

#[test]
fn relocations_lead_into_custom_sections() {
    let [functions, code] = STAYING;
    // The length of its name is padded, so its bytes would move by 2.
    let padded = "00 12 8b8000 2e64656275675f696e666f 01020304";
    let debug = custom(".debug_info", "01020304");
    let relocations = custom("reloc..debug_info", "00 00");
    check_refused(&[padded, &relocations], 2);
    check(Offsets::LeaveOut, &[padded, &relocations], 0, &[]);
    // The target of relocations is not decoded, so that each custom section must stay. Other
    // sections may become shorter.
    check_refused(&[&debug, &relocations, ANY[0]], 2);
    let others = |types| [types, functions, code, &debug, &relocations, ANY[1]];
    check(Offsets::Refuse, &others(TYPES[0]), 0, &others(TYPES[1]));
    check_refused(&["00 9400 11 72656c6f632e2e64656275675f696e666f 00 00"], 1);
}

#[test]
fn debugging_information_in_another_file() {
    let [functions, code] = STAYING;
    for name in ["external_debug_info", "build_id"] {
        let holder = custom(name, "02 6162");
        check_refused(&[TYPES[1], functions, "0a 05 01 8200 00 0b", &holder], 4);
        let unmoved = |types, any| [types, functions, code, &holder, any];
        check(
            Offsets::Refuse,
            &unmoved(TYPES[0], ANY[0]),
            0,
            &unmoved(TYPES[1], ANY[1]),
        );
    }
}

/// A section that keeps its offsets is not the one that is named.
#[test]
fn the_first_whose_offsets_are_lost_is_named() {
    let code = STAYING[1];
    let (debug, map) = (custom(".debug_info", ""), custom("sourceMappingURL", ""));
    let relocations = custom("reloc.CODE", "03 00");
    check_refused(&[&debug, &relocations, TYPES[0], &map, code], 4);
    check_refused(&[&debug, &map, ANY[0], code, &relocations], 2);
    check_refused(&[&debug, &relocations, ANY[0], code, &map], 2);
    check_refused(&[&map, code, &debug, ANY[0], &relocations], 5);
    check_refused(&[code, &map, &relocations, &debug, PADDED[3]], 2);
}

#[test]
fn names_that_hold_no_offsets() {
    for name in [
        "linkings",
        "link",
        "Linking",
        "reloc",
        "relocCODE",
        ".debug",
        "debug_info",
        "metadata.code",
        "sourceMappingURL2",
        "external_debug_infos",
        "external_debug",
        "build_id2",
        "build",
        "x.reloc.CODE",
    ] {
        let section = custom(name, "01");
        check_both(&[&section, PADDED[3]], 0, &[&section, SHORT[3]]);
    }
}

#[track_caller]
fn check_fault(bytes: &[u8], number: usize, fault: ReadFault) {
    for offsets in [Offsets::Refuse, Offsets::LeaveOut] {
        let refused = appended(bytes, offsets);
        assert_eq!(refused, Err(ModuleFault::Section { number, fault }));
    }
}

#[test]
fn no_module() {
    check_fault(b"", 0, ReadFault::Ended);
    check_fault(b"\0asm\x01\0\0", 0, ReadFault::Ended);
    check_fault(b"\0asm\x0D\0\x01\0", 0, ReadFault::UnknownTag);
    check_fault(&bytes_of(PADDED[0]), 0, ReadFault::UnknownTag);
}

#[test]
fn sections_that_are_none() {
    check_fault(&module(&["03"]), 1, ReadFault::Ended);
    check_fault(&module(&[PADDED[0], "03 03 01 00"]), 2, ReadFault::Ended);
    check_fault(&module(&["03 808080808000"]), 1, ReadFault::TooLarge);
    check_fault(&module(&["03 ffffffff1f"]), 1, ReadFault::TooLarge);
    // A section that is none comes before offsets that would be lost.
    let linking = custom("linking", "02");
    check_fault(&module(&[&linking, PADDED[3], "00"]), 3, ReadFault::Ended);
}
