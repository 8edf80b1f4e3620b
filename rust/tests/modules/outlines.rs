//! Outlines.
use crate::samples::{PADDED, PADDED_NAME, SHORT, UNREAD, custom, module};
use dolzhytik::fallible::Global;
use dolzhytik::reader::{Outlined, ReadFault, outline};

fn line(id: u8, offset: usize, size: u32, items: Option<u32>) -> Outlined<'static> {
    let name = None;
    Outlined {
        id,
        offset,
        size,
        items,
        name,
    }
}

fn custom_line(offset: usize, size: u32, name: &str) -> Outlined<'_> {
    Outlined {
        name: Some(name),
        ..line(0, offset, size, None)
    }
}

#[track_caller]
fn check(sections: &[&str], expected: &[Outlined<'_>]) {
    assert_eq!(*outline(Global, &module(sections)).unwrap(), *expected);
}

#[test]
fn header_alone() {
    check(&[], &[]);
}

#[test]
fn offsets_stand_behind_sizes_however_these_are_padded() {
    let padded = [
        line(1, 14, 7, Some(1)),
        line(3, 25, 3, Some(1)),
        line(7, 30, 5, Some(1)),
        line(10, 41, 11, Some(1)),
    ];
    check(&PADDED, &padded);
    let short = [
        line(1, 10, 7, Some(1)),
        line(3, 19, 2, Some(1)),
        line(7, 23, 5, Some(1)),
        line(10, 30, 9, Some(1)),
    ];
    check(&SHORT, &short);
}

/// `exnref` is one byte, 69, as clang writes it.
#[test]
fn types_in_the_grammar_of_the_standard() {
    check(&["01 05 01 60 00 01 69"], &[line(1, 10, 5, Some(1))]);
    check(&["01 05 01 60 00 01 60"], &[line(1, 10, 5, None)]);
}

/// Two types in one recursion group.
#[test]
fn a_recursion_group_is_one_entry() {
    check(&["01 07 01 4e 02 5f 00 5f 00"], &[line(1, 10, 7, Some(1))]);
}

#[test]
fn each_id_in_any_order() {
    let sections = [
        "0d 03 01 00 00",
        "0c 01 02",
        "0b 01 00",
        "0a 01 00",
        "09 01 00",
        "08 01 07",
        "07 01 00",
        "06 01 00",
        "05 03 01 00 01",
        "04 01 00",
        "03 03 02 00 00",
        "02 01 00",
        "01 07 02 60 00 00 60 00 00",
        "0e 00",
        "ff 01 aa",
    ];
    let lines = [
        line(13, 10, 3, Some(1)),
        line(12, 15, 1, Some(1)),
        line(11, 18, 1, Some(0)),
        line(10, 21, 1, Some(0)),
        line(9, 24, 1, Some(0)),
        line(8, 27, 1, Some(1)),
        line(7, 30, 1, Some(0)),
        line(6, 33, 1, Some(0)),
        line(5, 36, 3, Some(1)),
        line(4, 41, 1, Some(0)),
        line(3, 44, 3, Some(2)),
        line(2, 49, 1, Some(0)),
        line(1, 52, 7, Some(2)),
        line(14, 61, 0, None),
        line(255, 63, 1, None),
    ];
    check(&sections, &lines);
}

#[test]
fn what_is_not_read_as_its_kind_has_no_number_and_the_outline_goes_on() {
    // The second type is none, and a name has one byte of two.
    let sections = ["01 05 02 60 00 00 00", UNREAD, "00 02 02 61", SHORT[1]];
    let lines = [
        line(1, 10, 5, None),
        line(3, 18, 1, None),
        line(0, 21, 2, None),
        line(3, 25, 2, Some(1)),
    ];
    check(&sections, &lines);
}

#[test]
fn names_of_custom_sections() {
    let any = custom("a b", "ff");
    let unread_linking = custom("linking", "63");
    check(
        &[PADDED_NAME, "00 01 00", &any, &unread_linking],
        &[
            custom_line(11, 12, "name"),
            custom_line(25, 1, ""),
            custom_line(28, 5, "a b"),
            custom_line(35, 9, "linking"),
        ],
    );
}

#[test]
fn names_that_are_none() {
    // Not UTF-8, a length past 32 bits, and no length at all.
    let sections = ["00 03 02 ff ff", "00 05 ff ff ff ff 1f", "00 00"];
    let lines = [
        line(0, 10, 3, None),
        line(0, 15, 5, None),
        line(0, 22, 0, None),
    ];
    check(&sections, &lines);
}

#[track_caller]
fn check_fault(bytes: &[u8], expected: (usize, ReadFault)) {
    assert_eq!(outline(Global, bytes).unwrap_err(), expected);
}

#[test]
fn faults() {
    check_fault(b"", (0, ReadFault::Ended));
    check_fault(b"\0asm\x01\0\0", (0, ReadFault::Ended));
    check_fault(b"\0asm\x0D\0\x01\0", (0, ReadFault::UnknownTag));
    check_fault(&module(&["03"]), (1, ReadFault::Ended));
    check_fault(&module(&[SHORT[0], "03 03 01 00"]), (2, ReadFault::Ended));
    // A size of six bytes, and one past 32 bits.
    check_fault(&module(&["03 808080808000"]), (1, ReadFault::TooLarge));
    check_fault(&module(&["03 ffffffff1f"]), (1, ReadFault::TooLarge));
}
