// Written by tools/to-rust from tests/wasm_custom_tests/src/unknown_subsections.rtt: change that.
// Tests of subsections whose id the tool conventions do not define: bytes by these conventions,
// which say that a reader skips such a subsection by its size.

use dolzhytik::fallible::Vec;
use crate::checks::check_bytes;
use dolzhytik::fallible::Global;
use crate::host::Abort;
use dolzhytik::reader::{DecodeError, Padded, ReadFault, Standard};
use dolzhytik::reader::{DylinkItem, LinkItem};
use dolzhytik::fallible::{append_dylink, append_links, check_dylink, check_links, minimize_dylink, minimize_links, read_dylink, read_links};

/// The payload of a linking section: its name, version 2, a subsection 10 of three bytes, and a
/// target.
const LINKING: &[u8] = b"\x07linking\x02\x0A\x03abc\x09\x02\x01w";

/// The same with the size of subsection 10 in two bytes.
const PADDED_LINKING: &[u8] = b"\x07linking\x02\x0A\x83\x00abc\x09\x02\x01w";

/// The payload of a section of a dynamic library: its name, a subsection 0 without content, no
/// needed libraries, and a subsection 255 of two bytes.
const DYLINK: &[u8] = b"\x08dylink.0\x00\x00\x02\x01\x00\xFF\x02hi";

/// The same with sizes in two and in five bytes.
const PADDED_DYLINK: &[u8] = b"\x08dylink.0\x00\x80\x00\x02\x01\x00\xFF\x82\x80\x80\x80\x00hi";

/// Checks the subsections of a linking section.
fn check_items(rt: &impl Abort, items: &[LinkItem<'_>]) {
    let is_expected = matches!(
        items,
        [
            LinkItem::Other {
                id: 10,
                bytes: b"abc"
            },
            LinkItem::Arch("w")
        ]
    );
    assert!(rt; is_expected);
}

/// Checks the subsections of the section of a dynamic library.
fn check_libraries(rt: &impl Abort, items: &[DylinkItem<'_>]) {
    let is_expected = match items {
        [
            DylinkItem::Other { id: 0, bytes: b"" },
            DylinkItem::Needed(names),
            DylinkItem::Other {
                id: 255,
                bytes: b"hi",
            },
        ] => names.is_empty(),
        _ => false,
    };
    assert!(rt; is_expected);
}

/// Checks the error: its cause, and the number of bytes that are left.
fn check_error<T>(
    rt: &impl Abort,
    answer: Result<T, DecodeError>,
    expected: (ReadFault, u32),
) {
    match answer {
        Ok(_) => panic!(rt; "an error"),
        Err(error) => assert_eq!(rt; (error.cause(), error.left()), expected),
    }
}

#[test]
fn links() {
    let rt = crate::host::HostRuntime;
    let alloc = rt.alloc();
    let items = read_links::<Global, Standard>(PADDED_LINKING, alloc).expect("read");
    check_items(&rt, &items);
    let mut sink = Vec::new(alloc);
    append_links(&items, &mut sink).expect("memory");
    check_bytes(&rt, &sink, LINKING);
    let mut minimal = Vec::new(alloc);
    minimize_links::<_, Standard, _>(PADDED_LINKING, alloc, &mut minimal).expect("minimized");
    check_bytes(&rt, &minimal, LINKING);
    check_links::<Global, Standard>(PADDED_LINKING, alloc).expect("checked");
}

#[test]
fn libraries() {
    let rt = crate::host::HostRuntime;
    let alloc = rt.alloc();
    let items = read_dylink::<Global, Standard>(PADDED_DYLINK, alloc).expect("read");
    check_libraries(&rt, &items);
    let mut sink = Vec::new(alloc);
    append_dylink(&items, &mut sink).expect("memory");
    check_bytes(&rt, &sink, DYLINK);
    let mut minimal = Vec::new(alloc);
    minimize_dylink::<_, Standard, _>(PADDED_DYLINK, alloc, &mut minimal).expect("minimized");
    check_bytes(&rt, &minimal, DYLINK);
    check_dylink::<Global, Standard>(PADDED_DYLINK, alloc).expect("checked");
}

/// The builders' grammar has no such subsection: the error is at its id.
#[test]
fn only_of_the_standard() {
    let rt = crate::host::HostRuntime;
    let alloc = rt.alloc();
    let of_id = (ReadFault::UnknownTag, 9);
    check_error(&rt, read_links::<Global, Padded>(LINKING, alloc), of_id);
    check_error(&rt, check_links::<Global, Padded>(LINKING, alloc), of_id);
    let mut sink = Vec::new(alloc);
    check_error(
        &rt,
        minimize_links::<_, Padded, _>(LINKING, alloc, &mut sink),
        of_id,
    );
    let of_library = (ReadFault::UnknownTag, 9);
    check_error(
        &rt,
        read_dylink::<Global, Padded>(DYLINK, alloc),
        of_library,
    );
    check_error(
        &rt,
        check_dylink::<Global, Padded>(DYLINK, alloc),
        of_library,
    );
    check_error(
        &rt,
        minimize_dylink::<_, Padded, _>(DYLINK, alloc, &mut sink),
        of_library,
    );
}

/// A size that exceeds the payload is an error at its end.
#[test]
fn cut() {
    let rt = crate::host::HostRuntime;
    let alloc = rt.alloc();
    let cut = b"\x07linking\x02\x0A\x04abc";
    let at_the_end = (ReadFault::Ended, 0);
    check_error(&rt, read_links::<Global, Standard>(cut, alloc), at_the_end);
    check_error(&rt, check_links::<Global, Standard>(cut, alloc), at_the_end);
    let cut = b"\x08dylink.0\x06\x01";
    check_error(&rt, read_dylink::<Global, Standard>(cut, alloc), at_the_end);
    check_error(
        &rt,
        check_dylink::<Global, Standard>(cut, alloc),
        at_the_end,
    );
}
