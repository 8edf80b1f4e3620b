// Written by tools/to-rust from tests/wasm_insn_tests/src/cows.rtt: change that.
// Tests of slices and strings that are borrowed or owned.

use dolzhytik::fallible::{Vec, String};
use crate::checks::{check, check_refused};
use crate::host::Abort;
use crate::test_support::{Heap, Refusing};
use dolzhytik::fallible::{CowSlice, CowStr};

/// Checks that the slice is 1 and 128.
fn check_slice(rt: &impl Abort, slice: &[u32]) {
    assert_eq!(rt; slice, [1, 128].as_slice());
}

#[test]
fn slices() {
    let rt = crate::host::HostRuntime;
    let owned: CowSlice<'_, u32> = CowSlice::Owned(Vec::from_slice(rt.alloc(), &[1u32, 128]).expect(
        "accepted",
    ));
    check_slice(&rt, owned.as_slice());
    check(&rt, rt.alloc(), &owned, &[2, 1, 0x80, 1]);
    let borrowed: CowSlice<'_, u32> = CowSlice::Borrowed(owned.as_slice());
    check(
        &rt,
        rt.alloc(),
        &borrowed.clone().expect("accepted"),
        &[2, 1, 0x80, 1],
    )
}

#[test]
fn copies_of_slices() {
    let rt = crate::host::HostRuntime;
    let heap = Refusing::new(rt.alloc());
    let owned: CowSlice<'_, u32, Heap<'_>> = CowSlice::Owned(Vec::from_slice(
        &heap,
        &[1u32, 128],
    ).expect("accepted"));
    heap.refuse(1);
    check_refused(&rt, owned.clone().err());
    check_slice(&rt, owned.clone().expect("accepted").as_slice());
}

/// Checks that the string is `name`.
fn check_text(rt: &impl Abort, text: &str) {
    assert_eq!(rt; text, "name");
}

#[test]
fn texts() {
    let rt = crate::host::HostRuntime;
    let owned: CowStr<'_> = CowStr::Owned(String::from_str(rt.alloc(), "name").expect(
        "accepted",
    ));
    check_text(&rt, owned.as_str());
    check(&rt, rt.alloc(), &owned, b"\x04name");
    let borrowed: CowStr<'_> = CowStr::Borrowed(owned.as_str());
    check(
        &rt,
        rt.alloc(),
        &borrowed.clone().expect("accepted"),
        b"\x04name",
    )
}

#[test]
fn copies_of_texts() {
    let rt = crate::host::HostRuntime;
    let heap = Refusing::new(rt.alloc());
    let owned: CowStr<'_, Heap<'_>> = CowStr::Owned(String::from_str(&heap, "name").expect(
        "accepted",
    ));
    heap.refuse(1);
    check_refused(&rt, owned.clone().err());
    check_text(&rt, owned.clone().expect("accepted").as_str());
}
