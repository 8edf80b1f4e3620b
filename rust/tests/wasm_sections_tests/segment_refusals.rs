// Written by tools/to-rust from tests/wasm_sections_tests/src/segment_refusals.rtt: change that.
// Tests of failing requests for memory in calls that add segments, and of lengths that are too
// long.

use dolzhytik::fallible::Vec;
use crate::checks::{check_answer, check_bytes, check_number, check_refused, check_that};
use crate::section_refusals::{OnHeap, SectionCalls, check_calls, check_part};
use dolzhytik::fallible::Global;
use core::cell::Cell;
use crate::host::Abort;
use crate::test_support::{MOST, Refusing};
use dolzhytik::fallible::{CowSlice, Encode, RefType, Refused, Result};
use dolzhytik::fallible::ConstExpr;
use dolzhytik::fallible::{DataItems, DataSection, DataSegment, DataSegmentMode, ElementItems, ElementMode, ElementSegment, Elements};

const BYTES: [u8; 2] = [8, 9];

/// Returns a passive segment of two bytes.
fn passive_segment<'a>() -> DataSegment<'a, [u8; 2]> {
    DataSegment {
        mode: DataSegmentMode::Passive,
        bytes: BYTES,
    }
}

impl SectionCalls for DataItems {
    type Given = ConstExpr;

    const ENTRIES: &'static [&'static [u8]] = &[
        &[0, 65, 0, 11, 2, 8, 9],
        &[2, 1, 65, 0, 11, 2, 8, 9],
        &[1, 2, 8, 9],
        &[1, 2, 8, 9],
        &[1, 0],
    ];

    fn add(section: &mut OnHeap<'_, Self>, offset: &ConstExpr, place: usize) -> Result<()> {
        match place {
            0 => section.active(0, offset, BYTES),
            1 => section.active(1, offset, BYTES),
            2 => section.passive(BYTES),
            3 => section.segment(passive_segment()),
            _ => section.raw(&[1, 0]),
        }
    }
}

#[test]
fn data() {
    let rt = crate::host::HostRuntime;
    let heap = Refusing::new(rt.alloc());
    let offset = ConstExpr::i32_const(rt.alloc(), 0).expect("accepted");
    check_calls::<DataItems>(&rt, &heap, &offset)
}

/// Returns a reference to the function 7.
fn seventh<'a>() -> Elements<'a> {
    Elements::Functions(CowSlice::Borrowed(&[7]))
}

impl SectionCalls for ElementItems {
    type Given = ConstExpr;

    const ENTRIES: &'static [&'static [u8]] = &[
        &[2, 7, 65, 0, 11, 0, 1, 7],
        &[1, 0, 1, 7],
        &[3, 0, 1, 7],
        &[1, 0, 0],
    ];

    fn add(section: &mut OnHeap<'_, Self>, offset: &ConstExpr, place: usize) -> Result<()> {
        match place {
            0 => section.active(Some(7), offset, seventh()),
            1 => section.passive(seventh()),
            2 => section.declared(seventh()),
            _ => section.raw(&[1, 0, 0]),
        }
    }
}

#[test]
fn elements() {
    let rt = crate::host::HostRuntime;
    let heap = Refusing::new(rt.alloc());
    let offset = ConstExpr::i32_const(rt.alloc(), 0).expect("accepted");
    check_calls::<ElementItems>(&rt, &heap, &offset)
}

/// Expressions whose list and members are in memory of an allocator that fails requests.
type OwnedElements<'h> = Elements<'h, &'h Refusing<Global>>;

/// Returns one expression, owned.
fn third<'h>(heap: &'h Refusing<Global>) -> Result<OwnedElements<'h>> {
    let mut listed = Vec::new(heap);
    listed.push(ConstExpr::ref_func(heap, 3)?)?;
    Ok(Elements::Expressions(RefType::FUNCREF, CowSlice::Owned(listed)))
}

/// Checks that a clone is a segment of these bytes, or `Memory` if a request failed.
fn check_clone<'h>(
    rt: &impl Abort,
    heap: &'h Refusing<Global>,
    nth: u64,
    copy: Result<ElementSegment<'h, &'h Refusing<Global>>>,
    expected: &[u8],
) -> bool {
    let granted = heap.is_waiting();
    match copy {
        Ok(segment) => check_part(rt, heap, &segment, expected),
        Err(refused) => check_refused(rt, Some(refused)),
    }
    check_that(rt, !granted || nth > 1);
    granted
}

#[test]
fn clones() {
    let rt = crate::host::HostRuntime;
    let heap = Refusing::new(rt.alloc());
    let segment = ElementSegment {
        mode: ElementMode::Passive,
        elements: third(&heap).expect("accepted"),
    };
    for nth in 1..MOST {
        heap.refuse(nth);
        if check_clone(&rt, &heap, nth, segment.clone(), &[5, 112, 1, 210, 3, 11]) {
            return check_part(&rt, &heap, &segment, &[5, 112, 1, 210, 3, 11]);
        }
    }
    panic!(rt; "no call was granted")
}

/// Clones a segment of two bytes of this mode, its mode and its bytes, with every request failing:
/// none is made.
fn check_cloned_data<'h>(
    rt: &impl Abort,
    heap: &'h Refusing<Global>,
    mode: DataSegmentMode<'_, &'h Refusing<Global>>,
    expected: &[u8],
) {
    let segment = DataSegment { mode, bytes: BYTES };
    heap.refuse_all();
    let copied_mode = segment.mode.clone().expect("accepted");
    let copy = segment.clone().expect("accepted");
    check_that(rt, heap.requests() == 0);
    heap.refuse(0);
    let of_mode = DataSegment {
        mode: copied_mode,
        bytes: BYTES,
    };
    for given in [copy, of_mode, segment] {
        let mut section = DataSection::new(heap);
        section.segment(given).expect("accepted");
        check_bytes(rt, section.piece(0).unwrap_or(&[]), expected);
    }
}

#[test]
fn clones_of_data() {
    let rt = crate::host::HostRuntime;
    let heap = Refusing::new(rt.alloc());
    let offset = ConstExpr::raw(&heap, [0x41, 1, 0x41, 2, 0x6A]).expect("accepted");
    let active = DataSegmentMode::Active {
        memory_index: 0,
        offset: &offset,
    };
    check_cloned_data(&rt, &heap, active, &[0, 65, 1, 65, 2, 106, 11, 2, 8, 9]);
    check_cloned_data(&rt, &heap, DataSegmentMode::Passive, &[1, 2, 8, 9])
}

/// Clones a mode with every request failing: none is made.
fn check_cloned_mode<'h>(
    rt: &impl Abort,
    heap: &'h Refusing<Global>,
    mode: ElementMode<'h, &'h Refusing<Global>>,
    expected: &[u8],
) {
    heap.refuse_all();
    let copy = mode.clone().expect("accepted");
    check_that(rt, heap.requests() == 0);
    for mode in [copy, mode] {
        let elements = Elements::Functions(CowSlice::Borrowed(&[7]));
        check_part(rt, heap, &ElementSegment { mode, elements }, expected);
    }
}

#[test]
fn clones_of_element_modes() {
    let rt = crate::host::HostRuntime;
    let heap = Refusing::new(rt.alloc());
    let offset = ConstExpr::raw(&heap, [0x41, 1, 0x41, 2, 0x6A]).expect("accepted");
    let active = ElementMode::Active {
        table: Some(3),
        offset: &offset,
    };
    let expected = [2, 3, 65, 1, 65, 2, 106, 11, 0, 1, 7];
    check_cloned_mode(&rt, &heap, active, &expected);
    check_cloned_mode(&rt, &heap, ElementMode::Passive, &[1, 0, 1, 7]);
    check_cloned_mode(&rt, &heap, ElementMode::Declared, &[3, 0, 1, 7])
}

/// A section of 128 zero bytes fits exactly the spare capacity of a sink, without a request. With
/// one byte less, `encode` fails.
#[test]
fn exact_room() {
    let rt = crate::host::HostRuntime;
    let mut section = DataSection::new(rt.alloc());
    section.passive([0u8; 128]).expect("accepted");
    let heap = Refusing::new(rt.alloc());
    let mut sink = Vec::with_capacity(&heap, 134).expect("accepted");
    heap.refuse(1);
    section.encode(&mut sink).expect("accepted");
    check_bytes(&rt, &sink[..6.min(sink.len())], &[0x84, 1, 1, 1, 0x80, 1]);
    check_number(&rt, sink.len(), 134);
    heap.refuse(0);
    let mut short = Vec::with_capacity(&heap, 133).expect("accepted");
    heap.refuse(1);
    check_refused(&rt, section.encode(&mut short).err());
    check_bytes(&rt, &short, &[]);
}

/// An iterator of zero bytes, which counts the requests for one.
struct CountedBytes<'a> {
    left: usize,
    asked: &'a Cell<u64>,
}

impl Iterator for CountedBytes<'_> {
    type Item = u8;

    fn next(&mut self) -> Option<u8> {
        self.asked.set(self.asked.get().saturating_add(1));
        if self.left == 0 {
            return None;
        }
        self.left -= 1;
        Some(0)
    }
}

impl ExactSizeIterator for CountedBytes<'_> {
    fn len(&self) -> usize {
        self.left
    }
}

/// Checks that the section has one entry of two zero bytes, and the number of requests for a byte.
fn check_asked(rt: &impl Abort, section: &DataSection, asked: &Cell<u64>, expected: u64) {
    assert_eq!(rt; section.piece(0), Some([1, 2, 0, 0].as_slice()));
    assert_eq!(rt; (section.len(), asked.get()), (1, expected));
}

/// A length that is too long is an error before any byte is requested, and the section is
/// unchanged.
#[test]
fn too_many_bytes() {
    let rt = crate::host::HostRuntime;
    let asked = Cell::new(0);
    let mut section: DataSection = DataSection::new(rt.alloc());
    section
        .passive(CountedBytes {
            left: 2,
            asked: &asked,
        })
        .expect("accepted");
    check_that(&rt, asked.get() >= 2);
    asked.set(0);
    let refused = section.passive(CountedBytes {
        left: 4294967296,
        asked: &asked,
    });
    check_that(&rt, refused == Err(Refused::TooLong));
    check_asked(&rt, &section, &asked, 0);
}

/// The first growth, to 128 bytes, fails.
#[test]
fn first_growth() {
    let rt = crate::host::HostRuntime;
    let heap = Refusing::new(rt.alloc());
    let mut section = DataSection::new(&heap);
    heap.refuse(1);
    let answer = section.passive([0u8; 128]);
    check_that(&rt, !check_answer(&rt, &heap, 1, answer));
    check_that(&rt, section.is_empty());
}
