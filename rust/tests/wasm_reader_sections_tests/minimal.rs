// Written by tools/to-rust from tests/wasm_reader_sections_tests/src/minimal.rtt: change that.
// Tests of minimized sections.

use dolzhytik::fallible::Vec;
use crate::checks::check_bytes;
use crate::rows::{BEFORE_BYTE, DATA, before_data};
use crate::{custom_rows, faults, rows};
use crate::read_back::padded_function;
use dolzhytik::fallible::Global;
use crate::host::Abort;
use crate::test_support::{MOST, Refusing};
use dolzhytik::reader::ReadFault;
use dolzhytik::fallible::Result;
use dolzhytik::reader::{SectionKind, shorten};

/// The byte in the sink before the call.
const BEFORE: u8 = 0xAA;

/// A section with padded numbers, and its minimal encoding.
type Row = (SectionKind, &'static [u8], &'static [u8]);

static PADDED: [Row; 47] = [
    (
        SectionKind::Producers,
        &[
            0x13, 9, 0x70, 0x72, 0x6F, 0x64, 0x75, 0x63, 0x65, 0x72, 0x73, 0x81, 0, 1, 0x6C, 1, 1,
            0x43, 1, 0x31,
        ],
        &[
            0x12, 9, 0x70, 0x72, 0x6F, 0x64, 0x75, 0x63, 0x65, 0x72, 0x73, 1, 1, 0x6C, 1, 1, 0x43,
            1, 0x31,
        ],
    ),
    (
        SectionKind::Core,
        &[9, 4, 0x63, 0x6F, 0x72, 0x65, 0, 0x81, 0, 0x70],
        &[8, 4, 0x63, 0x6F, 0x72, 0x65, 0, 1, 0x70],
    ),
    (
        SectionKind::CoreModules,
        &[
            0x11, 0xB, 0x63, 0x6F, 0x72, 0x65, 0x6D, 0x6F, 0x64, 0x75, 0x6C, 0x65, 0x73, 0x81, 0,
            0, 1, 0x6D,
        ],
        &[
            0x10, 0xB, 0x63, 0x6F, 0x72, 0x65, 0x6D, 0x6F, 0x64, 0x75, 0x6C, 0x65, 0x73, 1, 0, 1,
            0x6D,
        ],
    ),
    (
        SectionKind::CoreInstances,
        &[
            0x15, 0xD, 0x63, 0x6F, 0x72, 0x65, 0x69, 0x6E, 0x73, 0x74, 0x61, 0x6E, 0x63, 0x65,
            0x73, 1, 0, 0x80, 0, 1, 0, 0,
        ],
        &[
            0x14, 0xD, 0x63, 0x6F, 0x72, 0x65, 0x69, 0x6E, 0x73, 0x74, 0x61, 0x6E, 0x63, 0x65,
            0x73, 1, 0, 0, 1, 0, 0,
        ],
    ),
    (
        SectionKind::Functions,
        &[0x86, 0, 1, 0x85, 0x80, 0x80, 0x80, 0],
        &[2, 1, 5],
    ),
    (SectionKind::Functions, &[3, 1, 0x80, 0], &[2, 1, 0]),
    (
        SectionKind::Bodies,
        &[5, 1, 3, 0x80, 0, 0xB],
        &[4, 1, 2, 0, 0xB],
    ),
    (
        SectionKind::Globals,
        &[0xA, 1, 0x7F, 0, 0x41, 0xFF, 0xFF, 0xFF, 0xFF, 0x7F, 0xB],
        &[6, 1, 0x7F, 0, 0x41, 0x7F, 0xB],
    ),
    (
        SectionKind::Bodies,
        &[
            0x12, 0x81, 0, 0xF, 0x81, 0, 0x82, 0, 0x7F, 0x20, 0x80, 0, 0x28, 0x82, 0, 0x90, 0x80,
            0, 0xB,
        ],
        &[0xB, 1, 9, 1, 2, 0x7F, 0x20, 0, 0x28, 2, 0x10, 0xB],
    ),
    (
        SectionKind::Bodies,
        &[
            0x3C, 1, 0x3A, 0x80, 0, 2, 0x85, 0, 0xE, 0x82, 0, 0x80, 0, 1, 0x81, 0, 0x43, 0, 0,
            0x80, 0x3F, 0x44, 0, 0, 0, 0, 0, 0, 0xF0, 0x3F, 0xFD, 0x8C, 0, 0, 1, 2, 3, 4, 5, 6, 7,
            8, 9, 0xA, 0xB, 0xC, 0xD, 0xE, 0xF, 0x42, 0xFF, 0xFF, 0x7F, 0x1C, 0x81, 0, 0x7F, 0xD0,
            0x70, 0xB, 0xB,
        ],
        &[
            0x33, 1, 0x31, 0, 2, 5, 0xE, 2, 0, 1, 1, 0x43, 0, 0, 0x80, 0x3F, 0x44, 0, 0, 0, 0, 0,
            0, 0xF0, 0x3F, 0xFD, 0xC, 0, 1, 2, 3, 4, 5, 6, 7, 8, 9, 0xA, 0xB, 0xC, 0xD, 0xE, 0xF,
            0x42, 0x7F, 0x1C, 1, 0x7F, 0xD0, 0x70, 0xB, 0xB,
        ],
    ),
    (
        SectionKind::Segments,
        &[0xC, 1, 0x82, 0, 0x83, 0, 0x41, 0x81, 0, 0xB, 0x81, 0, 9],
        &[8, 1, 2, 3, 0x41, 1, 0xB, 1, 9],
    ),
    (
        SectionKind::Segments,
        &[8, 1, 0x80, 0, 0x41, 1, 0xB, 0x80, 0],
        &[6, 1, 0, 0x41, 1, 0xB, 0],
    ),
    (
        SectionKind::Segments,
        &[6, 1, 0x81, 0, 0x81, 0, 9],
        &[4, 1, 1, 1, 9],
    ),
    (
        SectionKind::Elements,
        &[
            0xF, 1, 0x82, 0, 0x80, 0, 0x41, 0x80, 0, 0xB, 0, 0x81, 0, 0x85, 0x80, 0,
        ],
        &[9, 1, 2, 0, 0x41, 0, 0xB, 0, 1, 5],
    ),
    (
        SectionKind::Elements,
        &[
            0xD, 1, 0x86, 0, 0, 0x41, 0, 0xB, 0x6F, 0x81, 0, 0xD0, 0x6F, 0xB,
        ],
        &[0xB, 1, 6, 0, 0x41, 0, 0xB, 0x6F, 1, 0xD0, 0x6F, 0xB],
    ),
    (
        SectionKind::Elements,
        &[7, 1, 0x83, 0, 0, 0x81, 0, 7],
        &[5, 1, 3, 0, 1, 7],
    ),
    (
        SectionKind::Elements,
        &[5, 1, 5, 0x70, 0x80, 0],
        &[4, 1, 5, 0x70, 0],
    ),
    (
        SectionKind::Exports,
        &[9, 1, 0x83, 0, 0x66, 0x6F, 0x6F, 0, 0x80, 0],
        &[7, 1, 3, 0x66, 0x6F, 0x6F, 0, 0],
    ),
    (
        SectionKind::Imports,
        &[9, 1, 0x81, 0, 0x6D, 0x80, 0, 0, 0x85, 0],
        &[6, 1, 1, 0x6D, 0, 0, 5],
    ),
    (
        SectionKind::Imports,
        &[0xC, 1, 1, 0x6D, 0, 0x7F, 0x81, 0, 1, 0x61, 0, 0x80, 0],
        &[0xA, 1, 1, 0x6D, 0, 0x7F, 1, 1, 0x61, 0, 0],
    ),
    (
        SectionKind::Imports,
        &[
            0xE, 1, 1, 0x6D, 0, 0x7E, 0, 0, 0x82, 0, 0x81, 0, 0x61, 1, 0x62,
        ],
        &[0xC, 1, 1, 0x6D, 0, 0x7E, 0, 0, 2, 1, 0x61, 1, 0x62],
    ),
    (
        SectionKind::Memories,
        &[7, 1, 0xF, 0x81, 0, 2, 0x80, 0],
        &[5, 1, 0xF, 1, 2, 0],
    ),
    (
        SectionKind::Tables,
        &[0xA, 1, 0x40, 0, 0x70, 0, 0x80, 0, 0xD0, 0x70, 0xB],
        &[9, 1, 0x40, 0, 0x70, 0, 0, 0xD0, 0x70, 0xB],
    ),
    (
        SectionKind::Tables,
        &[6, 1, 0x70, 1, 0x80, 0, 3],
        &[5, 1, 0x70, 1, 0, 3],
    ),
    (SectionKind::Tags, &[5, 1, 0, 0x83, 0x80, 0], &[3, 1, 0, 3]),
    (SectionKind::Start, &[0x82, 0, 0x87, 0], &[1, 7]),
    (SectionKind::DataCount, &[3, 0x80, 0x81, 0], &[2, 0x80, 1]),
    (
        SectionKind::Custom,
        &[7, 0x84, 0, 0x74, 0x65, 0x73, 0x74, 9],
        &[6, 4, 0x74, 0x65, 0x73, 0x74, 9],
    ),
    (
        SectionKind::Names,
        b"\x8B\x80\x00\x04name\x00\x83\x00\x81\x00m",
        b"\x09\x04name\x00\x02\x01m",
    ),
    (
        SectionKind::Names,
        b"\x0F\x04name\x01\x87\x00\x81\x00\x80\x00\x81\x00t",
        b"\x0B\x04name\x01\x04\x01\x00\x01t",
    ),
    (
        SectionKind::Linking,
        b"\x12\x07linking\x82\x00\x08\x85\x00\x01\x00\x90\x00\x00",
        b"\x0F\x07linking\x02\x08\x04\x01\x00\x10\x00",
    ),
    (
        SectionKind::Hints,
        b"\x22\x19metadata.code.branch_hint\x81\x00\x00\x01\x83\x00\x01\x01",
        b"\x20\x19metadata.code.branch_hint\x01\x00\x01\x03\x01\x01",
    ),
    (
        SectionKind::InstructionFrequencies,
        b"\x21\x18metadata.code.instr_freq\x01\x87\x00\x01\x03\x81\x00\x20",
        b"\x1F\x18metadata.code.instr_freq\x01\x07\x01\x03\x01\x20",
    ),
    (
        SectionKind::CompilationOrders,
        b"\x29\x1Fmetadata.code.compilation_order\x01\x07\x01\x00\x04\x81\x00\x85\x00",
        b"\x27\x1Fmetadata.code.compilation_order\x01\x07\x01\x00\x02\x01\x05",
    ),
    (
        SectionKind::CallTargets,
        b"\x25\x1Ametadata.code.call_targets\x01\x07\x01\x83\x00\x04\x89\x00\xDA\x00",
        b"\x22\x1Ametadata.code.call_targets\x01\x07\x01\x03\x02\x09\x5A",
    ),
    (
        SectionKind::CoreStack,
        b"\x1E\x09corestack\x00\x84\x00main\x01\x00\x80\x00\x2A\x33\x01\x7F\x81\x00\x01\x7F\x02",
        b"\x1B\x09corestack\x00\x04main\x01\x00\x00\x2A\x33\x01\x7F\x01\x01\x7F\x02",
    ),
    (
        SectionKind::TargetFeatures,
        b"\x17\x8F\x00target_features\x81\x00+\x81\x00a",
        b"\x14\x0Ftarget_features\x01+\x01a",
    ),
    (
        SectionKind::SourceMappingUrl,
        b"\x98\x00\x10sourceMappingURL\x85\x00a.map",
        b"\x17\x10sourceMappingURL\x05a.map",
    ),
    (
        SectionKind::ExternalDebugInfo,
        b"\x17\x93\x00external_debug_info\x01d",
        b"\x16\x13external_debug_info\x01d",
    ),
    (
        SectionKind::BuildId,
        b"\x0E\x08build_id\x82\x80\x00\x12\x34",
        b"\x0C\x08build_id\x02\x12\x34",
    ),
    (
        SectionKind::Dylink,
        b"\x13\x08dylink.0\x01\x87\x00\xAC\x02\x84\x00\x05\x80\x00",
        b"\x10\x08dylink.0\x01\x05\xAC\x02\x04\x05\x00",
    ),
    (
        SectionKind::Dylink,
        b"\x15\x08dylink.0\x04\x0A\x81\x00\x03env\x81\x00g\x10",
        b"\x13\x08dylink.0\x04\x08\x01\x03env\x01g\x10",
    ),
    (
        SectionKind::Relocations,
        b"\x17\x0Areloc.CODE\x83\x00\x81\x00\x03\xAC\x82\x00\x81\x00\xFF\x7F",
        b"\x12\x0Areloc.CODE\x03\x01\x03\xAC\x02\x01\x7F",
    ),
    (SectionKind::Raw, &[0x82, 0, 1, 2], &[2, 1, 2]),
    (
        SectionKind::Types,
        &[0x8A, 0, 0x81, 0, 0x60, 0x82, 0, 0x7F, 0x7E, 0x81, 0, 0x7D],
        &[7, 1, 0x60, 2, 0x7F, 0x7E, 1, 0x7D],
    ),
    (
        SectionKind::Types,
        &[
            0xE, 1, 0x50, 0x81, 0, 0x85, 0, 0x5F, 2, 0x78, 1, 0x63, 0x83, 0, 0,
        ],
        &[0xB, 1, 0x50, 1, 5, 0x5F, 2, 0x78, 1, 0x63, 3, 0],
    ),
    (
        SectionKind::Types,
        &[7, 1, 0x4E, 0x81, 0, 0x5E, 0x77, 0],
        &[6, 1, 0x4E, 1, 0x5E, 0x77, 0],
    ),
];

/// The length of the section in bytes, or the error; and whether the sink gained exactly the
/// expected bytes.
type Outcome = (usize, Option<ReadFault>, bool);

/// Makes the call, with the request of this number failing.
fn outcome(
    heap: &Refusing<Global>,
    nth: u64,
    kind: SectionKind,
    bytes: &[u8],
    text: &[u8],
) -> Result<Outcome> {
    heap.refuse(0);
    let mut sink = Vec::new(heap);
    sink.push(BEFORE)?;
    heap.refuse(nth);
    let (taken, fault, gained) = match shorten(kind, bytes, &mut sink) {
        Ok(taken) => (taken, None, text),
        Err(fault) => (0, Some(fault), &[] as &[u8]),
    };
    let (before, after) = sink.split_at(1);
    Ok((
        taken,
        fault,
        before == [BEFORE].as_slice() && after == gained,
    ))
}

fn check(rt: &impl Abort, given: Outcome, taken: usize, fault: Option<ReadFault>) {
    assert_eq!(rt; given, (taken, fault, true));
}

/// Checks that the minimal encoding is appended, and that the section has all of the bytes. If a
/// request for memory fails, the sink is unchanged.
fn check_row(
    rt: &impl Abort,
    heap: &Refusing<Global>,
    kind: SectionKind,
    bytes: &[u8],
    text: &[u8],
) {
    check_taken(rt, heap, kind, bytes, text, bytes.len())
}

/// Checks the appended bytes, and the length of the section in bytes. If a request for memory
/// fails, the sink is unchanged.
fn check_taken(
    rt: &impl Abort,
    heap: &Refusing<Global>,
    kind: SectionKind,
    bytes: &[u8],
    text: &[u8],
    taken: usize,
) {
    for nth in 1..MOST {
        let given = outcome(heap, nth, kind, bytes, text).expect("accepted");
        if heap.is_waiting() {
            check(rt, given, taken, None);
            return;
        }
        check(rt, given, 0, Some(ReadFault::Memory));
    }
    panic!(rt; "no call was granted")
}

#[test]
fn padded() {
    let rt = crate::host::HostRuntime;
    let heap = Refusing::new(rt.alloc());
    for (kind, bytes, text) in PADDED.iter() {
        check_row(&rt, &heap, *kind, bytes, text);
    }
}

/// Minimal sections are unchanged.
#[test]
fn plain() {
    let rt = crate::host::HostRuntime;
    let heap = Refusing::new(rt.alloc());
    for (kind, bytes, _seen) in rows::ROWS.iter() {
        check_row(&rt, &heap, *kind, bytes, bytes);
    }
    for (kind, bytes, _told) in custom_rows::ROWS.iter() {
        check_row(&rt, &heap, *kind, bytes, bytes);
    }
}

#[test]
fn passive_data_of_128_bytes() {
    let rt = crate::host::HostRuntime;
    let heap = Refusing::new(rt.alloc());
    for data in DATA.iter() {
        let front = [0x84, 1, 1, 1, 0x80, 1];
        let shortest = before_data(rt.alloc(), &front, data).expect("accepted");
        check_row(&rt, &heap, SectionKind::Segments, &shortest, &shortest);
        let front = [0x86, 1, 1, 0x81, 0, 0x80, 0x81, 0];
        let padded = before_data(rt.alloc(), &front, data).expect("accepted");
        check_row(&rt, &heap, SectionKind::Segments, &padded, &shortest);
    }
}

/// Nothing is appended for bytes that are not a section.
#[test]
fn none() {
    let rt = crate::host::HostRuntime;
    let heap = Refusing::new(rt.alloc());
    for (kind, bytes, fault) in faults::ROWS.iter() {
        let given = outcome(&heap, 0, *kind, bytes, &[]).expect("accepted");
        check(&rt, given, 0, Some(*fault));
    }
}

/// Bytes after a section are left.
#[test]
fn bytes_behind() {
    let rt = crate::host::HostRuntime;
    let heap = Refusing::new(rt.alloc());
    let (kind, text) = (SectionKind::Functions, &[2, 1, 5]);
    check_taken(&rt, &heap, kind, BEFORE_BYTE, text, 3);
    let given = outcome(&heap, 0, SectionKind::Start, &[0x82, 0, 7, 0, 9], &[1, 7]).expect(
        "accepted",
    );
    check(&rt, given, 0, Some(ReadFault::SizeMismatch));
    let given = outcome(
        &heap,
        0,
        SectionKind::Start,
        &[0x82, 0, 0x87, 0, 9],
        &[1, 7],
    )
    .expect("accepted");
    check(&rt, given, 4, None);
}

#[test]
fn padding_of_what_was_written() {
    let rt = crate::host::HostRuntime;
    let mut text = Vec::new(rt.alloc());
    let mut sink = Vec::new(rt.alloc());
    let padded = [0x86, 0x00, 0x01, 0x85, 0x80, 0x80, 0x80, 0x00];
    let _items = padded_function(&mut text, 5, &padded, &mut sink).expect("accepted");
    check_bytes(&rt, &text, &[0x02, 0x01, 0x05]);
    check_bytes(&rt, &sink, &[0x02, 0x01, 0x05]);
}
