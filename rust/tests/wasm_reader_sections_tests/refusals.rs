// Written by tools/to-rust from tests/wasm_reader_sections_tests/src/refusals.rtt: change that.
// Tests with each request for memory failing in turn: the error is `Memory`.

use crate::rows::{BEFORE_BYTE, DATA, before_data};
use crate::{custom_rows, faults, rows};
use dolzhytik::fallible::Global;
use crate::host::Abort;
use crate::test_support::{MOST, Refusing};
use dolzhytik::reader::ReadFault;
use dolzhytik::reader::{SectionKind, list_module, read_section};

/// A call of the reader.
#[derive(Clone, Copy)]
enum Question {
    Section(SectionKind),
    Module,
}

fn answer(heap: &Refusing<Global>, question: Question, bytes: &[u8]) -> Option<ReadFault> {
    match question {
        Question::Section(kind) => match read_section(heap, kind, bytes) {
            Ok(_) => None,
            Err(fault) => Some(fault),
        },
        Question::Module => match list_module(heap, bytes) {
            Ok(_) => None,
            Err((_, fault)) => Some(fault),
        },
    }
}

fn check_answer(rt: &impl Abort, given: Option<ReadFault>, expected: Option<ReadFault>) {
    assert_eq!(rt; given, expected);
}

/// Checks that the error is `Memory` if a request fails, and `expected` if none does. Returns the
/// number of the first request that was not made.
fn check(
    rt: &impl Abort,
    heap: &Refusing<Global>,
    question: Question,
    bytes: &[u8],
    expected: Option<ReadFault>,
) -> u64 {
    for nth in 1..MOST {
        heap.refuse(nth);
        let given = answer(heap, question, bytes);
        if heap.is_waiting() {
            check_answer(rt, given, expected);
            return nth;
        }
        check_answer(rt, given, Some(ReadFault::Memory));
    }
    panic!(rt; "no call was granted")
}

/// A call, the bytes, and the number of requests.
type Row = (Question, &'static [u8], u64);

static ROWS: [Row; 44] = [
    (Question::Section(SectionKind::Functions), &[2, 1, 5], 1),
    (
        Question::Section(SectionKind::Bodies),
        &[8, 1, 6, 1, 1, 0x7F, 0x20, 0, 0x0B],
        4,
    ),
    (
        Question::Section(SectionKind::Segments),
        &[7, 1, 2, 3, 65, 1, 11, 0],
        3,
    ),
    (
        Question::Section(SectionKind::Elements),
        &[7, 1, 0, 65, 0, 11, 1, 9],
        4,
    ),
    (
        Question::Section(SectionKind::Exports),
        b"\x07\x01\x03foo\x00\x00",
        1,
    ),
    (
        Question::Section(SectionKind::Globals),
        &[6, 1, 127, 0, 65, 42, 11],
        3,
    ),
    (
        Question::Section(SectionKind::Imports),
        &[10, 1, 1, 109, 0, 127, 1, 1, 97, 0, 0],
        2,
    ),
    (
        Question::Section(SectionKind::Imports),
        &[12, 1, 1, 109, 0, 126, 0, 0, 2, 1, 97, 1, 98],
        2,
    ),
    (
        Question::Section(SectionKind::Memories),
        &[5, 1, 15, 1, 2, 0],
        1,
    ),
    (
        Question::Section(SectionKind::Tables),
        &[9, 1, 64, 0, 112, 0, 0, 208, 112, 11],
        3,
    ),
    (Question::Section(SectionKind::Tags), &[3, 1, 0, 3], 1),
    (Question::Section(SectionKind::Start), &[1, 7], 0),
    (Question::Section(SectionKind::DataCount), &[1, 7], 0),
    (
        Question::Section(SectionKind::Names),
        b"\x09\x04name\x00\x02\x01m",
        1,
    ),
    (
        Question::Section(SectionKind::Names),
        b"\x0B\x04name\x0B\x04\x01\x00\x01t",
        2,
    ),
    (
        Question::Section(SectionKind::Names),
        b"\x0D\x04name\x02\x06\x01\x00\x01\x01\x01x",
        3,
    ),
    (
        Question::Section(SectionKind::Linking),
        b"\x0F\x07linking\x02\x08\x04\x01\x00\x10\x00",
        2,
    ),
    (
        Question::Section(SectionKind::Producers),
        b"\x15\x09producers\x01\x03sdk\x01\x02em\x013",
        2,
    ),
    (
        Question::Section(SectionKind::Hints),
        b"\x20\x19metadata.code.branch_hint\x01\x00\x01\x03\x01\x01",
        2,
    ),
    (
        Question::Section(SectionKind::InstructionFrequencies),
        b"\x1F\x18metadata.code.instr_freq\x01\x07\x01\x03\x01\x20",
        2,
    ),
    (
        Question::Section(SectionKind::CompilationOrders),
        b"\x26\x1Fmetadata.code.compilation_order\x01\x07\x01\x00\x01\x01",
        2,
    ),
    (
        Question::Section(SectionKind::CallTargets),
        b"\x22\x1Ametadata.code.call_targets\x01\x07\x01\x03\x02\x09\x5A",
        3,
    ),
    (
        Question::Section(SectionKind::Core),
        b"\x0B\x04core\x00\x04test",
        0,
    ),
    (
        Question::Section(SectionKind::CoreModules),
        b"\x19\x0Bcoremodules\x02\x00\x04mod1\x00\x04mod2",
        1,
    ),
    (
        Question::Section(SectionKind::CoreInstances),
        b"\x15\x0Dcoreinstances\x01\x00\x00\x01\x2A\x01\x11",
        3,
    ),
    (
        Question::Section(SectionKind::CoreStack),
        b"\x1B\x09corestack\x00\x04main\x01\x00\x00\x2A\x33\x01\x7F\x01\x01\x7F\x02",
        3,
    ),
    (
        Question::Section(SectionKind::TargetFeatures),
        b"\x17\x0Ftarget_features\x02+\x01a-\x01b",
        1,
    ),
    (
        Question::Section(SectionKind::SourceMappingUrl),
        b"\x17\x10sourceMappingURL\x05a.map",
        0,
    ),
    (
        Question::Section(SectionKind::ExternalDebugInfo),
        b"\x16\x13external_debug_info\x01d",
        0,
    ),
    (
        Question::Section(SectionKind::BuildId),
        b"\x0C\x08build_id\x02\x12\x34",
        0,
    ),
    (
        Question::Section(SectionKind::Dylink),
        b"\x10\x08dylink.0\x01\x05\xAC\x02\x04\x05\x00",
        1,
    ),
    (
        Question::Section(SectionKind::Dylink),
        b"\x13\x08dylink.0\x04\x08\x01\x03env\x01g\x10",
        2,
    ),
    (
        Question::Section(SectionKind::Relocations),
        b"\x15\x0Areloc.CODE\x03\x02\x00\x04\x00\x03\xAC\x02\x01\x7F",
        1,
    ),
    (Question::Section(SectionKind::Custom), &[1, 0], 0),
    (Question::Section(SectionKind::Raw), &[1, 0], 0),
    (
        Question::Section(SectionKind::Types),
        &[7, 1, 0x60, 2, 0x7F, 0x7E, 1, 0x7D],
        3,
    ),
    (
        Question::Section(SectionKind::Types),
        &[8, 1, 0x4E, 1, 0x50, 1, 3, 0x5D, 1],
        3,
    ),
    (Question::Module, b"\0asm\x01\0\0\0\x03\x02\x01\x05", 1),
    (
        Question::Module,
        b"\0asm\x01\0\0\0\x0A\x06\x01\x04\x00\x20\x00\x0B",
        1,
    ),
    // A listing allocates for its lines only: labels, elements of both kinds, an initializer, an
    // offset and a group of imports are not kept.
    (
        Question::Module,
        b"\0asm\x01\0\0\0\x0A\x0C\x01\x0A\x01\x01\x7F\x0E\x03\x00\x00\x00\x00\x0B",
        1,
    ),
    (
        Question::Module,
        b"\0asm\x01\0\0\0\x09\x12\x02\x00\x41\x00\x0B\x03\x00\x00\x00\x05\x70\x02\xD2\x00\x0B\xD2\x00\x0B",
        1,
    ),
    (
        Question::Module,
        b"\0asm\x01\0\0\0\x04\x09\x01\x40\x00\x70\x00\x00\xD0\x70\x0B",
        1,
    ),
    (
        Question::Module,
        b"\0asm\x01\0\0\0\x06\x06\x01\x7F\x00\x41\x00\x0B\x0B\x06\x01\x00\x41\x00\x0B\x00",
        1,
    ),
    (
        Question::Module,
        b"\0asm\x01\0\0\0\x02\x0E\x01\x01m\x00\x7F\x02\x01a\x00\x00\x01b\x00\x00",
        1,
    ),
];

#[test]
fn requests() {
    let rt = crate::host::HostRuntime;
    let heap = Refusing::new(rt.alloc());
    for (question, bytes, requests) in ROWS.iter() {
        let first = check(&rt, &heap, *question, bytes, None);
        assert_eq!(rt; first, requests.saturating_add(1));
    }
}

/// Each section that other tests decode with ample memory.
#[test]
fn sections_with_requests() {
    let rt = crate::host::HostRuntime;
    let heap = Refusing::new(rt.alloc());
    for (kind, bytes, _seen) in rows::ROWS.iter().chain(rows::PADDED.iter()) {
        let _first = check(&rt, &heap, Question::Section(*kind), bytes, None);
    }
    for (kind, bytes, _told) in custom_rows::ROWS.iter().chain(custom_rows::PADDED.iter()) {
        let _first = check(&rt, &heap, Question::Section(*kind), bytes, None);
    }
    let functions = Question::Section(SectionKind::Functions);
    let _first = check(&rt, &heap, functions, BEFORE_BYTE, None);
    for data in DATA.iter() {
        let front = [0x84, 1, 1, 1, 0x80, 1];
        let section = before_data(rt.alloc(), &front, data).expect("accepted");
        let segments = Question::Section(SectionKind::Segments);
        let _first = check(&rt, &heap, segments, &section, None);
    }
}

/// The same for bytes that are not a section.
#[test]
fn faults_with_requests() {
    let rt = crate::host::HostRuntime;
    let heap = Refusing::new(rt.alloc());
    for (kind, bytes, fault) in faults::ROWS.iter() {
        let _first = check(&rt, &heap, Question::Section(*kind), bytes, Some(*fault));
    }
}
