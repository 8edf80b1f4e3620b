// Written by tools/to-rust from tests/wasm_reader_sections_tests/src/faults.rtt: change that.
// Tests of bytes that are not a section of their kind, and their errors.

use dolzhytik::fallible::Global;
use crate::host::Abort;
use dolzhytik::reader::ReadFault;
use dolzhytik::reader::{SectionKind, read_section};

/// Checks that decoding fails with this cause.
fn check(rt: &impl Abort, alloc: Global, kind: SectionKind, bytes: &[u8], expected: ReadFault) {
    let fault = match read_section(alloc, kind, bytes) {
        Ok(_) => None,
        Err(fault) => Some(fault),
    };
    assert_eq!(rt; fault, Some(expected));
}

/// A kind, bytes that are not a section of it, and the error.
pub(crate) type Row = (SectionKind, &'static [u8], ReadFault);

pub(crate) static ROWS: [Row; 58] = [
    (
        SectionKind::Types,
        &[5, 1, 0x4F, 0, 0x5F, 0],
        ReadFault::UnknownTag,
    ),
    (SectionKind::Types, &[3, 1, 0x60, 1, 0x7F], ReadFault::Ended),
    (
        SectionKind::Functions,
        &[5, 255, 255, 255, 255, 15],
        ReadFault::Ended,
    ),
    (
        SectionKind::Functions,
        &[6, 1, 255, 255, 255, 255, 31],
        ReadFault::TooLarge,
    ),
    (
        SectionKind::Functions,
        &[3, 1, 0, 0],
        ReadFault::SizeMismatch,
    ),
    (
        SectionKind::Functions,
        &[7, 1, 128, 128, 128, 128, 128, 0],
        ReadFault::TooLarge,
    ),
    (SectionKind::Functions, &[3, 1, 5], ReadFault::Ended),
    (SectionKind::Tags, &[3, 1, 1, 0], ReadFault::UnknownTag),
    (
        SectionKind::Bodies,
        &[4, 1, 2, 0, 0x16],
        ReadFault::UnknownOpcode,
    ),
    (
        SectionKind::Bodies,
        &[6, 1, 4, 0, 40, 16, 0],
        ReadFault::Ended,
    ),
    (
        SectionKind::Exports,
        &[5, 1, 1, 255, 0, 0],
        ReadFault::NotUtf8,
    ),
    (
        SectionKind::Globals,
        &[0x0A, 1, 0x7F, 0, 0x41, 0x80, 0x80, 0x80, 0x80, 0x70, 0x0B],
        ReadFault::TooLarge,
    ),
    (
        SectionKind::Globals,
        &[9, 1, 127, 0, 65, 1, 11, 65, 2, 11],
        ReadFault::SizeMismatch,
    ),
    (
        SectionKind::Globals,
        &[6, 1, 127, 4, 65, 42, 11],
        ReadFault::UnknownTag,
    ),
    (
        SectionKind::Segments,
        &[8, 1, 2, 0, 65, 0, 11, 1, 9],
        ReadFault::UnknownTag,
    ),
    (SectionKind::Segments, &[3, 1, 3, 0], ReadFault::UnknownTag),
    (SectionKind::Elements, &[2, 1, 8], ReadFault::UnknownTag),
    (
        SectionKind::Elements,
        &[4, 1, 1, 1, 0],
        ReadFault::UnknownTag,
    ),
    (
        SectionKind::Tables,
        &[4, 1, 112, 8, 0],
        ReadFault::UnknownTag,
    ),
    (SectionKind::Tables, &[3, 1, 64, 1], ReadFault::UnknownTag),
    (SectionKind::Memories, &[3, 1, 16, 0], ReadFault::UnknownTag),
    (
        SectionKind::Imports,
        &[5, 1, 0, 0, 5, 0],
        ReadFault::UnknownTag,
    ),
    (
        SectionKind::Imports,
        &[5, 1, 0, 0, 128, 0],
        ReadFault::UnknownTag,
    ),
    (SectionKind::Custom, &[2, 2, 97], ReadFault::Ended),
    (SectionKind::Start, &[2, 0, 0], ReadFault::SizeMismatch),
    (
        SectionKind::Names,
        b"\x09\x04nama\x00\x02\x01m",
        ReadFault::UnknownTag,
    ),
    (
        SectionKind::Names,
        b"\x0A\x04name\x00\x03\x01m\x00",
        ReadFault::SizeMismatch,
    ),
    (SectionKind::Names, b"\x06\x04name\x00", ReadFault::Ended),
    (
        SectionKind::Linking,
        b"\x0F\x07linking\x02\x08\x04\x01\x00\x00\x01",
        ReadFault::Ended,
    ),
    (
        SectionKind::Linking,
        b"\x09\x07linking\x01",
        ReadFault::UnknownTag,
    ),
    (
        SectionKind::Linking,
        b"\x0B\x07linking\x02\x05\x00",
        ReadFault::UnknownTag,
    ),
    (
        SectionKind::Linking,
        b"\x11\x07linking\x02\x08\x06\x01\x00\x10\x00\x01f",
        ReadFault::SizeMismatch,
    ),
    (
        SectionKind::Linking,
        b"\x0F\x07linking\x02\x08\x04\x01\x03\x10\x00",
        ReadFault::UnknownTag,
    ),
    (
        SectionKind::Producers,
        b"\x0C\x09producers\x00\x00",
        ReadFault::SizeMismatch,
    ),
    (
        SectionKind::Hints,
        b"\x21\x19metadata.code.branch_hint\x01\x00\x01\x03\x01\x80\x01",
        ReadFault::TooLarge,
    ),
    (
        SectionKind::Hints,
        b"\x20\x19metadata.code.branch_hint\x01\x00\x01\x03\x02\x01",
        ReadFault::UnknownTag,
    ),
    (
        SectionKind::InstructionFrequencies,
        b"\x20\x18metadata.code.instr_freq\x01\x07\x01\x03\x02\x20\x20",
        ReadFault::SizeMismatch,
    ),
    (
        SectionKind::CompilationOrders,
        b"\x25\x1Fmetadata.code.compilation_order\x01\x07\x01\x00\x00",
        ReadFault::Ended,
    ),
    (
        SectionKind::CallTargets,
        b"\x21\x1Ametadata.code.call_targets\x01\x07\x01\x03\x01\x09",
        ReadFault::Ended,
    ),
    (
        SectionKind::Core,
        b"\x0B\x04core\x01\x04test",
        ReadFault::UnknownTag,
    ),
    (
        SectionKind::Core,
        b"\x0C\x04core\x00\x04test\x00",
        ReadFault::SizeMismatch,
    ),
    (
        SectionKind::CoreModules,
        b"\x10\x0Bcoremodules\x01\x01\x01m",
        ReadFault::UnknownTag,
    ),
    (
        SectionKind::CoreInstances,
        b"\x15\x0Dcoreinstances\x01\x01\x00\x01\x2A\x01\x11",
        ReadFault::UnknownTag,
    ),
    (
        SectionKind::CoreStack,
        b"\x1B\x09corestack\x00\x04main\x01\x00\x00\x2A\x33\x01\x7F\x01\x01\x02\x02",
        ReadFault::UnknownTag,
    ),
    (
        SectionKind::CoreStack,
        b"\x10\x09corestack\x00\x04main",
        ReadFault::Ended,
    ),
    (
        SectionKind::TargetFeatures,
        b"\x14\x0Ftarget_features\x01!\x01a",
        ReadFault::UnknownTag,
    ),
    (
        SectionKind::TargetFeatures,
        b"\x14\x0Ftarget_features\x02+\x01a",
        ReadFault::Ended,
    ),
    (
        SectionKind::TargetFeatures,
        b"\x15\x0Ftarget_features\x01+\x01a\x00",
        ReadFault::SizeMismatch,
    ),
    (
        SectionKind::SourceMappingUrl,
        b"\x13\x10sourceMappingURL\x01\xFF",
        ReadFault::NotUtf8,
    ),
    (
        SectionKind::ExternalDebugInfo,
        b"\x17\x13external_debug_info\x01dx",
        ReadFault::SizeMismatch,
    ),
    (
        SectionKind::BuildId,
        b"\x0B\x08build_id\x02\x12",
        ReadFault::Ended,
    ),
    (
        SectionKind::Dylink,
        b"\x0B\x08dylink.0\x06\x00",
        ReadFault::UnknownTag,
    ),
    (
        SectionKind::Dylink,
        b"\x10\x08dylink.0\x01\x05\x01\x02\x03\x04\x05",
        ReadFault::SizeMismatch,
    ),
    (
        SectionKind::Dylink,
        b"\x0D\x08dylink.0\x02\x02\x02\x00",
        ReadFault::Ended,
    ),
    (
        SectionKind::Relocations,
        b"\x08\x05reloc\x03\x00",
        ReadFault::UnknownTag,
    ),
    (
        SectionKind::Relocations,
        b"\x10\x0Areloc.CODE\x03\x01\x1B\x00\x00",
        ReadFault::UnknownTag,
    ),
    (
        SectionKind::Relocations,
        b"\x15\x0Areloc.CODE\x03\x01\x03\x00\x00\x80\x80\x80\x80\x08",
        ReadFault::TooLarge,
    ),
    (
        SectionKind::Relocations,
        b"\x0E\x0Areloc.CODE\x03\x00\x00",
        ReadFault::SizeMismatch,
    ),
];

#[test]
fn faults() {
    let rt = crate::host::HostRuntime;
    for (kind, bytes, fault) in ROWS.iter() {
        check(&rt, rt.alloc(), *kind, bytes, *fault);
    }
}
