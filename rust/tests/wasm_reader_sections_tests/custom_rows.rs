// Written by tools/to-rust from tests/wasm_reader_sections_tests/src/custom_rows.rtt: change that.
// Tests of custom sections that decode to their items, with ample memory.

use crate::custom_seen::{Told, Value, read};
use dolzhytik::fallible::Global;
use crate::host::Abort;
use dolzhytik::fallible::{Addend32Relocation, Addend64Relocation, FeaturePrefix, PlainRelocation, Relocation};
use dolzhytik::reader::SectionKind;

/// A kind, a section of it, and the decoded items.
pub(crate) type Row = (SectionKind, &'static [u8], Told<'static>);

/// Sections of minimal numbers.
pub(crate) static ROWS: [Row; 44] = [
    (
        SectionKind::Names,
        b"\x09\x04name\x00\x02\x01m",
        Told::Module("m"),
    ),
    (
        SectionKind::Names,
        b"\x0B\x04name\x0B\x04\x01\x00\x01t",
        Told::Named(11, 0, "t"),
    ),
    (
        SectionKind::Names,
        b"\x0E\x04name\x01\x07\x02\x00\x01f\x02\x01g",
        Told::NamedTwice((0, "f"), (2, "g")),
    ),
    (
        SectionKind::Names,
        b"\x0D\x04name\x02\x06\x01\x00\x01\x01\x01x",
        Told::Inside(2, 0, 1, "x"),
    ),
    (
        SectionKind::Names,
        b"\x0D\x04name\x0D\x06\x01\x00\x01\x01\x01x",
        Told::Inside(13, 0, 1, "x"),
    ),
    (
        SectionKind::Names,
        b"\x08\x04name\x14\x01\x09",
        Told::Other(20, &[9]),
    ),
    (SectionKind::Names, b"\x05\x04name", Told::Nothing),
    (SectionKind::Linking, b"\x09\x07linking\x02", Told::Nothing),
    (
        SectionKind::Linking,
        b"\x20\x07linking\x02\x08\x15\x01\x00\x22\x2A\x10my_exported_func",
        Told::Function(0x22, 42, Some("my_exported_func")),
    ),
    (
        SectionKind::Linking,
        b"\x0F\x07linking\x02\x08\x04\x01\x00\x10\x00",
        Told::Function(0x10, 0, None),
    ),
    (
        SectionKind::Linking,
        b"\x11\x07linking\x02\x08\x06\x01\x02\x50\x03\x01g",
        Told::Global(0x50, 3, Some("g")),
    ),
    (
        SectionKind::Linking,
        b"\x11\x07linking\x02\x08\x06\x01\x05\x00\x01\x01t",
        Told::Table(0, 1, Some("t")),
    ),
    (
        SectionKind::Linking,
        b"\x12\x07linking\x02\x09\x07\x06wasm32",
        Told::Arch("wasm32"),
    ),
    (
        SectionKind::Linking,
        b"\x13\x07linking\x02\x08\x08\x01\x01\x00\x01d\x01\x02\x03",
        Told::Data(0, "d", Some((1, 2, 3))),
    ),
    (
        SectionKind::Linking,
        b"\x10\x07linking\x02\x08\x05\x01\x01\x10\x01d",
        Told::Data(0x10, "d", None),
    ),
    (
        SectionKind::Linking,
        b"\x0C\x07linking\x02\x08\x01\x00",
        Told::Symbols(0),
    ),
    (
        SectionKind::Producers,
        b"\x33\x09producers\x01\x0Cprocessed-by\x02\x05clang\x0614.0.4\x05rustc\x061.66.1",
        Told::Field("processed-by", ("clang", "14.0.4"), ("rustc", "1.66.1")),
    ),
    (
        SectionKind::Hints,
        b"\x20\x19metadata.code.branch_hint\x01\x00\x01\x03\x01\x01",
        Told::Hint(0, 3, 1),
    ),
    (
        SectionKind::Core,
        b"\x0B\x04core\x00\x04test",
        Told::Process("test"),
    ),
    (
        SectionKind::CoreModules,
        b"\x19\x0Bcoremodules\x02\x00\x04mod1\x00\x04mod2",
        Told::Modules("mod1", "mod2"),
    ),
    (
        SectionKind::CoreInstances,
        b"\x15\x0Dcoreinstances\x01\x00\x00\x01\x2A\x01\x11",
        Told::Instance(0, 42, 17),
    ),
    (
        SectionKind::CoreStack,
        b"\x1B\x09corestack\x00\x04main\x01\x00\x00\x2A\x33\x01\x7F\x01\x01\x7F\x02",
        Told::Frame("main", (0, 42, 51), Value::I32(1), Value::I32(2)),
    ),
    (
        SectionKind::CoreStack,
        b"\x1D\x09corestack\x00\x04main\x01\x00\x00\x2A\x33\x01\x01\x01\x7D\x01\x00\x00\x00",
        Told::Frame("main", (0, 42, 51), Value::Missing, Value::F32(1)),
    ),
    (
        SectionKind::CoreStack,
        b"\x22\x09corestack\x00\x04main\x01\x00\x00\x2A\x33\x01\x7E\x7F\x01\x7C\x01\x00\x00\x00\x00\x00\x00\x00",
        Told::Frame("main", (0, 42, 51), Value::I64(-1), Value::F64(1)),
    ),
    (
        SectionKind::CoreStack,
        b"\x11\x09corestack\x00\x04main\x00",
        Told::Process("main"),
    ),
    (
        SectionKind::InstructionFrequencies,
        b"\x1F\x18metadata.code.instr_freq\x01\x07\x01\x03\x01\x20",
        Told::Frequency(7, 3, 32),
    ),
    (
        SectionKind::CompilationOrders,
        b"\x26\x1Fmetadata.code.compilation_order\x01\x07\x01\x00\x01\x01",
        Told::Order(7, 0, 1, None),
    ),
    (
        SectionKind::CompilationOrders,
        b"\x28\x1Fmetadata.code.compilation_order\x01\x07\x01\x00\x03\x01\xAC\x02",
        Told::Order(7, 0, 1, Some(300)),
    ),
    (
        SectionKind::CallTargets,
        b"\x22\x1Ametadata.code.call_targets\x01\x07\x01\x03\x02\x09\x5A",
        Told::Target(7, 3, 9, 90),
    ),
    (
        SectionKind::Hints,
        b"\x20\x19metadata.code.branch_hint\x01\x00\x01\x03\x01\x7F",
        Told::Hint(0, 3, 127),
    ),
    (
        SectionKind::TargetFeatures,
        b"\x25\x0Ftarget_features\x03+\x07atomics-\x07simd128=\x00",
        Told::Features(
            (FeaturePrefix::Used, "atomics"),
            (FeaturePrefix::Disallowed, "simd128"),
            (FeaturePrefix::Required, ""),
        ),
    ),
    (
        SectionKind::TargetFeatures,
        b"\x11\x0Ftarget_features\x00",
        Told::Nothing,
    ),
    (
        SectionKind::SourceMappingUrl,
        b"\x17\x10sourceMappingURL\x05a.map",
        Told::Url("a.map"),
    ),
    (
        SectionKind::ExternalDebugInfo,
        b"\x16\x13external_debug_info\x01d",
        Told::Path("d"),
    ),
    (
        SectionKind::BuildId,
        b"\x0C\x08build_id\x02\x12\x34",
        Told::Build(&[0x12, 0x34]),
    ),
    (
        SectionKind::Dylink,
        b"\x10\x08dylink.0\x01\x05\xAC\x02\x04\x05\x00",
        Told::Memory(300, 4, 5, 0),
    ),
    (
        SectionKind::Dylink,
        b"\x11\x08dylink.0\x02\x06\x01\x04a.so",
        Told::Needed("a.so"),
    ),
    (
        SectionKind::Dylink,
        b"\x0F\x08dylink.0\x03\x04\x01\x01f\x01",
        Told::Export("f", 1),
    ),
    (
        SectionKind::Dylink,
        b"\x13\x08dylink.0\x04\x08\x01\x03env\x01g\x10",
        Told::Import("env", "g", 16),
    ),
    (
        SectionKind::Dylink,
        b"\x0F\x08dylink.0\x05\x04\x01\x02/l",
        Told::Folder("/l"),
    ),
    (SectionKind::Dylink, b"\x09\x08dylink.0", Told::Nothing),
    (
        SectionKind::Relocations,
        b"\x15\x0Areloc.CODE\x03\x02\x00\x04\x00\x03\xAC\x02\x01\x7F",
        Told::Relocated(
            "reloc.CODE",
            3,
            Relocation::Plain {
                kind: PlainRelocation::FunctionIndexLeb,
                offset: 4,
                index: 0,
            },
            Relocation::Addend32 {
                kind: Addend32Relocation::MemoryAddrLeb,
                offset: 300,
                index: 1,
                addend: -1,
            },
        ),
    ),
    (
        SectionKind::Relocations,
        b"\x14\x0Areloc.DATA\x0B\x02\x10\x08\x02\x78\x1A\x10\x03",
        Told::Relocated(
            "reloc.DATA",
            11,
            Relocation::Addend64 {
                kind: Addend64Relocation::MemoryAddrI64,
                offset: 8,
                index: 2,
                addend: -8,
            },
            Relocation::Plain {
                kind: PlainRelocation::FunctionIndexI32,
                offset: 16,
                index: 3,
            },
        ),
    ),
    (
        SectionKind::Relocations,
        b"\x09\x06reloc.\x00\x00",
        Told::Nothing,
    ),
];

/// Sections of padded numbers.
pub(crate) static PADDED: [Row; 2] = [
    (
        SectionKind::Names,
        b"\x8B\x80\x00\x04name\x00\x83\x00\x81\x00m",
        Told::Module("m"),
    ),
    (
        SectionKind::Linking,
        b"\x0A\x07linking\x82\x00",
        Told::Nothing,
    ),
];

/// Checks the decoded items, and the length of the section in bytes.
fn check(
    rt: &impl Abort,
    alloc: Global,
    kind: SectionKind,
    bytes: &[u8],
    expected: Told<'_>,
    taken: usize,
) {
    assert_eq!(rt; read(alloc, kind, bytes), Some((expected, taken)));
}

#[test]
fn custom_rows() {
    let rt = crate::host::HostRuntime;
    for (kind, bytes, told) in ROWS.iter() {
        check(&rt, rt.alloc(), *kind, bytes, *told, bytes.len());
    }
    for (kind, bytes, told) in PADDED.iter() {
        check(&rt, rt.alloc(), *kind, bytes, *told, bytes.len());
    }
}

/// Bytes after a section are left, even if they are a subsection themselves.
#[test]
fn subsection_behind() {
    let rt = crate::host::HostRuntime;
    let bytes: &[u8] = b"\x09\x04name\x00\x02\x01m\x01\x03\x01\x00\x00";
    check(
        &rt,
        rt.alloc(),
        SectionKind::Names,
        bytes,
        Told::Module("m"),
        10,
    );
}
