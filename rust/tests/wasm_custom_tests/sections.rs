// Written by tools/to-rust from tests/wasm_custom_tests/src/sections.rtt: change that.
// Tests of custom sections, linking, producers, target features and hints: each call once, with
// ample memory.

use dolzhytik::fallible::{Vec, String};
use crate::checks::{check, check_len, check_text, check_that};
use dolzhytik::fallible::Global;
use crate::host::Abort;
use dolzhytik::fallible::{CowSlice, CowStr, Result};
use dolzhytik::fallible::{BranchHint, BranchHints, BuildId, CustomSection, DataSymbolDefinition, DylinkExports, DylinkImports, DylinkMemory, DylinkNeeded, DylinkPath, DylinkSection, ExternalDebugInfo, FeaturePrefix, LinkingSection, ProducersField, ProducersSection, RawCustomSection, SourceMappingUrl, SymbolTable, TargetFeaturesSection};
use dolzhytik::fallible::laws::custom as laws;

const TEST: CustomSection<'static> = CustomSection {
    name: CowStr::Borrowed("test"),
    bytes: CowSlice::Borrowed(&[11, 22, 33, 44]),
};

#[test]
fn custom() {
    let rt = crate::host::HostRuntime;
    check(&rt, rt.alloc(), &TEST, b"\x09\x04test\x0B\x16\x21\x2C");
    let empty: CustomSection<'_> = CustomSection {
        name: CowStr::Borrowed(""),
        bytes: CowSlice::Borrowed(&[]),
    };
    check(&rt, rt.alloc(), &empty, &[1, 0]);
    check(&rt, rt.alloc(), &RawCustomSection(&[2, 0, 9]), &[2, 0, 9])
}

/// Returns a custom section whose name and data are owned.
fn owned(alloc: Global, name: &str, bytes: &[u8]) -> Result<CustomSection<'static>> {
    Ok(CustomSection {
        name: CowStr::Owned(String::from_str(alloc, name)?),
        bytes: CowSlice::Owned(Vec::from_slice(alloc, bytes)?),
    })
}

#[test]
fn equal_custom_sections() {
    let rt = crate::host::HostRuntime;
    let section = owned(rt.alloc(), "test", &[11, 22, 33, 44]).expect("accepted");
    check_that(&rt, section == TEST);
    check_that(&rt, section.clone().expect("accepted") == section);
    check(&rt, rt.alloc(), &section, b"\x09\x04test\x0B\x16\x21\x2C")
}

#[test]
fn unequal_custom_sections() {
    let rt = crate::host::HostRuntime;
    let section = owned(rt.alloc(), "tes", &[11, 22, 33, 44]).expect("accepted");
    check_that(&rt, section != TEST);
    let section = owned(rt.alloc(), "test", &[11, 22, 33]).expect("accepted");
    check_that(&rt, section != TEST);
}

/// Checks that the linking section of this table encodes to these bytes.
fn check_table(rt: &impl Abort, alloc: Global, symbols: &SymbolTable, expected: &[u8]) {
    let mut section = LinkingSection::new(alloc);
    section.symbol_table(symbols).expect("accepted");
    check(rt, alloc, &section, expected)
}

#[test]
fn linking() {
    let rt = crate::host::HostRuntime;
    let mut section = LinkingSection::new(rt.alloc());
    check_len(&rt, section.len(), section.is_empty(), 0);
    check(&rt, rt.alloc(), &section, b"\x09\x07linking\x02");
    section.target_arch("wasm32").expect("accepted");
    check_len(&rt, section.len(), section.is_empty(), 1);
    check(
        &rt,
        rt.alloc(),
        &section.clone().expect("accepted"),
        b"\x12\x07linking\x02\x09\x07\x06wasm32",
    )
}

#[test]
fn function_symbols() {
    let rt = crate::host::HostRuntime;
    let mut symbols = SymbolTable::new(rt.alloc());
    symbols
        .function(0x22, 42, Some("my_exported_func"))
        .expect("accepted");
    check_table(
        &rt,
        rt.alloc(),
        &symbols,
        b"\x20\x07linking\x02\x08\x15\x01\x00\x22\x2A\x10my_exported_func",
    );
    let mut symbols = SymbolTable::new(rt.alloc());
    symbols
        .function(SymbolTable::WASM_SYM_UNDEFINED, 0, None)
        .expect("accepted");
    check_table(
        &rt,
        rt.alloc(),
        &symbols,
        b"\x0F\x07linking\x02\x08\x04\x01\x00\x10\x00",
    )
}

#[test]
fn function_without_name() {
    let rt = crate::host::HostRuntime;
    laws::rejections();
    let mut symbols = SymbolTable::new(rt.alloc());
    symbols.function(0, 1, None).expect("accepted");
    check_table(
        &rt,
        rt.alloc(),
        &symbols,
        b"\x0F\x07linking\x02\x08\x04\x01\x00\x00\x01",
    )
}

#[test]
fn globals_and_tables() {
    let rt = crate::host::HostRuntime;
    let mut symbols = SymbolTable::new(rt.alloc());
    check_len(&rt, symbols.len(), symbols.is_empty(), 0);
    symbols.global(0x10, 1, None).expect("accepted");
    symbols.table(0x80, 2, Some("t")).expect("accepted");
    check_len(&rt, symbols.len(), symbols.is_empty(), 2);
    check_text(
        &rt,
        rt.alloc(),
        &symbols.clone().expect("accepted"),
        b"\x08\x0A\x02\x02\x10\x01\x05\x80\x01\x02\x01t",
    )
}

#[test]
fn table_is_a_subsection() {
    let rt = crate::host::HostRuntime;
    let mut symbols = SymbolTable::new(rt.alloc());
    check_text(&rt, rt.alloc(), &symbols, &[8, 1, 0]);
    symbols.function(0, 1, Some("f")).expect("accepted");
    check_text(&rt, rt.alloc(), &symbols, b"\x08\x06\x01\x00\x00\x01\x01f")
}

const DEFINITION: DataSymbolDefinition = DataSymbolDefinition {
    index: 1,
    offset: 2,
    size: 3,
};

#[test]
fn data_symbols() {
    let rt = crate::host::HostRuntime;
    check_text(&rt, rt.alloc(), &DEFINITION, &[1, 2, 3]);
    let mut symbols = SymbolTable::new(rt.alloc());
    symbols
        .data(0, "d", Some(DEFINITION))
        .expect("accepted");
    check_table(
        &rt,
        rt.alloc(),
        &symbols,
        b"\x13\x07linking\x02\x08\x08\x01\x01\x00\x01d\x01\x02\x03",
    );
    let mut symbols = SymbolTable::new(rt.alloc());
    symbols.data(0x10, "d", None).expect("accepted");
    check_text(&rt, rt.alloc(), &symbols, b"\x08\x05\x01\x01\x10\x01d")
}

/// Checks the numbers of the flags of symbols.
fn check_flags(rt: &impl Abort, flags: [u32; 7], expected: [u32; 7]) {
    assert_eq!(rt; flags, expected);
}

#[test]
fn flags() {
    let rt = crate::host::HostRuntime;
    let flags = [
        SymbolTable::WASM_SYM_BINDING_WEAK,
        SymbolTable::WASM_SYM_BINDING_LOCAL,
        SymbolTable::WASM_SYM_VISIBILITY_HIDDEN,
        SymbolTable::WASM_SYM_UNDEFINED,
        SymbolTable::WASM_SYM_EXPORTED,
        SymbolTable::WASM_SYM_EXPLICIT_NAME,
        SymbolTable::WASM_SYM_NO_STRIP,
    ];
    check_flags(&rt, flags, [0x1, 0x2, 0x4, 0x10, 0x20, 0x40, 0x80]);
}

#[test]
fn producers() {
    let rt = crate::host::HostRuntime;
    let mut field = ProducersField::new(rt.alloc());
    check_len(&rt, field.len(), field.is_empty(), 0);
    field.value("clang", "14.0.4").expect("accepted");
    field.value("rustc", "1.66.1").expect("accepted");
    check_len(&rt, field.len(), field.is_empty(), 2);
    let mut section = ProducersSection::new(rt.alloc());
    section
        .field("processed-by", &field.clone().expect("accepted"))
        .expect("accepted");
    check_len(&rt, section.len(), section.is_empty(), 1);
    check(
        &rt,
        rt.alloc(),
        &section.clone().expect("accepted"),
        b"\x33\x09producers\x01\x0Cprocessed-by\x02\x05clang\x0614.0.4\x05rustc\x061.66.1",
    )
}

#[test]
fn target_features() {
    let rt = crate::host::HostRuntime;
    let mut section = TargetFeaturesSection::new(rt.alloc());
    check_len(&rt, section.len(), section.is_empty(), 0);
    section
        .feature(FeaturePrefix::Used, "atomics")
        .expect("accepted");
    section
        .feature(FeaturePrefix::Disallowed, "simd128")
        .expect("accepted");
    section
        .feature(FeaturePrefix::Required, "")
        .expect("accepted");
    check_len(&rt, section.len(), section.is_empty(), 3);
    check(
        &rt,
        rt.alloc(),
        &section.clone().expect("accepted"),
        b"\x25\x0Ftarget_features\x03+\x07atomics-\x07simd128=\x00",
    )
}

#[test]
fn dylink() {
    let rt = crate::host::HostRuntime;
    let alloc = rt.alloc();
    let mut needed = DylinkNeeded::new(alloc);
    needed.library("a.so").expect("accepted");
    let mut exports = DylinkExports::new(alloc);
    exports.export("f", 1).expect("accepted");
    let mut imports = DylinkImports::new(alloc);
    imports.import("env", "g", 16).expect("accepted");
    let mut folders = DylinkPath::new(alloc);
    folders.folder("/l").expect("accepted");
    let mut section = DylinkSection::new(alloc);
    let memory = DylinkMemory {
        memory_size: 300,
        memory_alignment: 4,
        table_size: 5,
        table_alignment: 0,
    };
    section.memory(memory).expect("accepted");
    section.needed(&needed).expect("accepted");
    section.exports(&exports).expect("accepted");
    section.imports(&imports).expect("accepted");
    section.runtime_path(&folders).expect("accepted");
    check_len(&rt, section.len(), section.is_empty(), 5);
    check(
        &rt,
        alloc,
        &section,
        b"\x2E\x08dylink.0\
        \x01\x05\xAC\x02\x04\x05\x00\
        \x02\x06\x01\x04a.so\
        \x03\x04\x01\x01f\x01\
        \x04\x08\x01\x03env\x01g\x10\
        \x05\x04\x01\x02/l",
    )
}

#[test]
fn debug_files() {
    let rt = crate::host::HostRuntime;
    check(
        &rt,
        rt.alloc(),
        &SourceMappingUrl("a.map"),
        b"\x17\x10sourceMappingURL\x05a.map",
    );
    check(
        &rt,
        rt.alloc(),
        &ExternalDebugInfo("d"),
        b"\x16\x13external_debug_info\x01d",
    );
    check(
        &rt,
        rt.alloc(),
        &BuildId(&[0x12, 0x34]),
        b"\x0C\x08build_id\x02\x12\x34",
    );
    check(&rt, rt.alloc(), &BuildId(&[]), b"\x0A\x08build_id\x00")
}

/// Checks that a section of one hint encodes to these bytes.
fn check_hint(rt: &impl Abort, alloc: Global, value: u32, expected: &[u8]) {
    let hint = BranchHint {
        branch_func_offset: 3,
        branch_hint_value: value,
    };
    let mut section = BranchHints::new(alloc);
    section.function_hints(0, [hint]).expect("accepted");
    check_len(rt, section.len(), section.is_empty(), 1);
    check(rt, alloc, &section, expected)
}

#[test]
fn hints() {
    let rt = crate::host::HostRuntime;
    let section = BranchHints::new(rt.alloc());
    check_len(&rt, section.len(), section.is_empty(), 0);
    check_hint(
        &rt,
        rt.alloc(),
        1,
        b"\x20\x19metadata.code.branch_hint\x01\x00\x01\x03\x01\x01",
    );
    check_hint(
        &rt,
        rt.alloc(),
        128,
        b"\x21\x19metadata.code.branch_hint\x01\x00\x01\x03\x01\x80\x01",
    )
}

#[test]
fn single_hint() {
    let rt = crate::host::HostRuntime;
    laws::sections();
    laws::padded();
    laws::calls();
    laws::padded_calls();
    laws::payloads();
    laws::padded_payloads();
    let hint = BranchHint {
        branch_func_offset: 300,
        branch_hint_value: 0,
    };
    check_text(&rt, rt.alloc(), &hint, &[0xAC, 0x02, 1, 0])
}
