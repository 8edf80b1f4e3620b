// Written by tools/to-rust from tests/wasm_sections_tests/src/samples.rtt: change that.
// Types that several tests use.

use dolzhytik::fallible::{RefType, ValType};
use dolzhytik::fallible::{GlobalType, MemoryType, TableType, TagKind, TagType};

pub const MEMORY: MemoryType = MemoryType {
    minimum: 1,
    maximum: None,
    memory64: false,
    shared: false,
    page_size_log2: None,
};

pub const LIMITED_MEMORY: MemoryType = MemoryType {
    maximum: Some(2),
    memory64: true,
    shared: true,
    page_size_log2: Some(0),
    ..MEMORY
};

pub const TABLE: TableType = TableType {
    element_type: RefType::FUNCREF,
    table64: false,
    minimum: 128,
    maximum: None,
    shared: false,
};

pub const LIMITED_TABLE: TableType = TableType {
    table64: true,
    minimum: 1,
    maximum: Some(2),
    ..TABLE
};

pub const GLOBAL: GlobalType = GlobalType {
    val_type: ValType::I32,
    mutable: false,
    shared: false,
};

pub const SET_GLOBAL: GlobalType = GlobalType {
    val_type: ValType::I64,
    mutable: true,
    shared: true,
};

pub const TAG: TagType = TagType {
    kind: TagKind::Exception,
    func_type_idx: 3,
};
