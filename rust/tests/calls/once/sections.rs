// Written by tools/to-rust from crates/calls/src/once/sections.rt: change that.
//! Items of core sections.

use dolzhytik::fallible::Allocator;
use dolzhytik::fallible::{CowSlice, RefType, Result, ValType};
use dolzhytik::fallible::laws::sections::{plain_export, plain_global, plain_table};
use dolzhytik::fallible::{DataSection, DataSegment, DataSegmentMode, ElementMode, ElementSection, ElementSegment, Elements, Export, ExportKind, GlobalType, MemoryType, TableType, TagKind, TagSection, TagType};

/// Returns a passive segment of one byte.
fn passive_byte<'a>() -> DataSegment<'a, [u8; 1]> {
    DataSegment {
        mode: DataSegmentMode::Passive,
        bytes: [7],
    }
}

/// Returns a reference to the function 7.
fn seventh<'a>() -> Elements<'a> {
    Elements::Functions(CowSlice::Borrowed(&[7]))
}

pub fn segments<A: Allocator + Copy>(alloc: A) -> Result<()> {
    let mut data = DataSection::new(alloc);
    data.segment(passive_byte())?;
    let mut elements = ElementSection::new(alloc);
    elements.declared(seventh())?;
    elements.segment(ElementSegment {
        mode: ElementMode::Passive,
        elements: seventh(),
    })?;
    Ok(())
}

pub fn types() {
    let memory = MemoryType {
        minimum: 1,
        maximum: None,
        memory64: false,
        shared: false,
        page_size_log2: None,
    };
    let _ = memory.page_size_log2();
    let _ = memory.page_size();
    let table = TableType {
        element_type: RefType::FUNCREF,
        table64: false,
        minimum: 1,
        maximum: None,
        shared: false,
    };
    let _ = table.index_type();
    plain_table(table);
    plain_global(GlobalType {
        val_type: ValType::I32,
        mutable: false,
        shared: false,
    })
}

pub fn exports() {
    let export = Export {
        name: "f",
        kind: ExportKind::Func,
        index: 0,
    };
    let _ = plain_export(&export);
}

pub fn tags<A: Allocator + Copy>(alloc: A) -> Result<()> {
    let mut section = TagSection::new(alloc);
    section.tag(TagType {
        kind: TagKind::Exception,
        func_type_idx: 0,
    })?;
    Ok(())
}
