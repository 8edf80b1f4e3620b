// Written by tools/to-rust from tests/wasm_reader_sections_tests/src/counts.rtt: change that.
// Tests of sections whose items are counted and not kept: each request for memory would fail, so
// that none is made.

use dolzhytik::fallible::Vec;
use crate::{custom_rows, faults, rows};
use dolzhytik::fallible::Global;
use crate::host::Abort;
use crate::test_support::Refusing;
use dolzhytik::fallible::Result;
use dolzhytik::reader::{ReadError, SectionKind, Sections};

/// Returns the id of a section of this kind.
fn id_of(kind: SectionKind) -> u8 {
    match kind {
        SectionKind::Types => 1,
        SectionKind::Imports => 2,
        SectionKind::Functions => 3,
        SectionKind::Tables => 4,
        SectionKind::Memories => 5,
        SectionKind::Globals => 6,
        SectionKind::Exports => 7,
        SectionKind::Start => 8,
        SectionKind::Elements => 9,
        SectionKind::Bodies => 10,
        SectionKind::Segments => 11,
        SectionKind::DataCount => 12,
        SectionKind::Tags => 13,
        SectionKind::Raw => 14,
        _ => 0,
    }
}

/// Returns a module of one section, whose size prefix and payload are these bytes.
fn module_of(alloc: Global, kind: SectionKind, sized: &[u8]) -> Result<Vec<u8>> {
    let mut module = Vec::new(alloc);
    module.extend_from_slice(b"\0asm\x01\0\0\0")?;
    module.push(id_of(kind))?;
    module.extend_from_slice(sized)?;
    Ok(module)
}

/// Counts the items of the first section, while each request for memory fails.
fn counted(
    rt: &impl Abort,
    heap: &Refusing<Global>,
    module: &[u8],
) -> Result<Option<u32>, ReadError> {
    heap.refuse_all();
    let mut sections = Sections::new(heap, module)?;
    match sections.next() {
        None => panic!(rt; "no section"),
        Some(section) => section?.count(),
    }
}

/// Returns the error of decoding the items of the first section.
fn error_of_items(rt: &impl Abort, alloc: Global, module: &[u8]) -> Result<(), ReadError> {
    let mut sections = Sections::new(alloc, module)?;
    match sections.next() {
        None => panic!(rt; "no section"),
        Some(section) => {
            let _items = section?.items()?;
            Ok(())
        }
    }
}

fn check_number(rt: &impl Abort, given: Result<Option<u32>, ReadError>, is_counted: bool) {
    let number = given.expect("accepted");
    assert_eq!(rt; number.is_some(), is_counted);
}

fn check_error(rt: &impl Abort, given: Option<ReadError>, expected: Option<ReadError>) {
    assert_eq!(rt; given, expected);
}

#[test]
fn core_sections() {
    let rt = crate::host::HostRuntime;
    let heap = Refusing::new(rt.alloc());
    for (kind, sized, _seen) in rows::ROWS.iter().chain(rows::PADDED.iter()) {
        let module = module_of(rt.alloc(), *kind, sized).expect("accepted");
        check_number(
            &rt,
            counted(&rt, &heap, &module),
            !matches!(id_of(*kind), 0 | 14),
        );
    }
}

#[test]
fn custom_sections() {
    let rt = crate::host::HostRuntime;
    let heap = Refusing::new(rt.alloc());
    for (kind, sized, _told) in custom_rows::ROWS.iter().chain(custom_rows::PADDED.iter()) {
        let module = module_of(rt.alloc(), *kind, sized).expect("accepted");
        check_number(&rt, counted(&rt, &heap, &module), false);
    }
}

/// The errors are those of decoding the items.
#[test]
fn errors() {
    let rt = crate::host::HostRuntime;
    let heap = Refusing::new(rt.alloc());
    for (kind, sized, _fault) in faults::ROWS.iter() {
        let module = module_of(rt.alloc(), *kind, sized).expect("accepted");
        let expected = error_of_items(&rt, rt.alloc(), &module).err();
        check_error(&rt, counted(&rt, &heap, &module).err(), expected);
    }
}

/// A custom section that ends too early has the error of decoding its items, if it has one.
#[test]
fn damaged_custom_sections() {
    let rt = crate::host::HostRuntime;
    let heap = Refusing::new(rt.alloc());
    for (kind, sized, _told) in custom_rows::ROWS.iter() {
        for size in 0..sized.len() - 1 {
            let mut module = module_of(rt.alloc(), *kind, &sized[..size + 1]).expect(
                "accepted",
            );
            module[9] = size as u8;
            let expected = error_of_items(&rt, rt.alloc(), &module).err();
            check_error(&rt, counted(&rt, &heap, &module).err(), expected);
        }
    }
}
