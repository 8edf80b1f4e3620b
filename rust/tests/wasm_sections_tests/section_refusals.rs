// Written by tools/to-rust from tests/wasm_sections_tests/src/section_refusals.rtt: change that.
// Tests with each request of `wasm_sections` for memory failing in turn: the result is `Memory`,
// and the arguments are unchanged.

use dolzhytik::fallible::Vec;
use crate::checks::{check_answer, check_bytes, check_refused, check_sink, check_that};
use crate::samples::{GLOBAL, LIMITED_MEMORY, LIMITED_TABLE, SET_GLOBAL, TABLE, TAG};
use dolzhytik::fallible::Global;
use crate::host::Abort;
use crate::test_support::{MOST, Refusing};
use dolzhytik::fallible::{Counted, CowSlice, Encode, HeapType, Pieces, Refused, Result, Section, add_all};
use dolzhytik::fallible::ConstExpr;
use dolzhytik::fallible::{CountedSection, DataCountSection, EntityType, Export, ExportItems, ExportKind, ExportSection, FunctionItems, FunctionSection, GlobalItems, Import, ImportCompact, ImportItems, Imports, ItemKind, MemoryItems, StartSection, TableItems, TagItems};

/// A section with an allocator that fails requests.
pub(crate) type OnHeap<'h, K> = CountedSection<K, Pieces<&'h Refusing<Global>>>;

/// Checks that the section has only this entry, or none.
fn check_entry(rt: &impl Abort, granted: bool, len: u32, piece: Option<&[u8]>, entry: &[u8]) {
    let expected = if granted { (1, Some(entry)) } else { (0, None) };
    assert_eq!(rt; (len, piece), expected);
}

/// A kind of section, and calls that add an entry to it.
pub(crate) trait SectionCalls: ItemKind + Sized {
    /// The arguments of the calls.
    type Given;

    /// The entry that each call makes.
    const ENTRIES: &'static [&'static [u8]];

    /// Makes the call of this index in `ENTRIES`.
    fn add(section: &mut OnHeap<'_, Self>, given: &Self::Given, place: usize) -> Result<()>;
}

/// Checks each call of the kind.
pub(crate) fn check_calls<K: SectionCalls>(
    rt: &impl Abort,
    heap: &Refusing<Global>,
    given: &K::Given,
) {
    for (place, entry) in K::ENTRIES.iter().enumerate() {
        check_call::<K>(rt, heap, given, place, entry);
    }
}

/// Checks that the call of this index makes an entry of these bytes. If a request fails, the
/// section is unchanged.
fn check_call<K: SectionCalls>(
    rt: &impl Abort,
    heap: &Refusing<Global>,
    given: &K::Given,
    place: usize,
    entry: &[u8],
) {
    for nth in 1..MOST {
        let mut section = CountedSection::new(heap);
        heap.refuse(nth);
        let answer = K::add(&mut section, given, place);
        let granted = check_answer(rt, heap, nth, answer);
        check_entry(rt, granted, section.len(), section.piece(0), entry);
        if granted {
            return check_whole(rt, heap, &section, entry);
        }
    }
    panic!(rt; "no call was granted")
}

/// Checks the calls on a section of this entry.
fn check_whole<'h, K: ItemKind>(
    rt: &impl Abort,
    heap: &'h Refusing<Global>,
    section: &OnHeap<'h, K>,
    entry: &[u8],
) {
    check_clone(rt, heap, section, entry);
    check_encode(rt, heap, section);
    check_append_to(rt, heap, section)
}

/// Checks `clone`.
fn check_clone<'h, K: ItemKind>(
    rt: &impl Abort,
    heap: &'h Refusing<Global>,
    section: &OnHeap<'h, K>,
    entry: &[u8],
) {
    for nth in 1..MOST {
        heap.refuse(nth);
        if check_copy(rt, heap, nth, section.clone(), entry) {
            return;
        }
    }
    panic!(rt; "no call was granted")
}

/// Checks the result of a copy of which one request was to fail. Returns whether all were granted.
fn check_copy<'h, K: ItemKind>(
    rt: &impl Abort,
    heap: &'h Refusing<Global>,
    nth: u64,
    copy: Result<OnHeap<'h, K>>,
    entry: &[u8],
) -> bool {
    match copy {
        Ok(section) => {
            check_entry(rt, true, section.len(), section.piece(0), entry);
            check_answer(rt, heap, nth, Ok(()))
        }
        Err(refused) => check_answer(rt, heap, nth, Err(refused)),
    }
}

/// Checks that `encode` makes one request, and none if the sink has spare capacity.
fn check_encode<T: Encode>(rt: &impl Abort, heap: &Refusing<Global>, item: &T) {
    let mut sink = Vec::new(heap);
    heap.refuse(1);
    check_refused(rt, item.encode(&mut sink).err());
    check_bytes(rt, &sink, &[]);
    heap.refuse(2);
    item.encode(&mut sink).expect("accepted");
    check_that(rt, heap.is_waiting());
    sink.clear();
    heap.refuse(1);
    item.encode(&mut sink).expect("accepted");
    check_that(rt, heap.is_waiting());
}

/// Checks that the sink held the byte 7, and has the id or nothing after it.
fn check_id(rt: &impl Abort, granted: bool, sink: &[u8], id: u8) {
    let expected = if granted { Some(&id) } else { None };
    assert_eq!(rt; sink.first(), Some(&7));
    assert_eq!(rt; sink.get(1), expected);
}

/// Checks `append_to`.
fn check_append_to<S: Section>(rt: &impl Abort, heap: &Refusing<Global>, section: &S) {
    for nth in 1..MOST {
        heap.refuse(0);
        let mut sink = Vec::from_slice(heap, &[7]).expect("accepted");
        heap.refuse(nth);
        let answer = section.append_to(&mut sink);
        let granted = check_answer(rt, heap, nth, answer);
        check_id(rt, granted, &sink, section.id());
        if granted {
            return;
        }
    }
    panic!(rt; "no call was granted")
}

impl SectionCalls for FunctionItems {
    type Given = ();

    const ENTRIES: &'static [&'static [u8]] = &[&[128, 1], &[128, 1]];

    fn add(section: &mut OnHeap<'_, Self>, _: &(), place: usize) -> Result<()> {
        match place {
            0 => section.function(128),
            _ => section.add(&128u32),
        }
    }
}

#[test]
fn functions() {
    let rt = crate::host::HostRuntime;
    let heap = Refusing::new(rt.alloc());
    check_calls::<FunctionItems>(&rt, &heap, &())
}

impl SectionCalls for GlobalItems {
    type Given = ConstExpr;

    const ENTRIES: &'static [&'static [u8]] = &[&[127, 0, 65, 42, 11], &[127, 0, 65, 42, 11]];

    fn add(section: &mut OnHeap<'_, Self>, init: &ConstExpr, place: usize) -> Result<()> {
        match place {
            0 => section.global(GLOBAL, init),
            _ => section.raw(&[127, 0, 65, 42, 11]),
        }
    }
}

#[test]
fn globals() {
    let rt = crate::host::HostRuntime;
    let heap = Refusing::new(rt.alloc());
    let init = ConstExpr::i32_const(rt.alloc(), 42).expect("accepted");
    check_calls::<GlobalItems>(&rt, &heap, &init)
}

impl SectionCalls for TableItems {
    type Given = ConstExpr;

    const ENTRIES: &'static [&'static [u8]] = &[
        &[112, 5, 1, 2],
        &[112, 5, 1, 2],
        &[64, 0, 112, 0, 128, 1, 208, 112, 11],
    ];

    fn add(section: &mut OnHeap<'_, Self>, init: &ConstExpr, place: usize) -> Result<()> {
        match place {
            0 => section.table(LIMITED_TABLE),
            1 => section.add(&LIMITED_TABLE),
            _ => section.table_with_init(TABLE, init),
        }
    }
}

#[test]
fn tables() {
    let rt = crate::host::HostRuntime;
    let heap = Refusing::new(rt.alloc());
    let init = ConstExpr::ref_null(rt.alloc(), HeapType::FUNC).expect("accepted");
    check_calls::<TableItems>(&rt, &heap, &init)
}

impl SectionCalls for MemoryItems {
    type Given = ();

    const ENTRIES: &'static [&'static [u8]] = &[&[15, 1, 2, 0], &[15, 1, 2, 0]];

    fn add(section: &mut OnHeap<'_, Self>, _: &(), place: usize) -> Result<()> {
        match place {
            0 => section.memory(LIMITED_MEMORY),
            _ => section.add(&LIMITED_MEMORY),
        }
    }
}

#[test]
fn memories() {
    let rt = crate::host::HostRuntime;
    let heap = Refusing::new(rt.alloc());
    check_calls::<MemoryItems>(&rt, &heap, &())
}

impl SectionCalls for TagItems {
    type Given = ();

    const ENTRIES: &'static [&'static [u8]] = &[&[0, 3], &[0, 3]];

    fn add(section: &mut OnHeap<'_, Self>, _: &(), place: usize) -> Result<()> {
        match place {
            0 => section.tag(TAG),
            _ => section.add(&TAG),
        }
    }
}

#[test]
fn tags() {
    let rt = crate::host::HostRuntime;
    let heap = Refusing::new(rt.alloc());
    check_calls::<TagItems>(&rt, &heap, &())
}

const EXPORT: Export<'static> = Export {
    name: "m",
    kind: ExportKind::Memory,
    index: 0,
};

impl SectionCalls for ExportItems {
    type Given = ();

    const ENTRIES: &'static [&'static [u8]] = &[&[1, b'm', 2, 0], &[1, b'm', 2, 0]];

    fn add(section: &mut OnHeap<'_, Self>, _: &(), place: usize) -> Result<()> {
        match place {
            0 => section.export("m", ExportKind::Memory, 0),
            _ => section.add(&EXPORT),
        }
    }
}

#[test]
fn exports() {
    let rt = crate::host::HostRuntime;
    let heap = Refusing::new(rt.alloc());
    check_calls::<ExportItems>(&rt, &heap, &())
}

const IMPORT: Import<'static> = Import {
    module: "m",
    name: "f",
    ty: EntityType::FunctionExact(5),
};

const IMPORT_BYTES: [u8; 6] = [1, b'm', 1, b'f', 32, 5];

/// Imports whose lists are in memory of an allocator that fails requests.
type OwnedImports<'h> = Imports<'h, &'h Refusing<Global>>;

/// Returns a group of one item.
fn listed<'h>() -> OwnedImports<'h> {
    Imports::Compact1 {
        module: "m",
        items: CowSlice::Borrowed(&[ImportCompact {
            name: "a",
            ty: EntityType::Function(0),
        }]),
    }
}

/// Returns a group of two names.
fn alike<'h>() -> OwnedImports<'h> {
    Imports::Compact2 {
        module: "m",
        ty: EntityType::Function(0),
        names: CowSlice::Borrowed(&["a", "b"]),
    }
}

impl SectionCalls for ImportItems {
    type Given = ();

    const ENTRIES: &'static [&'static [u8]] = &[
        &IMPORT_BYTES,
        &IMPORT_BYTES,
        &IMPORT_BYTES,
        &[1, b'm', 0, 127, 1, 1, b'a', 0, 0],
        &[1, b'm', 0, 126, 0, 0, 2, 1, b'a', 1, b'b'],
    ];

    fn add(section: &mut OnHeap<'_, Self>, _: &(), place: usize) -> Result<()> {
        match place {
            0 => section.import("m", "f", EntityType::FunctionExact(5)),
            1 => section.add(&IMPORT),
            2 => section.imports(Imports::Single(IMPORT)),
            3 => section.imports(listed()),
            _ => section.imports(alike()),
        }
    }
}

#[test]
fn imports() {
    let rt = crate::host::HostRuntime;
    let heap = Refusing::new(rt.alloc());
    check_calls::<ImportItems>(&rt, &heap, &())
}

/// Checks that these bytes are appended. If a request fails, the sink is unchanged.
pub(crate) fn check_part<T: Encode>(
    rt: &impl Abort,
    heap: &Refusing<Global>,
    part: &T,
    expected: &[u8],
) {
    for nth in 1..MOST {
        heap.refuse(0);
        let mut sink = Vec::from_slice(heap, &[7]).expect("accepted");
        heap.refuse(nth);
        let answer = part.encode(&mut sink);
        let granted = check_answer(rt, heap, nth, answer);
        check_sink(rt, granted, &sink, expected);
        if granted {
            return;
        }
    }
    panic!(rt; "no call was granted")
}

#[test]
fn types() {
    let rt = crate::host::HostRuntime;
    let heap = Refusing::new(rt.alloc());
    check_part(&rt, &heap, &LIMITED_TABLE, &[112, 5, 1, 2]);
    check_part(&rt, &heap, &LIMITED_MEMORY, &[15, 1, 2, 0]);
    check_part(&rt, &heap, &SET_GLOBAL, &[126, 3]);
    check_part(&rt, &heap, &TAG, &[0, 3]);
    check_part(&rt, &heap, &ExportKind::Tag, &[4]);
    check_part(&rt, &heap, &EXPORT, &[1, b'm', 2, 0])
}

#[test]
fn entities() {
    let rt = crate::host::HostRuntime;
    let heap = Refusing::new(rt.alloc());
    for (ty, expected) in [
        (EntityType::Function(128), [0, 128, 1].as_slice()),
        (EntityType::Table(LIMITED_TABLE), &[1, 112, 5, 1, 2]),
        (EntityType::Memory(LIMITED_MEMORY), &[2, 15, 1, 2, 0]),
        (EntityType::Global(SET_GLOBAL), &[3, 126, 3]),
        (EntityType::Tag(TAG), &[4, 0, 3]),
        (EntityType::FunctionExact(5), &[32, 5]),
    ] {
        check_part(&rt, &heap, &ty, expected);
    }
}

#[test]
fn parts_of_imports() {
    let rt = crate::host::HostRuntime;
    let heap = Refusing::new(rt.alloc());
    let ty = EntityType::Function(0);
    let items = [ImportCompact { name: "a", ty }];
    check_part(&rt, &heap, &IMPORT, &IMPORT_BYTES);
    check_part(&rt, &heap, &items[0], &[1, b'a', 0, 0]);
    let single: Imports<'_> = Imports::Single(IMPORT);
    check_part(&rt, &heap, &single, &IMPORT_BYTES);
    let named: Imports<'_> = Imports::Compact1 {
        module: "m",
        items: CowSlice::Borrowed(&items),
    };
    check_part(&rt, &heap, &named, &[1, b'm', 0, 127, 1, 1, b'a', 0, 0]);
    let alike: Imports<'_> = Imports::Compact2 {
        module: "m",
        ty,
        names: CowSlice::Borrowed(&["a"]),
    };
    check_part(&rt, &heap, &alike, &[1, b'm', 0, 126, 0, 0, 1, 1, b'a'])
}

/// Checks that the clone of an owned list makes one request, which fails and is then granted. The
/// imports are unchanged.
fn check_clone_of_imports<'h>(
    rt: &impl Abort,
    heap: &'h Refusing<Global>,
    imports: OwnedImports<'h>,
    expected: &[u8],
) {
    heap.refuse(1);
    check_refused(rt, imports.clone().err());
    check_part(rt, heap, &imports, expected);
    heap.refuse(2);
    let copy = imports.clone().expect("accepted");
    check_that(rt, heap.is_waiting());
    check_part(rt, heap, &copy, expected);
    check_part(rt, heap, &imports, expected)
}

#[test]
fn clones_of_owned_items() {
    let rt = crate::host::HostRuntime;
    let heap = Refusing::new(rt.alloc());
    let ty = EntityType::Function(0);
    let items = Vec::from_slice(&heap, &[ImportCompact { name: "a", ty }]).expect("accepted");
    let named = Imports::Compact1 {
        module: "m",
        items: CowSlice::Owned(items),
    };
    check_clone_of_imports(&rt, &heap, named, &[1, b'm', 0, 127, 1, 1, b'a', 0, 0])
}

#[test]
fn clones_of_owned_names() {
    let rt = crate::host::HostRuntime;
    let heap = Refusing::new(rt.alloc());
    let mut names = Vec::new(&heap);
    names.push("a").expect("accepted");
    names.push("b").expect("accepted");
    let alike = Imports::Compact2 {
        module: "m",
        ty: EntityType::Function(0),
        names: CowSlice::Owned(names),
    };
    check_clone_of_imports(
        &rt,
        &heap,
        alike,
        &[1, b'm', 0, 126, 0, 0, 2, 1, b'a', 1, b'b'],
    )
}

/// A clone of a borrowed list allocates nothing.
#[test]
fn clones_of_borrowed_imports() {
    let rt = crate::host::HostRuntime;
    let heap = Refusing::new(rt.alloc());
    let single: OwnedImports<'_> = Imports::Single(IMPORT);
    heap.refuse(1);
    let copy = single.clone().expect("accepted");
    check_that(&rt, heap.is_waiting());
    check_part(&rt, &heap, &copy, &IMPORT_BYTES);
    let alike: OwnedImports<'_> = Imports::Compact2 {
        module: "m",
        ty: EntityType::Function(0),
        names: CowSlice::Borrowed(&["a"]),
    };
    heap.refuse(1);
    let copy = alike.clone().expect("accepted");
    check_that(&rt, heap.is_waiting());
    check_part(&rt, &heap, &copy, &[1, b'm', 0, 126, 0, 0, 1, 1, b'a'])
}

/// Sections of one number.
#[test]
fn numbers() {
    let rt = crate::host::HostRuntime;
    let heap = Refusing::new(rt.alloc());
    let start = StartSection {
        function_index: 300,
    };
    check_encode(&rt, &heap, &start);
    check_append_to(&rt, &heap, &start);
    let count = DataCountSection { count: 128 };
    check_encode(&rt, &heap, &count);
    check_append_to(&rt, &heap, &count)
}

/// Checks an empty section after `add_all` of 1 and 128: it holds both, or as many as the error
/// reports. Returns whether the call succeeded.
fn check_added(rt: &impl Abort, answer: Result<(), (usize, Refused)>, sink: &[u8]) -> bool {
    let expected: &[u8] = match answer {
        Ok(()) => &[4, 2, 1, 128, 1],
        Err((0, Refused::Memory)) => &[1, 0],
        Err((1, Refused::Memory)) => &[2, 1, 1],
        Err(_) => &[],
    };
    assert_eq!(rt; sink, expected);
    answer.is_ok()
}

#[test]
fn adding_all() {
    let rt = crate::host::HostRuntime;
    let heap = Refusing::new(rt.alloc());
    for nth in 1..MOST {
        let mut section = FunctionSection::new(&heap);
        heap.refuse(nth);
        let answer = add_all(&mut section, &[1u32, 128]);
        let granted = heap.is_waiting();
        let mut sink = Vec::new(rt.alloc());
        section.encode(&mut sink).expect("accepted");
        check_that(&rt, check_added(&rt, answer, &sink) == granted);
        if granted {
            return;
        }
    }
    panic!(rt; "no call was granted")
}

/// Checks that as many of two items were added as the error reports, if a request failed. Returns
/// their number.
fn check_stopped(rt: &impl Abort, answer: Result<(), (usize, Refused)>, len: u32) -> usize {
    let Err((added, cause)) = answer else {
        panic!(rt; "a refused request was not told")
    };
    assert_eq!(rt; cause, Refused::Memory);
    assert_eq!(rt; len as usize, added);
    added
}

/// `add_all` where the second item fails: the first uses the spare capacity, and no further request
/// is granted.
#[test]
fn adding_one_of_two() {
    let rt = crate::host::HostRuntime;
    let heap = Refusing::new(rt.alloc());
    let long = Export {
        name: LONG,
        ..EXPORT
    };
    let mut stopped = false;
    for nth in 1..MOST {
        let mut section = ExportSection::new(&heap);
        heap.refuse(nth);
        let answer = add_all(&mut section, &[EXPORT, long]);
        if heap.is_waiting() {
            check_that(&rt, answer.is_ok() && stopped);
            return;
        }
        stopped = check_stopped(&rt, answer, section.len()) == 1 || stopped;
    }
    panic!(rt; "no call was granted")
}

/// A name that exceeds the spare capacity of a short entry.
const LONG: &str =
    "a name of many letters, so that the room that the first entry took is too small for the second one";
