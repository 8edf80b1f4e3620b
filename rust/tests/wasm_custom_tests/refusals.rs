// Written by tools/to-rust from tests/wasm_custom_tests/src/refusals.rtt: change that.
// Tests with each request of an adding call for memory failing in turn: the result is `Memory`, and
// the arguments are unchanged.

use dolzhytik::fallible::Vec;
use crate::checks::{check_answer, check_bytes, check_refused, check_that};
use crate::further_entries::check_further;
use dolzhytik::fallible::Global;
use crate::host::Abort;
use crate::test_support::{Heap, MOST, Refusing};
use dolzhytik::fallible::{Encode, Pieces, Result, Section};
use dolzhytik::fallible::{BranchHint, CallTarget, CodeHint, CompilationOrder, CountedList, CustomEntries, CustomKind, DataSymbolDefinition, DylinkExports, DylinkImports, DylinkItems, DylinkMemory, DylinkNeeded, DylinkPath, ExportFlagMembers, FeatureItems, FeaturePrefix, HintItems, HintsOf, ImportFlagMembers, IndirectMembers, IndirectNameMap, InstanceItems, InstructionFrequency, LinkingItems, ListKind, ModuleItems, NameItems, NameMap, NameMembers, NeededMembers, PathMembers, ProducerItems, ProducersField, SymbolKind, SymbolMembers, SymbolTable, ValueMembers};

/// A section with an allocator that fails requests.
pub(crate) type LentEntries<'h, K> = CustomEntries<K, Pieces<&'h Refusing<Global>>>;

/// Checks that the item encodes to these bytes, if no request fails.
pub(crate) fn check_written<T: Encode>(rt: &impl Abort, heap: Heap<'_>, item: &T, expected: &[u8]) {
    heap.refuse(0);
    let mut sink = Vec::new(heap);
    item.encode(&mut sink).expect("accepted");
    check_bytes(rt, &sink, expected);
}

/// Checks that `encode` makes one request, and none if the sink has spare capacity.
pub(crate) fn check_encode<T: Encode>(rt: &impl Abort, heap: Heap<'_>, item: &T) {
    let mut sink = Vec::new(heap);
    heap.refuse(1);
    check_refused(rt, item.encode(&mut sink).err());
    check_bytes(rt, &sink, &[]);
    heap.refuse(2);
    item.encode(&mut sink).expect("accepted");
    check_that(rt, heap.is_waiting());
    sink.clear();
    heap.refuse(1);
    item.encode(&mut sink).expect("accepted");
    check_that(rt, heap.is_waiting());
}

/// Checks that the sink held the byte 7, and has the id of custom sections or nothing after it.
fn check_id(rt: &impl Abort, granted: bool, sink: &[u8]) {
    let expected = if granted { Some(&0) } else { None };
    assert_eq!(rt; sink.first(), Some(&7));
    assert_eq!(rt; sink.get(1), expected);
}

/// Checks `append_to`.
pub(crate) fn check_append_to<S: Section>(rt: &impl Abort, heap: Heap<'_>, section: &S) {
    for nth in 1..MOST {
        heap.refuse(0);
        let mut sink = Vec::from_slice(heap, &[7]).expect("accepted");
        heap.refuse(nth);
        let answer = section.append_to(&mut sink);
        let granted = check_answer(rt, heap, nth, answer);
        check_id(rt, granted, &sink);
        if granted {
            return;
        }
    }
    panic!(rt; "no call was granted")
}

/// Checks `encode` of a component: it appends these bytes after the byte 7, or nothing if a request
/// fails.
fn check_part<T: Encode>(rt: &impl Abort, heap: Heap<'_>, part: &T, expected: &[u8]) {
    for nth in 1..MOST {
        heap.refuse(0);
        let mut sink = Vec::from_slice(heap, &[7]).expect("accepted");
        heap.refuse(nth);
        let answer = part.encode(&mut sink);
        let granted = check_answer(rt, heap, nth, answer);
        let appended: &[u8] = if granted { expected } else { &[] };
        assert_eq!(rt; sink.split_first(), Some((&7, appended)));
        if granted {
            return;
        }
    }
    panic!(rt; "no call was granted")
}

#[test]
fn kinds_of_symbols() {
    let rt = crate::host::HostRuntime;
    let heap = Refusing::new(rt.alloc());
    check_part(&rt, &heap, &SymbolKind::Function, &[0]);
    check_part(&rt, &heap, &SymbolKind::Global, &[2]);
    check_part(&rt, &heap, &SymbolKind::Table, &[5])
}

/// Checks that the number of entries is 1, or 0.
fn check_number(rt: &impl Abort, granted: bool, len: u32) {
    assert_eq!(rt; len, u32::from(granted));
}

/// A kind of section, and calls that add to it.
pub(crate) trait SectionCalls: CustomKind + Sized {
    /// The arguments of the calls.
    type Given;

    /// A section without entries.
    const EMPTY: &'static [u8];

    /// The section that each call makes from an empty one.
    const SECTIONS: &'static [&'static [u8]];

    /// Makes the call of this index in `SECTIONS`.
    fn add(section: &mut LentEntries<'_, Self>, given: &Self::Given, place: usize) -> Result<()>;
}

/// Checks each call of the kind.
fn check_sections<K: SectionCalls>(rt: &impl Abort, heap: Heap<'_>, given: &K::Given) {
    for (place, expected) in K::SECTIONS.iter().enumerate() {
        check_section::<K>(rt, heap, given, place, expected);
    }
}

/// Checks that the call of this index makes a section of these bytes from an empty one. If a
/// request fails, the section is unchanged.
fn check_section<K: SectionCalls>(
    rt: &impl Abort,
    heap: Heap<'_>,
    given: &K::Given,
    place: usize,
    expected: &[u8],
) {
    for nth in 1..MOST {
        let mut section = CustomEntries::new(heap);
        heap.refuse(nth);
        let answer = K::add(&mut section, given, place);
        let granted = check_answer(rt, heap, nth, answer);
        check_number(rt, granted, section.len());
        check_written(
            rt,
            heap,
            &section,
            if granted { expected } else { K::EMPTY },
        );
        if granted {
            check_whole(rt, heap, &section, expected);
            return check_further(rt, heap, &mut section, given, place);
        }
    }
    panic!(rt; "no call was granted")
}

/// Checks the calls on a section of these bytes.
fn check_whole<'h, K: CustomKind>(
    rt: &impl Abort,
    heap: Heap<'h>,
    section: &LentEntries<'h, K>,
    expected: &[u8],
) {
    check_encode(rt, heap, section);
    check_append_to(rt, heap, section);
    for nth in 1..MOST {
        heap.refuse(nth);
        if check_copy(rt, heap, nth, section.clone(), expected) {
            return;
        }
    }
    panic!(rt; "no call was granted")
}

/// Checks the result of a call of which one request was to fail: an item of these bytes, or
/// `Memory`. Returns whether all were granted.
pub(crate) fn check_copy<T: Encode>(
    rt: &impl Abort,
    heap: Heap<'_>,
    nth: u64,
    copy: Result<T>,
    expected: &[u8],
) -> bool {
    match copy {
        Ok(item) => {
            let granted = check_answer(rt, heap, nth, Ok(()));
            check_written(rt, heap, &item, expected);
            granted
        }
        Err(refused) => check_answer(rt, heap, nth, Err(refused)),
    }
}

/// A list with an allocator that fails requests.
pub(crate) type LentList<'h, K> = CountedList<K, Pieces<&'h Refusing<Global>>>;

/// A kind of list, and calls that add to it.
pub(crate) trait ListCalls: ListKind + Sized {
    /// The arguments of the calls.
    type Given;

    /// The list that each call makes from an empty one.
    const LISTS: &'static [&'static [u8]];

    /// The encoding of an empty list.
    const EMPTY: &'static [u8];

    /// Makes the call of this index in `LISTS`.
    fn add(list: &mut LentList<'_, Self>, given: &Self::Given, place: usize) -> Result<()>;
}

/// Checks each call of the kind.
fn check_lists<K: ListCalls>(rt: &impl Abort, heap: Heap<'_>, given: &K::Given) {
    for (place, expected) in K::LISTS.iter().enumerate() {
        check_list::<K>(rt, heap, given, place, expected);
    }
}

/// Checks that the call of this index makes a list of these bytes from an empty one. If a request
/// fails, the list is unchanged.
fn check_list<K: ListCalls>(
    rt: &impl Abort,
    heap: Heap<'_>,
    given: &K::Given,
    place: usize,
    expected: &[u8],
) {
    for nth in 1..MOST {
        let mut list = CountedList::new(heap);
        heap.refuse(nth);
        let answer = K::add(&mut list, given, place);
        let granted = check_answer(rt, heap, nth, answer);
        check_written(rt, heap, &list, if granted { expected } else { K::EMPTY });
        if granted {
            check_whole_list(rt, heap, &list, expected);
            return check_further(rt, heap, &mut list, given, place);
        }
    }
    panic!(rt; "no call was granted")
}

/// Checks the calls on a list of these bytes.
fn check_whole_list<'h, K: ListKind>(
    rt: &impl Abort,
    heap: Heap<'h>,
    list: &LentList<'h, K>,
    expected: &[u8],
) {
    check_encode(rt, heap, list);
    for nth in 1..MOST {
        heap.refuse(nth);
        if check_copy(rt, heap, nth, list.clone(), expected) {
            return;
        }
    }
    panic!(rt; "no call was granted")
}

impl ListCalls for NameMembers {
    type Given = ();

    const LISTS: &'static [&'static [u8]] = &[b"\x01\x00\x01t"];

    const EMPTY: &'static [u8] = &[0];

    fn add(map: &mut LentList<'_, Self>, _: &(), _: usize) -> Result<()> {
        map.append(0, "t")
    }
}

#[test]
fn name_maps() {
    let rt = crate::host::HostRuntime;
    let heap = Refusing::new(rt.alloc());
    check_lists::<NameMembers>(&rt, &heap, &())
}

impl ListCalls for IndirectMembers {
    type Given = NameMap;

    const LISTS: &'static [&'static [u8]] = &[b"\x01\x00\x01\x01\x01x"];

    const EMPTY: &'static [u8] = &[0];

    fn add(map: &mut LentList<'_, Self>, names: &NameMap, _: usize) -> Result<()> {
        map.append(0, names)
    }
}

#[test]
fn indirect_name_maps() {
    let rt = crate::host::HostRuntime;
    let heap = Refusing::new(rt.alloc());
    let names = names_inside(rt.alloc()).expect("accepted");
    check_lists::<IndirectMembers>(&rt, &heap, &names)
}

impl ListCalls for ValueMembers {
    type Given = ();

    const LISTS: &'static [&'static [u8]] = &[b"\x01\x01a\x011"];

    const EMPTY: &'static [u8] = &[0];

    fn add(field: &mut LentList<'_, Self>, _: &(), _: usize) -> Result<()> {
        field.value("a", "1")
    }
}

#[test]
fn producers_fields() {
    let rt = crate::host::HostRuntime;
    let heap = Refusing::new(rt.alloc());
    check_lists::<ValueMembers>(&rt, &heap, &())
}

const DEFINITION: DataSymbolDefinition = DataSymbolDefinition {
    index: 1,
    offset: 2,
    size: 3,
};

impl ListCalls for SymbolMembers {
    type Given = ();

    const LISTS: &'static [&'static [u8]] = &[
        b"\x08\x06\x01\x00\x20\x01\x01f",
        &[8, 4, 1, 2, 16, 1],
        &[8, 4, 1, 5, 16, 1],
        b"\x08\x08\x01\x01\x00\x01d\x01\x02\x03",
    ];

    const EMPTY: &'static [u8] = &[8, 1, 0];

    fn add(symbols: &mut LentList<'_, Self>, _: &(), place: usize) -> Result<()> {
        match place {
            0 => symbols.function(0x20, 1, Some("f")),
            1 => symbols.global(16, 1, None),
            2 => symbols.table(16, 1, None),
            _ => symbols.data(0, "d", Some(DEFINITION)),
        }
    }
}

#[test]
fn symbol_tables() {
    let rt = crate::host::HostRuntime;
    let heap = Refusing::new(rt.alloc());
    check_lists::<SymbolMembers>(&rt, &heap, &())
}

/// The maps that are arguments of calls on a name section.
pub(crate) struct Maps {
    names: NameMap,
    indirect: IndirectNameMap,
}

/// Returns the map {0: "t"}.
fn one_name(alloc: Global) -> Result<NameMap> {
    let mut map = NameMap::new(alloc);
    map.append(0, "t")?;
    Ok(map)
}

/// Returns the map {1: "x"}.
fn names_inside(alloc: Global) -> Result<NameMap> {
    let mut map = NameMap::new(alloc);
    map.append(1, "x")?;
    Ok(map)
}

/// Returns the map {0: {1: "x"}}.
fn one_name_inside(alloc: Global) -> Result<IndirectNameMap> {
    let mut map = IndirectNameMap::new(alloc);
    map.append(0, &names_inside(alloc)?)?;
    Ok(map)
}

impl SectionCalls for NameItems {
    type Given = Maps;

    const EMPTY: &'static [u8] = b"\x05\x04name";

    const SECTIONS: &'static [&'static [u8]] = &[
        b"\x09\x04name\x00\x02\x01m",
        b"\x08\x04name\x14\x01\x09",
        b"\x0B\x04name\x01\x04\x01\x00\x01t",
        b"\x0B\x04name\x04\x04\x01\x00\x01t",
        b"\x0B\x04name\x05\x04\x01\x00\x01t",
        b"\x0B\x04name\x06\x04\x01\x00\x01t",
        b"\x0B\x04name\x07\x04\x01\x00\x01t",
        b"\x0B\x04name\x08\x04\x01\x00\x01t",
        b"\x0B\x04name\x09\x04\x01\x00\x01t",
        b"\x0B\x04name\x0B\x04\x01\x00\x01t",
        b"\x0B\x04name\x0B\x04\x01\x00\x01t",
        b"\x0D\x04name\x02\x06\x01\x00\x01\x01\x01x",
        b"\x0D\x04name\x03\x06\x01\x00\x01\x01\x01x",
        b"\x0D\x04name\x0A\x06\x01\x00\x01\x01\x01x",
        b"\x0D\x04name\x0C\x06\x01\x00\x01\x01\x01x",
        b"\x0D\x04name\x0D\x06\x01\x00\x01\x01\x01x",
    ];

    fn add(section: &mut LentEntries<'_, Self>, maps: &Maps, place: usize) -> Result<()> {
        match place {
            0 => section.module("m"),
            1 => section.raw(20, &[9]),
            2 => section.functions(&maps.names),
            3 => section.types(&maps.names),
            4 => section.tables(&maps.names),
            5 => section.memories(&maps.names),
            6 => section.globals(&maps.names),
            7 => section.elements(&maps.names),
            8 => section.data(&maps.names),
            9 => section.tag(&maps.names),
            10 => section.tags(&maps.names),
            11 => section.locals(&maps.indirect),
            12 => section.labels(&maps.indirect),
            13 => section.fields(&maps.indirect),
            14 => section.parameters(&maps.indirect),
            _ => section.tag_parameters(&maps.indirect),
        }
    }
}

#[test]
fn names() {
    let rt = crate::host::HostRuntime;
    let heap = Refusing::new(rt.alloc());
    let maps = Maps {
        names: one_name(rt.alloc()).expect("accepted"),
        indirect: one_name_inside(rt.alloc()).expect("accepted"),
    };
    check_sections::<NameItems>(&rt, &heap, &maps)
}

impl SectionCalls for LinkingItems {
    type Given = SymbolTable;

    const EMPTY: &'static [u8] = b"\x09\x07linking\x02";

    const SECTIONS: &'static [&'static [u8]] = &[
        b"\x12\x07linking\x02\x09\x07\x06wasm32",
        b"\x0F\x07linking\x02\x08\x04\x01\x00\x10\x00",
    ];

    fn add(section: &mut LentEntries<'_, Self>, symbols: &SymbolTable, place: usize) -> Result<()> {
        match place {
            0 => section.target_arch("wasm32"),
            _ => section.symbol_table(symbols),
        }
    }
}

#[test]
fn linking() {
    let rt = crate::host::HostRuntime;
    let heap = Refusing::new(rt.alloc());
    let mut symbols: SymbolTable = SymbolTable::new(rt.alloc());
    symbols.function(0x10, 0, None).expect("accepted");
    check_sections::<LinkingItems>(&rt, &heap, &symbols)
}

impl SectionCalls for ProducerItems {
    type Given = ProducersField;

    const EMPTY: &'static [u8] = b"\x0B\x09producers\x00";

    const SECTIONS: &'static [&'static [u8]] = &[b"\x13\x09producers\x01\x02by\x01\x01a\x011"];

    fn add(section: &mut LentEntries<'_, Self>, field: &ProducersField, _: usize) -> Result<()> {
        section.field("by", field)
    }
}

#[test]
fn producers() {
    let rt = crate::host::HostRuntime;
    let heap = Refusing::new(rt.alloc());
    let mut field: ProducersField = ProducersField::new(rt.alloc());
    field.value("a", "1").expect("accepted");
    check_sections::<ProducerItems>(&rt, &heap, &field)
}

const MEMORY: DylinkMemory = DylinkMemory {
    memory_size: 300,
    memory_alignment: 4,
    table_size: 5,
    table_alignment: 0,
};

#[test]
fn memories_of_libraries() {
    let rt = crate::host::HostRuntime;
    let heap = Refusing::new(rt.alloc());
    check_part(&rt, &heap, &MEMORY, &[0xAC, 2, 4, 5, 0])
}

impl ListCalls for NeededMembers {
    type Given = ();

    const LISTS: &'static [&'static [u8]] = &[b"\x02\x06\x01\x04a.so"];

    const EMPTY: &'static [u8] = &[2, 1, 0];

    fn add(libraries: &mut LentList<'_, Self>, _: &(), _: usize) -> Result<()> {
        libraries.library("a.so")
    }
}

impl ListCalls for PathMembers {
    type Given = ();

    const LISTS: &'static [&'static [u8]] = &[b"\x05\x04\x01\x02/l"];

    const EMPTY: &'static [u8] = &[5, 1, 0];

    fn add(folders: &mut LentList<'_, Self>, _: &(), _: usize) -> Result<()> {
        folders.folder("/l")
    }
}

impl ListCalls for ExportFlagMembers {
    type Given = ();

    const LISTS: &'static [&'static [u8]] = &[b"\x03\x04\x01\x01f\x01"];

    const EMPTY: &'static [u8] = &[3, 1, 0];

    fn add(exports: &mut LentList<'_, Self>, _: &(), _: usize) -> Result<()> {
        exports.export("f", 1)
    }
}

impl ListCalls for ImportFlagMembers {
    type Given = ();

    const LISTS: &'static [&'static [u8]] = &[b"\x04\x08\x01\x03env\x01g\x10"];

    const EMPTY: &'static [u8] = &[4, 1, 0];

    fn add(imports: &mut LentList<'_, Self>, _: &(), _: usize) -> Result<()> {
        imports.import("env", "g", 16)
    }
}

#[test]
fn lists_of_libraries() {
    let rt = crate::host::HostRuntime;
    let heap = Refusing::new(rt.alloc());
    check_lists::<NeededMembers>(&rt, &heap, &());
    check_lists::<PathMembers>(&rt, &heap, &());
    check_lists::<ExportFlagMembers>(&rt, &heap, &());
    check_lists::<ImportFlagMembers>(&rt, &heap, &())
}

/// The lists that are arguments of calls on the section of a dynamic library.
pub(crate) struct Libraries {
    needed: DylinkNeeded,
    exports: DylinkExports,
    imports: DylinkImports,
    folders: DylinkPath,
}

/// Returns lists of one entry each.
fn libraries(alloc: Global) -> Result<Libraries> {
    let mut needed = DylinkNeeded::new(alloc);
    needed.library("a.so")?;
    let mut exports = DylinkExports::new(alloc);
    exports.export("f", 1)?;
    let mut imports = DylinkImports::new(alloc);
    imports.import("env", "g", 16)?;
    let mut folders = DylinkPath::new(alloc);
    folders.folder("/l")?;
    Ok(Libraries {
        needed,
        exports,
        imports,
        folders,
    })
}

impl SectionCalls for DylinkItems {
    type Given = Libraries;

    const EMPTY: &'static [u8] = b"\x09\x08dylink.0";

    const SECTIONS: &'static [&'static [u8]] = &[
        b"\x10\x08dylink.0\x01\x05\xAC\x02\x04\x05\x00",
        b"\x11\x08dylink.0\x02\x06\x01\x04a.so",
        b"\x0F\x08dylink.0\x03\x04\x01\x01f\x01",
        b"\x13\x08dylink.0\x04\x08\x01\x03env\x01g\x10",
        b"\x0F\x08dylink.0\x05\x04\x01\x02/l",
    ];

    fn add(section: &mut LentEntries<'_, Self>, lists: &Libraries, place: usize) -> Result<()> {
        match place {
            0 => section.memory(MEMORY),
            1 => section.needed(&lists.needed),
            2 => section.exports(&lists.exports),
            3 => section.imports(&lists.imports),
            _ => section.runtime_path(&lists.folders),
        }
    }
}

#[test]
fn dylink() {
    let rt = crate::host::HostRuntime;
    let heap = Refusing::new(rt.alloc());
    let lists = libraries(rt.alloc()).expect("accepted");
    check_sections::<DylinkItems>(&rt, &heap, &lists)
}

#[test]
fn feature_prefixes() {
    let rt = crate::host::HostRuntime;
    let heap = Refusing::new(rt.alloc());
    check_part(&rt, &heap, &FeaturePrefix::Used, b"+");
    check_part(&rt, &heap, &FeaturePrefix::Disallowed, b"-");
    check_part(&rt, &heap, &FeaturePrefix::Required, b"=")
}

impl SectionCalls for FeatureItems {
    type Given = ();

    const EMPTY: &'static [u8] = b"\x11\x0Ftarget_features\x00";

    const SECTIONS: &'static [&'static [u8]] = &[
        b"\x14\x0Ftarget_features\x01+\x01a",
        b"\x14\x0Ftarget_features\x01-\x01b",
    ];

    fn add(section: &mut LentEntries<'_, Self>, _: &(), place: usize) -> Result<()> {
        match place {
            0 => section.feature(FeaturePrefix::Used, "a"),
            _ => section.feature(FeaturePrefix::Disallowed, "b"),
        }
    }
}

#[test]
fn target_features() {
    let rt = crate::host::HostRuntime;
    let heap = Refusing::new(rt.alloc());
    check_sections::<FeatureItems>(&rt, &heap, &())
}

const HINT: BranchHint = BranchHint {
    branch_func_offset: 3,
    branch_hint_value: 1,
};

impl SectionCalls for HintItems {
    type Given = ();

    const EMPTY: &'static [u8] = b"\x1B\x19metadata.code.branch_hint\x00";

    const SECTIONS: &'static [&'static [u8]] = &[
        b"\x20\x19metadata.code.branch_hint\x01\x00\x01\x03\x01\x01",
    ];

    fn add(section: &mut LentEntries<'_, Self>, _: &(), _: usize) -> Result<()> {
        section.function_hints(0, [HINT])
    }
}

#[test]
fn hints() {
    let rt = crate::host::HostRuntime;
    let heap = Refusing::new(rt.alloc());
    check_sections::<HintItems>(&rt, &heap, &())
}

impl SectionCalls for HintsOf<InstructionFrequency> {
    type Given = ();

    const EMPTY: &'static [u8] = b"\x1A\x18metadata.code.instr_freq\x00";

    const SECTIONS: &'static [&'static [u8]] = &[
        b"\x1F\x18metadata.code.instr_freq\x01\x07\x01\x03\x01\x20",
    ];

    fn add(section: &mut LentEntries<'_, Self>, _: &(), _: usize) -> Result<()> {
        let value = InstructionFrequency(32);
        section.function_hints(7, [CodeHint { offset: 3, value }])
    }
}

impl SectionCalls for HintsOf<CompilationOrder> {
    type Given = [Option<u32>; 2];

    const EMPTY: &'static [u8] = b"\x21\x1Fmetadata.code.compilation_order\x00";

    const SECTIONS: &'static [&'static [u8]] = &[
        b"\x26\x1Fmetadata.code.compilation_order\x01\x07\x01\x00\x01\x01",
        b"\x28\x1Fmetadata.code.compilation_order\x01\x07\x01\x00\x03\x01\xAC\x02",
    ];

    fn add(section: &mut LentEntries<'_, Self>, hotness: &Self::Given, place: usize) -> Result<()> {
        let value = CompilationOrder {
            order: 1,
            hotness: hotness[place],
        };
        section.function_hints(7, [CodeHint { offset: 0, value }])
    }
}

const TARGETS: [CallTarget; 2] = [
    CallTarget {
        function_index: 9,
        percent: 90,
    },
    CallTarget {
        function_index: 300,
        percent: 10,
    },
];

/// The values are in memory of their own.
impl SectionCalls for HintsOf<Vec<CallTarget>> {
    type Given = Global;

    const EMPTY: &'static [u8] = b"\x1C\x1Ametadata.code.call_targets\x00";

    const SECTIONS: &'static [&'static [u8]] = &[
        b"\x20\x1Ametadata.code.call_targets\x01\x07\x01\x03\x00",
        b"\x22\x1Ametadata.code.call_targets\x01\x07\x01\x03\x02\x09\x5A",
        b"\x25\x1Ametadata.code.call_targets\x01\x07\x01\x03\x05\x09\x5A\xAC\x02\x0A",
    ];

    fn add(section: &mut LentEntries<'_, Self>, alloc: &Global, place: usize) -> Result<()> {
        let value = Vec::from_slice(*alloc, &TARGETS[..place])?;
        section.function_hints(7, [CodeHint { offset: 3, value }])
    }
}

#[test]
fn code_metadata() {
    let rt = crate::host::HostRuntime;
    let heap = Refusing::new(rt.alloc());
    check_sections::<HintsOf<InstructionFrequency>>(&rt, &heap, &());
    check_sections::<HintsOf<CompilationOrder>>(&rt, &heap, &[None, Some(300)]);
    check_sections::<HintsOf<Vec<CallTarget>>>(&rt, &heap, &rt.alloc())
}

impl SectionCalls for ModuleItems {
    type Given = ();

    const EMPTY: &'static [u8] = b"\x0D\x0Bcoremodules\x00";

    const SECTIONS: &'static [&'static [u8]] = &[b"\x13\x0Bcoremodules\x01\x00\x04mod1"];

    fn add(section: &mut LentEntries<'_, Self>, _: &(), _: usize) -> Result<()> {
        section.module("mod1")
    }
}

#[test]
fn modules() {
    let rt = crate::host::HostRuntime;
    let heap = Refusing::new(rt.alloc());
    check_sections::<ModuleItems>(&rt, &heap, &())
}

impl SectionCalls for InstanceItems {
    type Given = ();

    const EMPTY: &'static [u8] = b"\x0F\x0Dcoreinstances\x00";

    const SECTIONS: &'static [&'static [u8]] = &[
        b"\x15\x0Dcoreinstances\x01\x00\x00\x01\x2A\x01\x11",
    ];

    fn add(section: &mut LentEntries<'_, Self>, _: &(), _: usize) -> Result<()> {
        section.instance(0, [42], [17])
    }
}

#[test]
fn instances() {
    let rt = crate::host::HostRuntime;
    let heap = Refusing::new(rt.alloc());
    check_sections::<InstanceItems>(&rt, &heap, &())
}
