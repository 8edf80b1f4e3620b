//! Tests of `Reencode`: bytes that were worked out from the standard by hand, and those of
//! `remap_module`.
use dolzhytik::fallible::{
    AllocError, EntityType, Export, Global, Import, Imports, MemoryType, Refused, TagType, Vec,
};
use dolzhytik::reader::remap::{IndexSpace, Remap, remap_module};
use dolzhytik::reader::{
    Body, ElementItem, GlobalItem, Items, NameItem, Offsets, ReadError, ReadFault, Reencode,
    ReencodeError, Section, Sections, Segment, TableItem, TypeEntry, shorten_module,
};
use every::{EVERY, EVERY_SHIFTED};
use samples::{PADDED, PADDED_NAME, SHORT, SHORT_NAME, UNREAD, bytes_of, custom, module};
use std::alloc::{GlobalAlloc, Layout, System};
use std::cell::Cell;
use std::convert::Infallible;
use std::error::Error;
use std::fmt;
use std::vec::Vec as StdVec;

#[path = "modules/every.rs"]
mod every;
#[allow(dead_code, unused_imports, unused_mut, unused_variables, clippy::all)]
#[path = "examples/mod.rs"]
#[rustfmt::skip]
mod examples;
#[path = "modules/samples.rs"]
mod samples;

type Edited<E> = Result<(), ReencodeError<E>>;

const BOTH: [Offsets; 2] = [Offsets::Refuse, Offsets::LeaveOut];

// ---- indices

/// No method of its own.
struct Same;

impl Reencode for Same {
    type Error = Infallible;
}

/// Implements the methods of index spaces.
macro_rules! indices {
    ($self:ident, $index:ident: $($method:ident = $new:expr)*) => {
        $(
            fn $method(&mut $self, $index: u32) -> Result<u32, Self::Error> {
                $new
            }
        )*
    };
}

/// Adds another number in each space.
struct Shifted;

impl Reencode for Shifted {
    type Error = Infallible;

    indices! {
        self, index:
        data_index = Ok(index + 0x08)
        function_index = Ok(index + 0x10)
        type_index = Ok(index + 0x20)
        table_index = Ok(index + 0x30)
        memory_index = Ok(index + 0x40)
        global_index = Ok(index + 0x50)
        tag_index = Ok(index + 0x60)
        element_index = Ok(index + 0x70)
    }
}

#[test]
fn each_space_has_its_method() {
    for offsets in BOTH {
        let shifted = Shifted.reencode_module(&module(&EVERY), offsets);
        assert_eq!(shifted.unwrap(), module(&EVERY_SHIFTED));
    }
}

#[test]
fn without_methods_the_module_is_minimal() {
    for offsets in BOTH {
        let minimal = Same.reencode_module(&module(&PADDED), offsets);
        assert_eq!(minimal.unwrap(), module(&SHORT));
    }
    // Empty sections stay, those of ids that the standard does not have, and `anyref` in one byte.
    let anyref = "01 05 01 60 01 6e 00";
    for sections in [&["02 01 00", "0a 01 00"][..], &["63 01 05"], &[anyref], &[]] {
        let bytes = module(sections);
        assert_eq!(
            Same.reencode_module(&bytes, Offsets::Refuse).unwrap(),
            bytes
        );
    }
}

/// All modules of these tests and of the examples.
fn modules() -> StdVec<StdVec<u8>> {
    let mut all: StdVec<StdVec<u8>> = [
        examples::adding_module(Global),
        examples::compiled_module(Global),
        examples::filled_module(Global, b"data"),
        examples::first_module(Global),
        examples::joined_module(Global),
        examples::large_module(Global),
        examples::named_module(Global, "name"),
        examples::object_module(Global),
        examples::padded_module(Global),
        examples::whole_module(Global),
    ]
    .map(|built| built.unwrap().into())
    .into();
    let linking = custom("linking", "02 0805 01 00 10 00 00");
    let hints = custom("metadata.code.branch_hint", "01 00 01 07 01 01");
    let twice = [EVERY, EVERY].concat();
    let backwards: StdVec<&str> = EVERY.into_iter().rev().collect();
    for sections in [
        &EVERY[..],
        &EVERY_SHIFTED,
        &PADDED,
        &ORDERED,
        &twice,
        &backwards,
        &[PADDED_NAME, "63 8100 05", "00 00"],
        &[SHORT[0], &linking, &hints, SHORT[1]],
        &[SHORT[0], UNREAD],
        &[EVERY[3], "01 05"],
    ] {
        all.push(module(sections));
    }
    all.push(bytes_of("0061736d"));
    all
}

/// A random map: flips bits of the indices of each space, and may reject a few.
#[derive(Clone, Copy)]
struct Flips {
    masks: [u32; 8],
    rejected: u32,
}

impl Remap for Flips {
    type Error = (usize, u32);

    fn index(&self, space: IndexSpace, index: u32) -> Result<u32, (usize, u32)> {
        self.flipped(space as usize, index)
    }
}

impl Flips {
    fn flipped(&self, space: usize, index: u32) -> Result<u32, (usize, u32)> {
        if index == self.rejected {
            return Err((space, index));
        }
        Ok(index ^ self.masks[space])
    }
}

impl Reencode for Flips {
    type Error = (usize, u32);

    indices! {
        self, index:
        function_index = self.flipped(IndexSpace::Functions as usize, index)
        type_index = self.flipped(IndexSpace::Types as usize, index)
        table_index = self.flipped(IndexSpace::Tables as usize, index)
        memory_index = self.flipped(IndexSpace::Memories as usize, index)
        global_index = self.flipped(IndexSpace::Globals as usize, index)
        tag_index = self.flipped(IndexSpace::Tags as usize, index)
        element_index = self.flipped(IndexSpace::Elements as usize, index)
        data_index = self.flipped(IndexSpace::Data as usize, index)
    }
}

#[test]
fn random_maps_as_remap_module() {
    let mut state = 1_u64;
    let mut next = || {
        state ^= state << 13;
        state ^= state >> 7;
        state ^= state << 17;
        (state >> (32 + state % 32)) as u32
    };
    let (mut equal, mut rejected) = (0, 0);
    for bytes in modules() {
        for round in 0..200 {
            let mut map = Flips {
                masks: [(); 8].map(|()| next()),
                rejected: if round % 4 == 0 { next() % 8 } else { u32::MAX },
            };
            let offsets = BOTH[round % 2];
            let expected = remap_module(&bytes, Global, &map, offsets);
            let given = map.reencode_module(&bytes, offsets);
            equal += u32::from(given.is_ok());
            rejected += u32::from(matches!(given, Err(ReencodeError::User(_))));
            assert_eq!(given, expected.map(StdVec::from).map_err(From::from));
        }
    }
    assert!(equal > 1000 && rejected > 100, "{equal} {rejected}");
}

/// The identity also gives the module of `shorten_module`, if each section decodes.
#[test]
fn the_identity_as_shorten_module() {
    let mut shortened = 0;
    for bytes in modules() {
        let mut sink = Vec::new(Global);
        if shorten_module(Global, &bytes, Offsets::LeaveOut, &mut sink) == Ok(0) {
            let given = Same.reencode_module(&bytes, Offsets::LeaveOut);
            assert_eq!(given.unwrap(), *sink);
            shortened += 1;
        }
    }
    assert!(shortened >= 15, "{shortened}");
}

// ---- sections

/// A section of each id of the standard, in its order.
const ORDERED: [&str; 13] = [
    "01 04 01 60 00 00",
    "02 07 01 016d 0166 00 00",
    "03 02 01 00",
    // `funcref`, from 0 on.
    "04 04 01 70 00 00",
    "05 03 01 00 01",
    "0d 03 01 00 00",
    // A constant `i32` of 7.
    "06 06 01 7f 00 4107 0b",
    "07 05 01 0166 00 00",
    "08 01 00",
    // Declared: function 0.
    "09 05 01 03 00 01 00",
    "0c 01 01",
    "0a 04 01 02 00 0b",
    // Passive: a byte.
    "0b 04 01 01 01 aa",
];

/// Adds the items of the sections of this module to each section that has none.
struct Filled(StdVec<u8>);

impl Filled {
    fn new() -> Filled {
        Filled(module(&ORDERED))
    }

    fn items(&self, id: u8) -> Items<'_> {
        let mut sections = Sections::new(Global, &self.0).unwrap();
        let section = sections.find(|it| it.as_ref().unwrap().id() == id);
        section.unwrap().unwrap().items().unwrap()
    }
}

/// Implements the methods of sections, by the id of each section, the case of its items, and their
/// type, which may borrow from the value.
macro_rules! filled {
    ($($method:ident $(<$life:lifetime>)? $id:literal $case:ident: $item:ty)*) => {
        $(
            fn $method $(<$life>)? (
                &$($life)? mut self,
                list: &mut Vec<$item>,
            ) -> Edited<Infallible> {
                match self.items($id) {
                    Items::$case(items) if list.is_empty() => list.extend(items)?,
                    _ => {}
                }
                Ok(())
            }
        )*
    };
}

impl Reencode for Filled {
    type Error = Infallible;

    filled! {
        type_section 1 Types: TypeEntry
        import_section<'a> 2 Imports: Imports<'a>
        function_section 3 Functions: u32
        table_section 4 Tables: TableItem
        memory_section 5 Memories: MemoryType
        tag_section 13 Tags: TagType
        global_section 6 Globals: GlobalItem
        export_section<'a> 7 Exports: Export<'a>
        element_section 9 Elements: ElementItem
        code_section 10 Bodies: Body
        data_section<'a> 11 Segments: Segment<'a>
    }

    fn start_section(&mut self, function: &mut Option<u32>) -> Edited<Infallible> {
        function.get_or_insert(0);
        Ok(())
    }

    fn data_count_section(&mut self, count: &mut Option<u32>) -> Edited<Infallible> {
        count.get_or_insert(1);
        Ok(())
    }
}

#[track_caller]
fn check_filled(sections: &[&str], expected: &[&str]) {
    let filled = Filled::new().reencode_module(&module(sections), Offsets::Refuse);
    assert_eq!(filled.unwrap(), module(expected));
}

/// A module with any of the sections, and with custom ones before and after them.
#[test]
fn absent_sections_get_items() {
    let first = custom("dylink.0", "");
    for present in 0..1_u32 << ORDERED.len() {
        let is_present = |place: &usize| present >> place & 1 == 1;
        let places = (0..ORDERED.len()).filter(is_present);
        let sections: StdVec<&str> = places.map(|place| ORDERED[place]).collect();
        check_filled(&sections, &ORDERED);
        if present != 0 {
            let around =
                |sections: &[&str]| [&[&first[..]], sections, &[SHORT_NAME]].concat().join(" ");
            check_filled(&[&around(&sections)], &[&around(&ORDERED)]);
        }
    }
}

#[test]
fn absent_sections_beside_custom_ones() {
    let [types, imports, functions] = [ORDERED[0], ORDERED[1], ORDERED[2]];
    let other = custom("a", "");
    // Before the next section of the order, and so after a custom section before that.
    let expected = [&[types, &other, imports, functions], &ORDERED[3..]].concat();
    check_filled(&[types, &other, functions], &expected);
    // After the last section of the order.
    let expected = [&ORDERED[..], &[&other, &other]].concat();
    check_filled(&[types, &other, &other], &expected);
    // Without one, at the end.
    check_filled(&[&other], &[&[&other[..]], &ORDERED[..]].concat());
    // Sections in another order: those before the first of them, and those after the last.
    let expected = [
        &ORDERED[..3],
        &ORDERED[4..10],
        &[ORDERED[3]],
        &ORDERED[10..],
    ]
    .concat();
    check_filled(&[ORDERED[9], ORDERED[3]], &expected);
}

/// Writes down each call of a method of a section, with the number of items.
#[derive(Default)]
struct Log(String);

impl Log {
    fn add(&mut self, id: &str, count: impl fmt::Debug) -> Edited<Infallible> {
        self.0 += &format!(" {id}:{count:?}");
        Ok(())
    }
}

/// Implements the methods of sections, whose lifetimes a method may leave out.
macro_rules! logged {
    ($($method:ident $id:literal: $item:ty)*) => {
        $(
            fn $method(&mut self, list: &mut Vec<$item>) -> Edited<Infallible> {
                self.add($id, list.len())
            }
        )*
    };
}

impl Reencode for Log {
    type Error = Infallible;

    logged! {
        type_section "1": TypeEntry
        import_section "2": Imports<'_>
        function_section "3": u32
        table_section "4": TableItem
        memory_section "5": MemoryType
        tag_section "13": TagType
        global_section "6": GlobalItem
        export_section "7": Export<'_>
        element_section "9": ElementItem
        code_section "10": Body
        data_section "11": Segment<'_>
    }

    fn start_section(&mut self, function: &mut Option<u32>) -> Edited<Infallible> {
        self.add("8", function)
    }

    fn data_count_section(&mut self, count: &mut Option<u32>) -> Edited<Infallible> {
        self.add("12", count)
    }

    fn custom_section(&mut self, items: &mut Items<'_>) -> Edited<Infallible> {
        self.add("0", items.kind())
    }
}

#[track_caller]
fn check_log(sections: &[&str], expected: &str) {
    let (mut log, bytes) = (Log::default(), module(sections));
    let given = log.reencode_module(&bytes, Offsets::LeaveOut);
    // Nothing is added.
    assert_eq!(given, Same.reencode_module(&bytes, Offsets::LeaveOut));
    assert_eq!(log.0.trim_start(), expected);
}

#[test]
fn each_section_has_its_method() {
    let absent = "1:0 2:0 3:0 4:0 5:0 13:0 6:0 7:0 8:None 9:0 12:None";
    check_log(&[], &format!("{absent} 10:0 11:0"));
    let present = "1:1 2:1 3:1 4:1 5:1 13:1 6:1 7:1 8:Some(0) 9:1 12:Some(1) 10:1 11:1";
    check_log(&ORDERED, present);
    check_log(&ORDERED[1..], &present.replace("1:1 2:1", "1:0 2:1"));
    // For each section, in the order of the module.
    let [.., code, data] = ORDERED;
    check_log(&[data, code, data], &format!("{absent} 11:1 10:1 11:1"));
    // A section that holds offsets is left out, and one of an id above 13 has no method.
    let (other, held) = (custom("a", "05"), custom("build_id", "01aa"));
    let customs = [&other, SHORT_NAME, &held, "0e 01 aa"];
    check_log(&customs, &format!("0:Custom 0:Names {absent} 10:0 11:0"));
}

/// Leaves out the start and the data count, and names the module.
struct Renamed(String);

impl Reencode for Renamed {
    type Error = Infallible;

    fn start_section(&mut self, function: &mut Option<u32>) -> Edited<Infallible> {
        *function = None;
        Ok(())
    }

    fn data_count_section(&mut self, count: &mut Option<u32>) -> Edited<Infallible> {
        *count = None;
        Ok(())
    }

    fn custom_section<'a>(&'a mut self, items: &mut Items<'a>) -> Edited<Infallible> {
        if let Items::Names(names) = items {
            names[0] = NameItem::Module(&self.0);
        }
        Ok(())
    }
}

#[test]
fn sections_that_are_left_out_and_custom_ones() {
    let sections = [ORDERED[8], ORDERED[10], ORDERED[11], SHORT_NAME];
    let mut renamed = Renamed("new".into());
    let given = renamed.reencode_module(&module(&sections), Offsets::Refuse);
    let names = custom("name", "00 04 03 6e6577");
    assert_eq!(given.unwrap(), module(&[ORDERED[11], &names]));
}

// ---- single sections

fn first_section(module: &[u8]) -> Section<'_> {
    let mut sections = Sections::new(Global, module).unwrap();
    sections.next().unwrap().unwrap()
}

#[test]
fn payloads_of_sections() {
    for (section, expected) in EVERY.into_iter().zip(EVERY_SHIFTED) {
        let (bytes, expected) = (module(&[section]), module(&[expected]));
        let payload = Shifted.reencode_section(&first_section(&bytes)).unwrap();
        assert_eq!(payload.unwrap(), first_section(&expected).payload());
    }
    let start = module(&[ORDERED[8]]);
    let left_out = Renamed(String::new()).reencode_section(&first_section(&start));
    assert_eq!(left_out, Ok(None));
    // A hint of function 5, at offset 7: the offset stays.
    let hints = |index| {
        custom(
            "metadata.code.branch_hint",
            &format!("01 {index} 01 07 01 01"),
        )
    };
    let [bytes, expected] = ["05", "15"].map(|index| module(&[&hints(index)]));
    let payload = Shifted.reencode_section(&first_section(&bytes)).unwrap();
    assert_eq!(payload.unwrap(), first_section(&expected).payload());
}

/// The trait can be used as `dyn`.
#[test]
fn methods_behind_a_pointer() {
    let methods: &mut dyn Reencode<Error = Infallible> = &mut Shifted;
    let shifted = methods.reencode_module(&module(&EVERY), Offsets::Refuse);
    assert_eq!(shifted.unwrap(), module(&EVERY_SHIFTED));
}

// ---- errors

#[derive(Debug, PartialEq)]
struct Mine(u32, Cause);

/// The cause of the error.
#[derive(Debug, PartialEq)]
struct Cause;

impl fmt::Display for Cause {
    fn fmt(&self, f: &mut fmt::Formatter<'_>) -> fmt::Result {
        f.write_str("a cause")
    }
}

impl Error for Cause {}

impl fmt::Display for Mine {
    fn fmt(&self, f: &mut fmt::Formatter<'_>) -> fmt::Result {
        write!(f, "index {}", self.0)
    }
}

impl Error for Mine {
    fn source(&self) -> Option<&(dyn Error + 'static)> {
        Some(&self.1)
    }
}

/// Rejects the functions from 1 on, and sections of bodies.
struct Rejects;

impl Reencode for Rejects {
    type Error = Mine;

    fn function_index(&mut self, index: u32) -> Result<u32, Mine> {
        if index < 1 {
            Ok(index)
        } else {
            Err(Mine(index, Cause))
        }
    }

    fn code_section(&mut self, bodies: &mut Vec<Body>) -> Edited<Mine> {
        Err(ReencodeError::User(Mine(bodies.len() as u32 + 70, Cause)))
    }
}

#[track_caller]
fn check_rejected(sections: &[&str], number: u32) {
    let given = Rejects.reencode_module(&module(sections), Offsets::Refuse);
    assert_eq!(given, Err(ReencodeError::User(Mine(number, Cause))));
}

#[test]
fn errors_of_the_user() {
    check_rejected(&["08 01 01"], 1);
    // Of a body, and of none.
    check_rejected(&[ORDERED[11]], 71);
    check_rejected(&[], 70);
    let error = ReencodeError::User(Mine(1, Cause));
    assert_eq!(error.to_string(), "index 1");
    assert_eq!(error.source().unwrap().to_string(), "a cause");
}

#[test]
fn other_errors() {
    let held = custom("build_id", "01aa");
    let bytes = module(&[ORDERED[2], &held]);
    let error = Same.reencode_module(&bytes, Offsets::Refuse).unwrap_err();
    assert_eq!(error, ReencodeError::Offsets(12));
    assert_eq!(
        error.to_string(),
        "section at offset 0xc: its offsets would become wrong"
    );
    assert!(error.source().is_none());
    let left_out = Same.reencode_module(&bytes, Offsets::LeaveOut);
    assert_eq!(left_out.unwrap(), module(&[ORDERED[2]]));
    // The section has a count of five and ends after it.
    let unread = Same.reencode_module(&module(&[UNREAD]), Offsets::Refuse);
    let (cause, offset) = (ReadFault::Ended, 12);
    assert_eq!(
        unread,
        Err(ReencodeError::Read(ReadError { cause, offset }))
    );
    assert_eq!(
        unread.unwrap_err().to_string(),
        "unexpected end of input at offset 0xc"
    );
    let memory = ReencodeError::<Infallible>::from(AllocError);
    assert_eq!(memory, ReencodeError::Refused(Refused::Memory));
    assert_eq!(memory.to_string(), "out of memory");
}

// ---- memory

/// The allocator of the system, of which a thread can limit the number of requests.
struct Limited;

thread_local! {
    static LEFT: Cell<Option<usize>> = const { Cell::new(None) };
}

// SAFETY: each call is that of the system's allocator, or returns null.
unsafe impl GlobalAlloc for Limited {
    unsafe fn alloc(&self, layout: Layout) -> *mut u8 {
        match LEFT.get() {
            Some(0) => return std::ptr::null_mut(),
            Some(left) => LEFT.set(Some(left - 1)),
            None => {}
        }
        unsafe { System.alloc(layout) }
    }

    unsafe fn dealloc(&self, first: *mut u8, layout: Layout) {
        unsafe { System.dealloc(first, layout) }
    }
}

#[global_allocator]
static ALLOCATOR: Limited = Limited;

/// Adds an import, of names that it has.
struct AddImport(String, String);

impl Reencode for AddImport {
    type Error = Infallible;

    fn function_index(&mut self, index: u32) -> Result<u32, Infallible> {
        Ok(index + 1)
    }

    fn import_section<'a>(&'a mut self, imports: &mut Vec<Imports<'a>>) -> Edited<Infallible> {
        let (module, name) = (self.0.as_str(), self.1.as_str());
        let ty = EntityType::Function(0);
        imports.push(Imports::Single(Import { module, name, ty }))?;
        imports.rotate_right(1);
        Ok(())
    }
}

#[test]
fn each_request_for_memory_refused() {
    let [types, _, functions, .., start, _, _, code, _] = ORDERED;
    // A group of imports, whose list is copied.
    let group = "016d 00 7f 01 0166 00 00";
    let imports = format!("02 0a 01 {group}");
    let bytes = module(&[types, &imports, functions, start, code, SHORT_NAME]);
    let both = format!("02 10 02 0178 0179 00 00 {group}");
    let expected = module(&[types, &both, functions, "08 01 01", code, SHORT_NAME]);
    let mut add = AddImport("x".into(), "y".into());
    let mut refused = 0;
    let edited = loop {
        LEFT.set(Some(refused));
        let given = add.reencode_module(&bytes, Offsets::Refuse);
        LEFT.set(None);
        match given {
            Ok(edited) => break edited,
            Err(ReencodeError::Refused(error)) => assert_eq!(error, Refused::Memory),
            Err(ReencodeError::Read(error)) => assert_eq!(error.cause, ReadFault::Memory),
            Err(error) => panic!("{error}"),
        }
        refused += 1;
    };
    assert_eq!(edited, expected);
    assert!(refused > 10, "{refused}");
}
