//! Modules whose indices are mapped.
use crate::every::{EVERY, EVERY_SHIFTED};
use crate::samples::{PADDED, PADDED_NAME, SHORT, UNREAD, bytes_of, custom, module};
use dolzhytik::fallible::{Global, Op, Vec};
use dolzhytik::reader::remap::{
    IndexSpace, Remap, RemapError, remap_items, remap_module, remap_section, spaces_of,
};
use dolzhytik::reader::{Items, Offsets, ReadFault, Sections, shorten_module};

/// A map by a function, which returns `None` for an index that it rejects.
pub struct By<F>(pub F);

pub type Rejected = (IndexSpace, u32);

impl<F: Fn(IndexSpace, u32) -> Option<u32>> Remap for By<F> {
    type Error = Rejected;

    fn index(&self, space: IndexSpace, index: u32) -> Result<u32, Rejected> {
        (self.0)(space, index).ok_or((space, index))
    }
}

/// Adds another number in each space, so that the first digit of a new index tells its space.
pub fn shifted(space: IndexSpace, index: u32) -> Option<u32> {
    let by = match space {
        IndexSpace::Data => 0x08,
        IndexSpace::Functions => 0x10,
        IndexSpace::Types => 0x20,
        IndexSpace::Tables => 0x30,
        IndexSpace::Memories => 0x40,
        IndexSpace::Globals => 0x50,
        IndexSpace::Tags => 0x60,
        IndexSpace::Elements => 0x70,
        _ => return None,
    };
    Some(index + by)
}

/// Swaps the indices 0 and 1 of a space.
fn swapping(of: IndexSpace) -> impl Fn(IndexSpace, u32) -> Option<u32> {
    move |space, index| {
        Some(if space == of && index < 2 {
            1 - index
        } else {
            index
        })
    }
}

fn same(_space: IndexSpace, index: u32) -> Option<u32> {
    Some(index)
}

/// Checks what the module of the sections becomes, also if sections that hold offsets are left out.
#[track_caller]
fn check(map: impl Fn(IndexSpace, u32) -> Option<u32>, sections: &[&str], expected: &[&str]) {
    let (map, bytes) = (By(map), module(sections));
    for offsets in [Offsets::Refuse, Offsets::LeaveOut] {
        let remapped = remap_module(&bytes, Global, &map, offsets).unwrap();
        assert_eq!(remapped[..], module(expected));
    }
}

/// Checks that the identity gives the minimal module.
#[track_caller]
fn check_same(sections: &[&str]) {
    let bytes = module(sections);
    let mut sink = Vec::new(Global);
    let kept = shorten_module(Global, &bytes, Offsets::LeaveOut, &mut sink);
    assert_eq!(kept, Ok(0));
    let remapped = remap_module(&bytes, Global, &By(same), Offsets::LeaveOut).unwrap();
    assert_eq!(remapped[..], sink[..]);
}

/// Checks what the payload of a section becomes if each space is shifted.
#[track_caller]
fn check_section(section: &str, expected: &str) {
    let (bytes, expected) = (module(&[section]), module(&[expected]));
    let section = Sections::new(Global, &bytes).unwrap().next();
    let section = section.unwrap().unwrap();
    let mut payload = Vec::new(Global);
    remap_section(&section, Global, &By(shifted), &mut payload).unwrap();
    let expected = Sections::new(Global, &expected).unwrap().next();
    assert_eq!(payload[..], *expected.unwrap().unwrap().payload());
}

// ---- every section

#[test]
fn every_section() {
    check(shifted, &EVERY, &EVERY_SHIFTED);
}

#[test]
fn names() {
    let names = |function: &str, memory: &str| {
        // The module, functions, locals, memories, and a subsection of another kind.
        let functions = format!("0104 01 {function} 0166  0206 01 {function} 01 00 0178");
        let data = format!("0002 016d {functions} 0604 01 {memory} 016d 6302 0000");
        custom("name", &data)
    };
    check(shifted, &[&names("00", "00")], &[&names("10", "40")]);
}

#[test]
fn indirect_names() {
    // Fields of type 1, and parameters of type 2 and of tag 3. Fields and parameters stay.
    let names = |[ty, other, tag]: [&str; 3]| {
        let data = format!("0a09 01 {ty} 02 00 0178 05 0179  0c03 01 {other} 00  0d03 01 {tag} 00");
        custom("name", &data)
    };
    let [before, after] = [names(["01", "02", "03"]), names(["21", "22", "63"])];
    check(shifted, &[&before], &[&after]);
}

#[test]
fn identity() {
    check_same(&EVERY);
    check_same(&[PADDED_NAME, PADDED[0], PADDED[1], PADDED[2], PADDED[3]]);
    // It is left out.
    check_same(&[PADDED[0], &custom("build_id", "01aa")]);
    check(same, &PADDED, &SHORT);
    check(same, &[], &[]);
    check(same, &["63 8100 05"], &["63 01 05"]);
}

#[test]
fn indices_of_more_bytes() {
    let far = |space, index| (space == IndexSpace::Types).then_some(index + 127);
    // By an unsigned number 127 is one byte, by a signed one two.
    check(far, &["03 02 01 00"], &["03 02 01 7f"]);
    check(far, &["03 02 01 01"], &["03 03 01 8001"]);
    let [before, after] = ["0a 07 01 05 00 0200 0b0b", "0a 08 01 06 00 02ff00 0b0b"];
    check(far, &[before], &[after]);
}

// ---- table 0 and memory 0

#[test]
fn element_segments_without_a_table() {
    let swapped = swapping(IndexSpace::Tables);
    // Of functions, and of expressions.
    let before = "09 0f 02 00 4100 0b 01 07  04 4100 0b 01 d207 0b";
    let after = "09 13 02 02 01 4100 0b 00 01 07  06 01 4100 0b 70 01 d207 0b";
    check(&swapped, &[before], &[after]);
    // A segment with a table keeps one.
    let table_0 = "09 13 02 02 00 4100 0b 00 01 07  06 00 4100 0b 70 01 d207 0b";
    check(&swapped, &[after], &[table_0]);
    check(&swapped, &[table_0], &[after]);
    // Passive and declared segments have none.
    let others = "09 09 02 01 00 01 07  03 00 01 07";
    check(&swapped, &[others], &[others]);
}

#[test]
fn memory_0_in_data_segments() {
    let swapped = swapping(IndexSpace::Memories);
    let [memory_0, memory_1] = ["0b 06 01 00 4100 0b 00", "0b 07 01 02 01 4100 0b 00"];
    check(&swapped, &[memory_0], &[memory_1]);
    check(&swapped, &[memory_1], &[memory_0]);
    check(&swapped, &["0b 07 01 02 00 4100 0b 00"], &[memory_1]);
    check(&swapped, &["0b 03 01 01 00"], &["0b 03 01 01 00"]);
}

#[test]
fn memory_0_in_memory_arguments() {
    let swapped = swapping(IndexSpace::Memories);
    let [memory_0, memory_1] = ["0a 07 01 05 00 280203 0b", "0a 08 01 06 00 28420103 0b"];
    check(&swapped, &[memory_0], &[memory_1]);
    check(&swapped, &[memory_1], &[memory_0]);
    check(&swapped, &["0a 08 01 06 00 28420003 0b"], &[memory_1]);
    // With bit 5 the index is that of an array type, and there is no memory.
    let array = "0a 08 01 06 00 28220003 0b";
    check(&swapped, &[array], &[array]);
    check(shifted, &[array], &["0a 08 01 06 00 28222003 0b"]);
}

// ---- groups of imports

#[test]
fn groups_of_imports() {
    // `Compact1`: functions of types 1 and 2, the second one exact. `Compact2`: tags of type 3.
    let group = |[f, g, tag]: [&str; 3]| {
        format!("02 19 02 016d 00 7f 02 0166 00 {f} 0167 20 {g}  016d 00 7e 04 00 {tag} 02 00 0165")
    };
    let [before, after] = [group(["01", "02", "03"]), group(["21", "22", "23"])];
    check(shifted, &[&before], &[&after]);
}

// ---- single sections

#[test]
fn sections_that_hold_offsets() {
    let hints = |index| {
        custom(
            "metadata.code.branch_hint",
            &format!("01 {index} 01 07 01 01"),
        )
    };
    check_section(&hints("05"), &hints("15"));
    // The function of compilation hints, and the functions of call targets, but not their shares.
    for (name, values) in [("instr_freq", "20"), ("compilation_order", "05 06")] {
        let size = values.len().div_ceil(3);
        let hints = |index| {
            let data = format!("01 {index} 01 07 {size:02} {values}");
            custom(&format!("metadata.code.{name}"), &data)
        };
        check_section(&hints("05"), &hints("15"));
    }
    let targets = |index, target| {
        let data = format!("01 {index} 01 07 04 {target} 05 {index} 06");
        custom("metadata.code.call_targets", &data)
    };
    check_section(&targets("05", "06"), &targets("15", "16"));
    // The index of a symbol, and that of a type.
    let relocations = |index| custom("reloc.CODE", &format!("03 02 00 04 01  06 09 {index}"));
    check_section(&relocations("01"), &relocations("21"));
    // Symbols of a function, of data, and of a section; a group of data and a function.
    let linking = |data, function| {
        let symbols = format!("080e 03 00 10 {function} 01 00 0164 {data} 00 04 03 00 05");
        let groups = format!("0709 01 0167 00 02 00 {data} 01 {function}");
        custom("linking", &format!("02 {symbols} {groups}"))
    };
    check_section(&linking("01", "02"), &linking("09", "12"));
}

#[test]
fn items_in_place() {
    let bytes = module(&["03 03 02 00 01"]);
    let section = Sections::new(Global, &bytes).unwrap().next();
    let mut items = section.unwrap().unwrap().items().unwrap();
    remap_items(&mut items, Global, &By(shifted)).unwrap();
    assert!(matches!(&items, Items::Functions(types) if types[..] == [0x20, 0x21]));
}

#[test]
fn spaces() {
    use IndexSpace::{Elements, Tables, Types};
    assert_eq!(spaces_of(Op::Byte(0x11)), (Some(Types), Some(Tables)));
    assert_eq!(spaces_of(Op::Byte(0x20)), (None, None));
    let table_init = Op::Prefixed(0xFC, 12);
    assert_eq!(spaces_of(table_init), (Some(Elements), Some(Tables)));
    assert_eq!(spaces_of(Op::Prefixed(0xFB, 2)), (Some(Types), None));
}

/// Each way that an instruction of a body takes.
#[test]
fn instructions() {
    check_section(
        // A local of a nullable function reference, i32.const in two bytes, f64.const, a lane, a load
        // of a lane, br_table, return_call, return_call_indirect of a type in two bytes, memory.copy,
        // a typed select, and blocks of a reference and of a type.
        "0a 34 01 32 01 01 6370  418000 440000000000000000 fd1500 fd54000000 0e010000 \
            1200 13800000 fc0a0000 1c016370 0263700b 02000b 0b",
        // Types and numbers in their minimal encoding, and memory 40 by a flag.
        "0a 30 01 2e 01 01 70  4100 440000000000000000 fd1500 fd5440400000 0e010000 \
            1210 132030 fc0a4040 1c0170 02700b 02200b 0b",
    );
}

// ---- errors

fn error(
    map: impl Fn(IndexSpace, u32) -> Option<u32>,
    bytes: &[u8],
    offsets: Offsets,
) -> RemapError<Rejected> {
    remap_module(bytes, Global, &By(map), offsets).unwrap_err()
}

#[test]
fn a_map_that_rejects() {
    let is_below = |space, index| (space != IndexSpace::Functions || index < 1).then_some(index);
    let bytes = module(&[EVERY[6]]);
    let rejected = error(is_below, &bytes, Offsets::Refuse);
    assert!(matches!(
        rejected,
        RemapError::Index((IndexSpace::Functions, 1))
    ));
    // The sink keeps its bytes.
    let section = Sections::new(Global, &bytes).unwrap().next();
    let section = section.unwrap().unwrap();
    let mut sink = Vec::from_slice(Global, &[0xAA]).unwrap();
    let result = remap_section(&section, Global, &By(is_below), &mut sink);
    assert!(matches!(result, Err(RemapError::Index(_))));
    assert_eq!(sink[..], [0xAA]);
    // A map of another space is not asked.
    let no_table = |space, index| (space != IndexSpace::Tables).then_some(index);
    check(no_table, &SHORT, &SHORT);
}

#[test]
fn a_section_that_holds_offsets() {
    let id = custom("build_id", "01aa");
    let sections = [SHORT[0], &id, SHORT[1]];
    let refused = error(same, &module(&sections), Offsets::Refuse);
    assert!(matches!(refused, RemapError::Offsets(17)));
    let bytes = module(&sections);
    let remapped = remap_module(&bytes, Global, &By(shifted), Offsets::LeaveOut).unwrap();
    assert_eq!(remapped[..], module(&[SHORT[0], "03 02 01 20"]));
}

#[test]
fn bytes_that_do_not_decode() {
    let unread = error(same, &module(&[SHORT[0], UNREAD]), Offsets::LeaveOut);
    let RemapError::Read(unread) = unread else {
        panic!("{unread:?}");
    };
    assert_eq!((unread.cause, unread.offset), (ReadFault::Ended, 21));
    let no_module = error(same, &bytes_of("00"), Offsets::LeaveOut);
    assert!(matches!(no_module, RemapError::Read(_)));
}

/// In code that does not decode, no rejected index is reported.
#[test]
fn a_wrong_byte_in_code() {
    let none = |space, index| (space != IndexSpace::Functions).then_some(index);
    let wrong = [
        ("0a 06 01 04 00 1000 ff", ReadFault::UnknownOpcode, 15),
        ("0a 07 01 05 00 ff 1000 0b", ReadFault::UnknownOpcode, 13),
        ("0a 07 01 04 00 01010b 0b", ReadFault::SizeMismatch, 16),
        ("0a 05 02 03 00 010b", ReadFault::Ended, 15),
        ("0a 04 01 02 0101", ReadFault::Ended, 14),
    ];
    for (section, cause, offset) in wrong {
        let RemapError::Read(unread) = error(none, &module(&[section]), Offsets::LeaveOut) else {
            panic!("{section}");
        };
        assert_eq!((unread.cause, unread.offset), (cause, offset), "{section}");
    }
}
