//! Lengths near the limit of 32-bit addresses. A slice has at most 2^31 - 1 bytes, and memory has
//! space for one such slice, not two: a call that needs a second one returns an error and changes
//! nothing.
use crate::harness::{panics_with, zeros};
use dolzhytik as root;
use dolzhytik::fallible::{
    self, CodeSection, ConstExpr, CoreDumpModulesSection, CoreDumpSection, CoreDumpStackSection,
    CowSlice, CowStr, CustomSection, DataSection, ElementSection, Encode, EntityType, ExportKind,
    ExportSection, Global, GlobalSection, ImportSection, LinkingSection, NameMap, NameSection,
    ProducersField, RawSection, Refused, Result, Section, SymbolTable,
};
use dolzhytik::reader::{Outlined, outline};

/// The most bytes that a slice has.
const MOST: usize = isize::MAX as usize;

/// Most of a half of memory, in bytes. The allocator refuses a second request of this size.
/// Requests of more than `MOST` do not reach it.
const HALF: usize = (1 << 31) - (1 << 16);

fn custom<'a>(name: &'a str, bytes: &'a [u8]) -> CustomSection<'a> {
    CustomSection {
        name: CowStr::Borrowed(name),
        bytes: CowSlice::Borrowed(bytes),
    }
}

fn encoded(value: &impl Encode) -> Result<Vec<u8>> {
    let mut bytes = vec![];
    value.encode(&mut bytes)?;
    Ok(bytes)
}

/// Checks that a section is an error, and that the sink and the module are unchanged.
fn check_section(long: &impl Section, refused: Refused) -> Result<()> {
    let mut sink = vec![7];
    assert_eq!(long.encode(&mut sink), Err(refused));
    assert_eq!(sink, [7]);
    300_u32.encode(&mut sink)?;
    assert_eq!(sink, [7, 0xAC, 0x02]);

    let mut module = fallible::Module::new(Global)?;
    module.section(&custom("a", &[1]))?;
    assert_eq!(module.section(long), Err(refused));
    module.section(&custom("b", &[2]))?;
    let bytes: Vec<u8> = module.finish().into();
    assert_eq!(bytes, b"\0asm\x01\0\0\0\0\x03\x01a\x01\0\x03\x01b\x02");
    Ok(())
}

#[test]
fn sections_that_memory_does_not_hold() -> Result<()> {
    let text = zeros(HALF);
    let bytes = text.as_bytes();
    check_section(&custom("long", bytes), Refused::Memory)?;
    check_section(&custom(&text, &[]), Refused::Memory)?;
    check_section(&RawSection { id: 11, bytes }, Refused::Memory)?;
    let owned: CustomSection = CustomSection {
        name: CowStr::Borrowed("owned"),
        bytes: CowSlice::Owned(text.into_bytes().into()),
    };
    check_section(&owned, Refused::Memory)?;
    assert_eq!(owned.clone().err(), Some(Refused::Memory));
    assert_eq!(owned.bytes.as_slice().len(), HALF);
    Ok(())
}

/// The size of the section is twice the length, and the five bytes of the name's length: at most
/// 4294967295.
#[test]
fn a_name_and_data_whose_sum_passes_32_bits() -> Result<()> {
    let text = zeros(MOST);
    for (len, refused) in [
        (MOST, Refused::TooLong),
        (MOST - 1, Refused::TooLong),
        (MOST - 2, Refused::Memory),
    ] {
        let text = &text[..len];
        check_section(&custom(text, text.as_bytes()), refused)?;
    }
    Ok(())
}

/// Checks that a builder of one entry refuses long ones, keeps its bytes, and takes another entry.
fn check_builder<B: Encode>(
    new: fn(Global) -> B,
    short: fn(&mut B) -> Result<()>,
    long: &[&dyn Fn(&mut B) -> Result<()>],
) -> Result<()> {
    let mut expected = new(Global);
    short(&mut expected)?;
    let one = encoded(&expected)?;
    short(&mut expected)?;

    let mut builder = new(Global);
    short(&mut builder)?;
    for call in long {
        assert_eq!(call(&mut builder), Err(Refused::Memory));
        assert_eq!(encoded(&builder)?, one);
    }
    short(&mut builder)?;
    assert_eq!(encoded(&builder)?, encoded(&expected)?);
    Ok(())
}

#[test]
fn entries_of_given_bytes() -> Result<()> {
    let text = zeros(MOST);
    let bytes = text.as_bytes();
    let offset = ConstExpr::i32_const(Global, 0)?;
    for long in [&bytes[..HALF], bytes] {
        check_builder(
            DataSection::new,
            |data| data.passive([7]),
            &[
                &|data| data.passive(long.iter().copied()),
                &|data| data.passive(std::iter::repeat_n(0, usize::MAX)),
                &|data| data.active(1, &offset, long.iter().copied()),
                &|data| data.raw(long),
            ],
        )?;
        check_builder(
            CodeSection::new,
            |it| it.raw(&[0, 0x0B]),
            &[&|it| it.raw(long)],
        )?;
        check_builder(
            ElementSection::new,
            |it| it.raw(&[1, 0, 0]),
            &[&|it| it.raw(long)],
        )?;
        check_builder(
            GlobalSection::new,
            |it| it.raw(&[0x7F, 0, 0x0B]),
            &[&|it| it.raw(long)],
        )?;
    }
    Ok(())
}

/// Two names in one entry have up to 2^32 - 2 bytes together.
#[test]
fn entries_with_names() -> Result<()> {
    let text = zeros(MOST);
    for long in [&text[..HALF], &text] {
        check_builder(
            ImportSection::new,
            |imports| imports.import("m", "f", EntityType::Function(0)),
            &[
                &|imports| imports.import(long, "f", EntityType::Function(0)),
                &|imports| imports.import("m", long, EntityType::Function(0)),
                &|imports| imports.import(long, long, EntityType::Function(0)),
            ],
        )?;
        check_builder(
            ExportSection::new,
            |exports| exports.export("f", ExportKind::Func, 0),
            &[&|exports| exports.export(long, ExportKind::Func, 0)],
        )?;
        check_builder(
            ProducersField::new,
            |field| field.value("a", "1"),
            &[
                &|field| field.value(long, "1"),
                &|field| field.value("a", long),
                &|field| field.value(long, long),
            ],
        )?;
    }
    Ok(())
}

#[test]
fn entries_of_custom_sections() -> Result<()> {
    let text = zeros(MOST);
    for long in [&text[..HALF], &text] {
        check_builder(
            NameMap::new,
            |it| it.append(0, "a"),
            &[&|it| it.append(0, long)],
        )?;
        check_builder(
            NameSection::new,
            |it| it.module("m"),
            &[&|it| it.module(long)],
        )?;
        check_builder(
            SymbolTable::new,
            |it| it.table(0, 0, Some("t")),
            &[&|it| it.table(0, 0, Some(long)), &|it| {
                it.data(0, long, None)
            }],
        )?;
        check_builder(
            LinkingSection::new,
            |it| it.target_arch("a"),
            &[&|it| it.target_arch(long)],
        )?;
        check_builder(
            CoreDumpModulesSection::new,
            |it| it.module("a"),
            &[&|it| it.module(long)],
        )?;
        assert_eq!(
            CoreDumpSection::new(Global, long).err(),
            Some(Refused::Memory)
        );
        assert_eq!(
            CoreDumpStackSection::new(Global, long).err(),
            Some(Refused::Memory)
        );
    }
    Ok(())
}

/// The names at the root panic instead.
#[test]
fn names_at_the_root() {
    let text = zeros(MOST);
    let encode = |len: usize| {
        let section = root::CustomSection {
            name: text[..len].into(),
            data: text.as_bytes()[..len].into(),
        };
        root::Encode::encode(&section, &mut vec![]);
    };
    assert!(panics_with("too long", || encode(MOST)));
    assert!(panics_with("too long", || encode(MOST - 1)));
    assert!(panics_with("capacity overflow", || encode(MOST - 2)));
    assert!(panics_with("memory allocation of", || {
        root::DataSection::new().passive(text[..HALF].bytes());
    }));
    assert!(!panics_with("", || encode(3)));
}

/// A section that memory holds, whose size takes five bytes, and where the reader finds it.
#[test]
fn a_section_of_2_to_the_28_bytes() -> Result<()> {
    const SIZE: u32 = (1 << 28) + 2;
    let mut bytes = vec![0; 1 << 28];
    bytes[0] = 1;
    bytes[(1 << 28) - 1] = 2;
    let mut module = fallible::Module::new(Global)?;
    module.section(&custom("a", &bytes))?;
    module.section(&custom("b", &[]))?;
    let module = module.finish();
    assert_eq!(module[8..17], *b"\0\x82\x80\x80\x80\x01\x01a\x01");
    assert_eq!(module[module.len() - 5..], *b"\x02\0\x02\x01b");
    let line = |offset, size, name| Outlined {
        id: 0,
        offset,
        size,
        items: None,
        name: Some(name),
    };
    let expected = [line(14, SIZE, "a"), line(18 + (1 << 28), 2, "b")];
    assert_eq!(*outline(Global, &module).unwrap(), expected);
    Ok(())
}
