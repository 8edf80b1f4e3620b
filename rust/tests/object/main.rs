//! The object file of the example `object`. Its sections decode, and its relocations are at padded
//! operands. wasm-ld links it with an object of clang, and node runs the linked module.
#[allow(dead_code, reason = "`main` is not called")]
#[path = "../../examples/object.rs"]
mod example;
#[path = "../support/tools.rs"]
mod tools;

use dolzhytik::encoding_size;
use dolzhytik::fallible::{self, Addend32Relocation, Global, Op, PlainRelocation, Relocation};
use dolzhytik::reader::{
    Instructions, Items, LinkItem, Operands, Outlined, Padded, Readable, SectionKind, Sections,
    encode_items, outline, read_section,
};
use std::fs;

/// Returns the items of a section, all of whose bytes decode.
fn decode<'a>(object: &'a [u8], section: &Outlined<'_>, kind: SectionKind) -> Items<'a> {
    let length = encoding_size(section.size) + section.size as usize;
    let end = section.offset + section.size as usize;
    let (items, taken) = read_section(Global, kind, &object[end - length..]).expect("a section");
    assert_eq!(taken, length, "{section:?}");
    items
}

#[test]
fn all_sections_decode() {
    let object = example::object();
    let sections = outline(Global, &object).expect("a module");
    let counts: Vec<_> = sections.iter().map(|it| (it.id, it.items)).collect();
    let counted = [(1, 3), (2, 3), (3, 2), (10, 2)].map(|(id, items)| (id, Some(items)));
    assert_eq!(counts, [&counted[..], &[(0, None), (0, None)]].concat());

    let items = decode(&object, &sections[4], SectionKind::Linking);
    let Items::Linking(links) = items else {
        panic!("{items:?}")
    };
    let [LinkItem::Symbols(symbols)] = &links[..] else {
        panic!("{links:?}")
    };
    assert_eq!(symbols.len(), 5);
    let code = decode(&object, &sections[3], SectionKind::Bodies);
    assert!(matches!(code, Items::Bodies(bodies) if bodies.len() == 2));
    let relocations = decode(&object, &sections[5], SectionKind::Relocations);
    assert!(matches!(relocations, Items::Relocations { name, .. } if name == "reloc.CODE"));
}

/// An instruction whose last operand has five bytes: the operand's offset in the payload of the
/// code section, the opcode, and the operand's value.
type Operand = (usize, Op, u64);

/// Returns the padded operands of a code section.
fn padded_operands(payload: &[u8]) -> Vec<Operand> {
    let mut operands = Vec::new();
    let (count, mut rest) = <u32 as Readable<Global, Padded>>::read(payload, Global).unwrap();
    for _ in 0..count {
        let (body, after) = <&[u8] as Readable<Global, Padded>>::read(rest, Global).unwrap();
        let start = payload.len() - after.len() - body.len();
        let (_locals, mut instructions) = Instructions::of_body(body, Global).unwrap();
        while let Some(decoded) = instructions.next().unwrap() {
            let value = match decoded.operands {
                Operands::U32(index) => u64::from(index),
                Operands::Mem(argument) => argument.offset,
                _ => continue,
            };
            let end = instructions.offset();
            if end > decoded.offset + 5 {
                operands.push((start + end - 5, decoded.op, value));
            }
        }
        rest = after;
    }
    operands
}

#[test]
fn relocations_are_at_padded_operands() {
    let object = example::object();
    let sections = outline(Global, &object).expect("a module");
    let items = decode(&object, &sections[5], SectionKind::Relocations);
    let Items::Relocations {
        section,
        relocations,
        ..
    } = items
    else {
        panic!("{items:?}")
    };
    let code = &sections[section as usize];
    assert_eq!(code.id, 10);
    let payload = &object[code.offset..code.offset + code.size as usize];
    let plain = |kind, index| {
        move |offset| Relocation::Plain {
            kind,
            offset,
            index,
        }
    };
    let global = plain(PlainRelocation::GlobalIndexLeb, 3);
    let function = plain(PlainRelocation::FunctionIndexLeb, 0);
    let address = |offset| Relocation::Addend32 {
        kind: Addend32Relocation::MemoryAddrLeb,
        offset,
        index: 4,
        addend: 0,
    };
    // `global.get`, `global.set`, `call` and `global.set`; then `i32.load` and `i32.store`.
    let expected: [(u8, &dyn Fn(u32) -> Relocation); 6] = [
        (0x23, &global),
        (0x24, &global),
        (0x10, &function),
        (0x24, &global),
        (0x28, &address),
        (0x36, &address),
    ];
    let operands = padded_operands(payload);
    assert_eq!((operands.len(), relocations.len()), (6, 6));
    for ((operand, relocation), (byte, expected)) in
        operands.into_iter().zip(&relocations[..]).zip(expected)
    {
        let (offset, op, value) = operand;
        assert_eq!((op, value), (Op::Byte(byte), 0));
        assert_eq!(payload[offset..offset + 5], [0x80, 0x80, 0x80, 0x80, 0x00]);
        assert_eq!(*relocation, expected(offset as u32));
    }
}

/// Returns the relocations of a section as text, if it is a relocation section.
fn relocations_of(items: &Items<'_>) -> Option<String> {
    match items {
        Items::Relocations { name, .. } => Some(format!("{name} {items:?}")),
        _ => None,
    }
}

/// Every relocation section of an object of clang decodes, and its minimal encoding decodes to the
/// same relocations.
#[test]
fn relocations_of_clang_decode() {
    let options = ["-O1", "-g"];
    let squares = tools::compile("object/squares.c", &options, "squares_with_debug.o");
    let Some(squares) = squares else { return };
    let object = fs::read(squares).expect("an object");
    let mut names = Vec::new();
    for section in Sections::new(Global, &object).expect("a module") {
        let section = section.expect("a section");
        let Some(name) = section.name().filter(|name| name.starts_with("reloc.")) else {
            continue;
        };
        names.push(name.to_string());
        let items = section.items().expect("relocations");
        let told = relocations_of(&items).expect("relocations");
        let mut payload = fallible::Vec::new(Global);
        encode_items(&items, &mut payload).expect("an encoding");
        assert!(payload.len() <= section.payload().len());
        let mut again = Vec::new();
        dolzhytik::Encode::encode(&payload[..], &mut again);
        let (items, _) = read_section(Global, SectionKind::Relocations, &again).expect("a section");
        assert_eq!(relocations_of(&items), Some(told));
    }
    assert!(names.iter().any(|name| name == "reloc.CODE"), "{names:?}");
    assert!(
        names.iter().any(|name| name == "reloc..debug_info"),
        "{names:?}"
    );
}

/// Calls the linked functions. The stack pointer must be the same afterwards.
const CALLS: &str = "
const { run, calls, __stack_pointer } = new WebAssembly.Instance(module).exports;
const before = __stack_pointer.value;
console.log(run(3, 4), run(5, 12), run(-8, 15), calls(), __stack_pointer.value === before);
";

#[test]
fn the_linked_module_runs() {
    let ours = tools::temporary("ours.o");
    fs::write(&ours, example::object()).expect("a file");
    let squares = tools::compile("object/squares.c", &["-O1"], "squares.o");
    let Some(squares) = squares else { return };
    // clang 14 does not say that its objects may export a mutable global.
    let options = ["--export=__stack_pointer", "--no-check-features"];
    let linked = tools::link(&[&ours, &squares], &options, "linked.wasm");
    let Some(linked) = linked else { return };
    let module = fs::read(linked).expect("a module");
    if let Some(answers) = tools::run(&module, CALLS) {
        assert_eq!(answers, "25 169 289 3 true\n");
    }
}
