//! What the tests of this folder compare.
use crate::cases::first_byte;
use dolzhytik::fallible::{self, Global, hex};
use dolzhytik::reader::Instructions;
use dolzhytik::{Encode, Function, Instruction, InstructionSink, Module, Section};

/// The bytes of a value.
pub fn encoded(value: &(impl Encode + ?Sized)) -> Vec<u8> {
    let mut bytes = Vec::new();
    value.encode(&mut bytes);
    bytes
}

/// The bytes that a text of hexadecimal digits tells, with spaces between them or not.
pub fn bytes_of(text: &str) -> Vec<u8> {
    let digits: String = text.split_whitespace().collect();
    hex::decode(Global, digits).unwrap().into()
}

/// Checks the bytes of a section, after its id, and that it is appended to a module with it.
pub fn section(section: &impl Section, id: u8, expected: &[u8]) {
    assert_eq!(encoded(section), expected);
    assert_eq!(section.id(), id);
    let mut module = Module::new();
    module.section(section);
    assert_eq!(module.len(), 9 + expected.len());
    assert_eq!(module.as_slice()[8], id);
    assert_eq!(module.finish()[9..], *expected);
}

/// Checks that the bytes decode to the instruction alone, converted from what a reader decodes.
fn check_decoded(bytes: &[u8], value: &Instruction<'_>) {
    let mut instructions = Instructions::standard(bytes, Global);
    let decoded = instructions.next().unwrap().expect("an instruction");
    let args = decoded.operands.to_args(Global).unwrap();
    let borrowed = Instruction::try_from((decoded.op, &args[..])).unwrap();
    for converted in [borrowed, Instruction::try_from(decoded).unwrap()] {
        assert_eq!(format!("{converted:?}"), format!("{value:?}"));
        assert_eq!(encoded(&converted), bytes, "{value:?}");
    }
    assert!(instructions.next().unwrap().is_none(), "{value:?}");
}

/// Checks that an instruction has these bytes: as a value, by its named call, and by `encode` of
/// its proved value, which equals its conversion. Its bytes decode to it.
pub fn check(
    text: &str,
    value: Instruction<'_>,
    call: fn(&mut InstructionSink<'_>),
    proved: fallible::Instruction<'_>,
) {
    let expected = bytes_of(text);
    assert_eq!(encoded(&value), expected, "{value:?}");
    assert_eq!(first_byte(&value), Some(expected[0]), "{value:?}");

    let mut called = Vec::new();
    call(&mut InstructionSink::new(&mut called));
    assert_eq!(called, expected, "{value:?}");

    let mut body = Function::new([]);
    body.instruction(&value);
    assert_eq!(body.into_raw_body()[1..], expected, "{value:?}");

    for proved in [proved, fallible::Instruction::from(&value)] {
        let mut bytes = Vec::new();
        fallible::Encode::encode(&proved, &mut bytes).unwrap();
        assert_eq!(bytes, expected, "{value:?}");
    }
    assert_eq!(encoded(&value.clone()), expected, "{value:?}");
    check_decoded(&expected, &value);
}
