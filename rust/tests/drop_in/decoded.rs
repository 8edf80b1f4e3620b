//! Decoded instructions, converted to values: opcodes and arguments that no instruction has, and
//! the forms of `select`. `cases` converts each instruction.
use dolzhytik::fallible::{Global, Op, Vec};
use dolzhytik::reader::{Arg, Plain, ReadFault};
use dolzhytik::{Instruction, ValType};

/// Returns the result of the conversion, as text.
fn converted(op: Op, args: &[Arg]) -> Result<String, ReadFault> {
    Instruction::try_from((op, args)).map(|it| format!("{it:?}"))
}

#[test]
fn opcodes_and_arguments_that_no_instruction_has() {
    let number = || Arg::U32(1);
    for (op, args) in [
        (Op::Byte(0xFF), vec![]),
        (Op::Byte(0xFC), vec![]),
        // The number of `i32.add`, after a prefix that no instruction has.
        (Op::Prefixed(0x00, 0x6A), vec![]),
        // Its low 24 bits are those of `i32.trunc_sat_f32_s`, FC 0.
        (Op::Prefixed(0xFC, 0x0100_0000), vec![]),
        (Op::Prefixed(0xFC, 99), vec![]),
        (Op::Byte(0x6A), vec![number()]),
        (Op::Byte(0x20), vec![]),
        (Op::Byte(0x20), vec![Arg::S32(1)]),
        (Op::Byte(0x20), vec![number(), number()]),
    ] {
        assert_eq!(
            converted(op, &args),
            Err(ReadFault::UnknownOpcode),
            "{op:?}"
        );
    }
    assert_eq!(converted(Op::Byte(0x6A), &[]), Ok("I32Add".into()));
    let saturating = converted(Op::Prefixed(0xFC, 0), &[]);
    assert_eq!(saturating, Ok("I32TruncSatF32S".into()));
}

#[test]
fn selects_of_one_type_and_of_more() {
    let select = |types: &[ValType]| {
        let list = Vec::from_slice(Global, types).unwrap();
        converted(Op::Byte(0x1C), &[Arg::Types(list)]).unwrap()
    };
    assert_eq!(select(&[ValType::I32]), "TypedSelect(I32)");
    assert_eq!(select(&[]), "TypedSelectMulti([])");
    assert_eq!(select(&[ValType::I32; 2]), "TypedSelectMulti([I32, I32])");
}

#[test]
fn instructions_in_normal_form() {
    let mut args = Vec::new(Global);
    args.push(Arg::U32(7)).unwrap();
    let plain: Plain = Plain {
        op: Op::Byte(0x20),
        args,
    };
    let converted = Instruction::try_from(&plain).unwrap();
    assert_eq!(format!("{converted:?}"), "LocalGet(7)");
}
