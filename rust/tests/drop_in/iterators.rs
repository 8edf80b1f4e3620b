//! When calls make, measure and finish the lists that they take: the order of the Rust crate.
use crate::checks::encoded;
use crate::recorded::{Call, List, Log};
use dolzhytik::*;
use std::rc::Rc;

/// Two lists, of which the first fills the second at its end.
fn filling<T: Clone>(log: &Log, items: &[T], filled: &[T]) -> (List<T>, List<T>) {
    let mut first = List::new(1, log, items);
    let second = List::new(2, log, &[]);
    first.fills = Some((filled.to_vec(), Rc::clone(&second.items)));
    (first, second)
}

/// The calls of a list of this many items: it is made, measured once, and finished.
fn finished(number: u8, items: usize) -> Vec<Call> {
    let mut calls = vec![Call::IntoIter(number), Call::Len(number)];
    calls.extend(vec![Call::Next(number); items + 1]);
    calls
}

/// The same of two lists: the first is finished before the second is made.
fn one_after_another(first: usize, second: usize) -> Vec<Call> {
    [finished(1, first), finished(2, second)].concat()
}

#[test]
fn an_instance_finishes_its_memories_before_its_globals_are_made() {
    let log = Log::default();
    let (memories, globals) = filling(&log, &[4, 5], &[40, 50]);
    let mut instances = CoreDumpInstancesSection::new();
    instances.instance(7, memories, globals);
    // One instance: 00, module 7; two memories, 4 and 5; two globals, 40 and 50.
    let bytes = [1, 0, 7, 2, 4, 5, 2, 40, 50];
    assert_eq!(instances.as_custom().data, &bytes[..]);
    assert_eq!(*log.borrow(), one_after_another(2, 2));
}

#[test]
fn a_frame_finishes_its_locals_before_its_stack_is_made() {
    let log = Log::default();
    let values = [CoreDumpValue::I32(40), CoreDumpValue::I32(50)];
    let (locals, stack) = filling(&log, &[CoreDumpValue::Missing], &values);
    let mut section = CoreDumpStackSection::new("t");
    section.frame(0, 42, 51, locals, stack);
    // 00, "t"; one frame: 00, instance 0, function 42, offset 51; one local, missing; two values.
    let bytes = [0, 1, b't', 1, 0, 0, 42, 51, 1, 0x01, 2, 0x7F, 40, 0x7F, 50];
    assert_eq!(section.as_custom().data, &bytes[..]);
    assert_eq!(*log.borrow(), one_after_another(1, 2));
}

/// Both are made first.
#[test]
fn a_function_type_finishes_its_parameters_before_its_results_are_measured() {
    let log = Log::default();
    let (params, results) = filling(&log, &[ValType::I32], &[ValType::I64, ValType::F32]);
    let mut types = TypeSection::new();
    types.ty().function(params, results);
    // Size 7, one type: a function, 60, of one parameter, i32, and two results, i64 and f32.
    assert_eq!(encoded(&types), [7, 1, 0x60, 1, 0x7F, 2, 0x7E, 0x7D]);
    let mut calls = vec![Call::IntoIter(1), Call::IntoIter(2)];
    calls.extend(&finished(1, 1)[1..]);
    calls.extend(&finished(2, 2)[1..]);
    assert_eq!(*log.borrow(), calls);
}

/// No length is asked for, since the types are collected.
#[test]
fn a_type_that_is_a_value_finishes_its_parameters_before_its_results_are_made() {
    let log = Log::default();
    let (params, results) = filling(&log, &[ValType::I32], &[ValType::I64]);
    let ty = FuncType::new(params, results);
    let types = (&[ValType::I32][..], &[ValType::I64][..]);
    assert_eq!((ty.params(), ty.results()), types);
    let without_length =
        |calls: Vec<Call>| calls.into_iter().filter(|it| !matches!(it, Call::Len(_)));
    assert!(without_length(one_after_another(1, 1)).eq(log.borrow().iter().copied()));
}

/// Checks that a call makes a list of these items, measures it once, and finishes it.
fn finishes<T: Clone>(items: &[T], call: impl FnOnce(List<T>)) {
    let log = Log::default();
    call(List::new(1, &log, items));
    assert_eq!(*log.borrow(), finished(1, items.len()));
}

#[test]
fn calls_of_the_sink_measure_their_list_once() {
    let mut bytes = Vec::new();
    let mut sink = InstructionSink::new(&mut bytes);
    finishes(&[5, 6], |labels| {
        sink.br_table(labels, 7);
    });
    let catch = Catch::All { label: 3 };
    finishes(&[catch], |catches| {
        sink.try_table(BlockType::Empty, catches);
    });
    let handle = Handle::OnSwitch { tag: 4 };
    let handles = [handle.clone(), handle];
    finishes(&handles, |handles| {
        sink.resume(0, handles);
    });
    finishes(&handles, |handles| {
        sink.resume_throw(0, 1, handles);
    });
    finishes(&handles, |handles| {
        sink.resume_throw_ref(0, handles);
    });
    let expected = [
        &[0x0E, 2, 5, 6, 7][..],
        &[0x1F, 0x40, 1, 2, 3],
        &[0xE3, 0, 2, 1, 4, 1, 4],
        &[0xE4, 0, 1, 2, 1, 4, 1, 4],
        &[0xE5, 0, 2, 1, 4, 1, 4],
    ];
    assert_eq!(bytes, expected.concat());
}

#[test]
fn other_calls_measure_their_list_once() {
    finishes(&[(1, ValType::I32), (2, ValType::I64)], |locals| {
        assert_eq!(Function::new(locals).into_raw_body(), [2, 1, 0x7F, 2, 0x7E]);
    });
    let mut types = TypeSection::new();
    let field = FieldType {
        element_type: StorageType::I8,
        mutable: false,
    };
    finishes(&[field; 2], |fields| types.ty().struct_(fields));
    finishes::<SubType>(&[], |group| types.ty().rec(group));
    // Size 9, two entries: a structure, 5F, of two fields; a group, 4E, of no types.
    assert_eq!(encoded(&types), [9, 2, 0x5F, 2, 0x78, 0, 0x78, 0, 0x4E, 0]);
    let mut hints = BranchHints::new();
    let hint = BranchHint {
        branch_func_offset: 3,
        branch_hint_value: 1,
    };
    finishes(&[hint; 2], |list| hints.function_hints(5, list));
    assert!(encoded(&hints).ends_with(&[1, 5, 2, 3, 1, 1, 3, 1, 1]));
    let mut list = Vec::new();
    finishes(&[5_u32, 128], |items| encode_vec(items, &mut list));
    assert_eq!(list, [2, 5, 0x80, 1]);
}

#[test]
fn data_is_measured_once() {
    let mut data = DataSection::new();
    let offset = ConstExpr::i32_const(0);
    finishes(&[1, 2], |bytes| {
        data.passive(bytes);
    });
    finishes(&[3], |bytes| {
        data.active(1, &offset, bytes);
    });
    finishes(&[4], |data_of| {
        let mode = DataSegmentMode::Active {
            memory_index: 0,
            offset: &offset,
        };
        data.segment(DataSegment {
            mode,
            data: data_of,
        });
    });
    let segments = [
        &[1, 2, 1, 2][..],
        &[2, 1, 0x41, 0, 0x0B, 1, 3],
        &[0, 0x41, 0, 0x0B, 1, 4],
    ];
    assert_eq!(encoded(&data)[2..], segments.concat());
}

/// Checks that a call makes a list and finishes it, and never asks for its length.
fn only_finishes<T: Clone>(items: &[T], call: impl FnOnce(List<T>)) {
    let log = Log::default();
    call(List::new(1, &log, items));
    let mut calls = vec![Call::IntoIter(1)];
    calls.extend(vec![Call::Next(1); items.len() + 1]);
    assert_eq!(*log.borrow(), calls);
}

#[test]
fn lists_without_a_length_are_not_measured() {
    let mut body = Function::new([]);
    only_finishes(&[1, 2], |bytes| {
        body.raw(bytes);
    });
    only_finishes(&[ValType::I32; 2], |locals| {
        assert_eq!(
            Function::new_with_locals_types(locals).into_raw_body(),
            [1, 2, 0x7F]
        );
    });
    only_finishes(&[0x41, 7], |bytes| {
        assert_eq!(encoded(&ConstExpr::raw(bytes)), [0x41, 7, 0x0B]);
    });
    only_finishes(&[Instruction::I32Const(7)], |list| {
        assert_eq!(encoded(&ConstExpr::extended(list)), [0x41, 7, 0x0B]);
    });
    assert_eq!(body.into_raw_body(), [0, 1, 2]);
}
