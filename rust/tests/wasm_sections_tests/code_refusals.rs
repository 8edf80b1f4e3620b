// Written by tools/to-rust from tests/wasm_sections_tests/src/code_refusals.rtt: change that.
// Tests with each request of `wasm_code` for memory failing in turn: the result is `Memory`, and
// the arguments are unchanged.

use dolzhytik::fallible::Vec;
use crate::checks::{
    check_answer, check_bytes, check_piece, check_refused, check_sink, check_that,
};
use crate::functions::without_locals;
use dolzhytik::fallible::Global;
use crate::host::Abort;
use crate::test_support::{Heap, MOST, Refusing};
use dolzhytik::fallible::{Counted, CowSlice, Encode, HeapType, Result, Section, ValType};
use dolzhytik::fallible::{CodeSection, ConstExpr, Function};
use dolzhytik::fallible::{Buffer, Ieee32, Ieee64, Instruction};

/// The bytes of a buffer that is full after its first growth.
const FULL_BUFFER: [u8; 8] = [0x01; 8];

/// The length in bytes of a function whose first allocation is full.
const FULL_BODY: usize = 128;

/// The bytes that each constructor and each `with` call stores.
static STORED: [&[u8]; 16] = [
    &[0x41, 0x01],
    &[0x41, 0x02],
    &[0x23, 0x03],
    &[0xD0, 0x70],
    &[0xD2, 0x04],
    &[0x41, 0x05],
    &[0x42, 0x06],
    &[0x43, 0x07, 0, 0, 0],
    &[0x44, 0x08, 0, 0, 0, 0, 0, 0, 0],
    &[
        0xFD, 0x0C, 0x09, 0, 0, 0, 0, 0, 0, 0, 0, 0, 0, 0, 0, 0, 0, 0,
    ],
    &[0x6A],
    &[0x6B],
    &[0x6C],
    &[0x7C],
    &[0x7D],
    &[0x7E],
];

/// Returns `true` if the constructor of this index allocates nothing.
fn takes_none(place: usize) -> bool {
    1 < place && place < 9
}

/// Makes the constructor of this index in `STORED`.
fn made(heap: Heap<'_>, place: usize) -> Result<ConstExpr<Heap<'_>>> {
    match place {
        0 => ConstExpr::raw(heap, [0x41, 0x01]),
        1 => ConstExpr::extended(heap, [Instruction::I32Const(2)]),
        2 => ConstExpr::global_get(heap, 3),
        3 => ConstExpr::ref_null(heap, HeapType::FUNC),
        4 => ConstExpr::ref_func(heap, 4),
        5 => ConstExpr::i32_const(heap, 5),
        6 => ConstExpr::i64_const(heap, 6),
        7 => ConstExpr::f32_const(heap, Ieee32::new(7)),
        8 => ConstExpr::f64_const(heap, Ieee64::new(8)),
        _ => ConstExpr::v128_const(heap, 9),
    }
}

/// Makes the `with` call of this index in `STORED`.
fn added<'a>(before: ConstExpr<Heap<'a>>, place: usize) -> Result<ConstExpr<Heap<'a>>> {
    match place {
        2 => before.with_global_get(3),
        3 => before.with_ref_null(HeapType::FUNC),
        4 => before.with_ref_func(4),
        5 => before.with_i32_const(5),
        6 => before.with_i64_const(6),
        7 => before.with_f32_const(Ieee32::new(7)),
        8 => before.with_f64_const(Ieee64::new(8)),
        9 => before.with_v128_const(9),
        10 => before.with_i32_add(),
        11 => before.with_i32_sub(),
        12 => before.with_i32_mul(),
        13 => before.with_i64_add(),
        14 => before.with_i64_sub(),
        _ => before.with_i64_mul(),
    }
}

/// Checks that the bytes are those before, the stored ones, and `End`.
fn check_stored(rt: &impl Abort, bytes: &[u8], before: &[u8], stored: &[u8]) {
    let (front, rest) = bytes.split_at(before.len().min(bytes.len()));
    assert_eq!(rt; front, before);
    assert_eq!(rt; rest.split_last(), Some((&0x0B, stored)));
}

/// Checks the result of a call of which one request was to fail: an expression of the bytes before
/// and the stored ones, if all were granted. Returns whether they were.
fn check_expression(
    rt: &impl Abort,
    alloc: Global,
    heap: Heap<'_>,
    nth: u64,
    answer: Result<ConstExpr<Heap<'_>>>,
    before: &[u8],
    stored: &[u8],
) -> bool {
    match answer {
        Ok(expression) => {
            check_answer(rt, heap, nth, Ok(()));
            let mut sink = Vec::new(alloc);
            expression.encode(&mut sink).expect("accepted");
            check_stored(rt, &sink, before, stored);
            true
        }
        Err(refused) => check_answer(rt, heap, nth, Err(refused)),
    }
}

/// Checks the constructor.
fn check_made(rt: &impl Abort, alloc: Global, place: usize, stored: &[u8]) {
    let heap = Refusing::new(alloc);
    for nth in 1..MOST {
        heap.refuse(nth);
        let answer = made(&heap, place);
        if check_expression(rt, alloc, &heap, nth, answer, &[], stored) {
            return;
        }
    }
    panic!(rt; "no call was granted")
}

/// Returns an expression whose buffer is full, or one whose instruction is kept without an
/// allocation.
fn begun_expression(heap: Heap<'_>, is_full: bool) -> Result<ConstExpr<Heap<'_>>> {
    if is_full {
        ConstExpr::raw(heap, FULL_BUFFER)
    } else {
        ConstExpr::global_get(heap, 1)
    }
}

/// Checks the `with` call, on an expression that begins so.
fn check_added(rt: &impl Abort, alloc: Global, place: usize, is_full: bool, stored: &[u8]) {
    let heap = Refusing::new(alloc);
    let before: &[u8] = if is_full { &FULL_BUFFER } else { &[0x23, 0x01] };
    for nth in 1..MOST {
        heap.refuse(0);
        let expression = begun_expression(&heap, is_full).expect("accepted");
        heap.refuse(nth);
        let answer = added(expression, place);
        if check_expression(rt, alloc, &heap, nth, answer, before, stored) {
            return;
        }
    }
    panic!(rt; "no call was granted")
}

#[test]
fn expressions() {
    let rt = crate::host::HostRuntime;
    for (place, stored) in STORED.iter().enumerate() {
        if place < 10 && !takes_none(place) {
            check_made(&rt, rt.alloc(), place, stored);
        }
        if place > 1 {
            check_added(&rt, rt.alloc(), place, true, stored);
            check_added(&rt, rt.alloc(), place, false, stored);
        }
    }
}

#[test]
fn expressions_without_memory() {
    let rt = crate::host::HostRuntime;
    let heap = Refusing::new(rt.alloc());
    heap.refuse_all();
    for (place, stored) in STORED.iter().enumerate() {
        if takes_none(place) {
            let answer = made(&heap, place);
            let mut sink = Vec::new(rt.alloc());
            answer
                .expect("accepted")
                .encode(&mut sink)
                .expect("accepted");
            check_stored(&rt, &sink, &[], stored);
        }
    }
}

/// The bytes that each call on a function appends. The second call makes two requests.
static GROWN: [&[u8]; 4] = [
    &[0x41, 0x01],
    &[1; FULL_BODY + 1],
    &[0x41, 0x01],
    &[0x0E, 2, 0, 1, 2],
];

/// Makes the call of this index in `GROWN`.
fn grow(function: &mut Function<Heap<'_>>, place: usize) -> Result<()> {
    match place {
        0 => function.instruction(&Instruction::I32Const(1)),
        1 => function.raw([0x01; FULL_BODY + 1]),
        2 => function.instructions().i32_const(1),
        _ => call_br_table(function),
    }
}

fn call_br_table(function: &mut Function<Heap<'_>>) -> Result<()> {
    function.instructions().br_table([0, 1], 2)
}

/// Checks that the body is unchanged and full, and has these bytes or none after it.
fn check_grown(rt: &impl Abort, granted: bool, body: &[u8], appended: &[u8]) {
    let mut before = [0x01; FULL_BODY];
    before[0] = 0;
    let (old, new) = body.split_at(FULL_BODY.min(body.len()));
    assert_eq!(rt; old, before.as_slice());
    let expected: &[u8] = if granted { appended } else { &[] };
    assert_eq!(rt; new, expected);
}

/// Checks a call on a function whose buffer is full.
fn check_growth(rt: &impl Abort, alloc: Global, place: usize, appended: &[u8]) {
    let heap = Refusing::new(alloc);
    for nth in 1..MOST {
        heap.refuse(0);
        let mut function = without_locals(&heap).expect("accepted");
        function.raw([0x01; FULL_BODY - 1]).expect("accepted");
        heap.refuse(nth);
        let answer = grow(&mut function, place);
        let granted = check_answer(rt, &heap, nth, answer);
        check_grown(rt, granted, &function.into_raw_body(), appended);
        if granted {
            return;
        }
    }
    panic!(rt; "no call was granted")
}

#[test]
fn bodies() {
    let rt = crate::host::HostRuntime;
    for (place, appended) in GROWN.iter().enumerate() {
        check_growth(&rt, rt.alloc(), place, appended);
    }
}

/// Appends an instruction that owns its labels, in the global allocator's memory or in a test's
/// own. `Function::instruction` accepts only the first, and `append` any.
fn grow_by_owned<'a>(
    function: &mut Function<Heap<'_>>,
    in_global: &Instruction<'_>,
    on_heap: &Instruction<'_, Heap<'a>>,
    place: usize,
) -> Result<()> {
    match place {
        0 => function.instruction(in_global),
        1 => function.append(in_global),
        _ => function.append(on_heap),
    }
}

/// Checks a call on a function whose buffer is full. It makes no request to the labels' allocator.
fn check_owned(
    rt: &impl Abort,
    alloc: Global,
    in_global: &Instruction<'_>,
    on_heap: &Instruction<'_, Heap<'_>>,
    place: usize,
) {
    let heap = Refusing::new(alloc);
    for nth in 1..MOST {
        heap.refuse(0);
        let mut function = without_locals(&heap).expect("accepted");
        function.raw([0x01; FULL_BODY - 1]).expect("accepted");
        heap.refuse(nth);
        let answer = grow_by_owned(&mut function, in_global, on_heap, place);
        let granted = check_answer(rt, &heap, nth, answer);
        check_grown(rt, granted, &function.into_raw_body(), &[0x0E, 2, 0, 1, 2]);
        if granted {
            return;
        }
    }
    panic!(rt; "no call was granted")
}

#[test]
fn instructions_that_own_labels() {
    let rt = crate::host::HostRuntime;
    let alloc = rt.alloc();
    let own = Refusing::new(alloc);
    let labels = Vec::from_slice(alloc, &[0, 1]).expect("accepted");
    let in_global: Instruction<'_> = Instruction::BrTable(CowSlice::Owned(labels), 2);
    let labels = Vec::from_slice(&own, &[0, 1]).expect("accepted");
    let on_heap = Instruction::BrTable(CowSlice::Owned(labels), 2);
    own.refuse_all();
    for place in 0..3 {
        check_owned(&rt, alloc, &in_global, &on_heap, place);
    }
    check_that(&rt, own.requests() == 0);
}

/// Returns a function of locals, by their runs or by their types, or a copy of one.
fn begun<'a>(
    heap: Heap<'a>,
    given: &Function<Heap<'a>>,
    place: usize,
) -> Result<Function<Heap<'a>>> {
    match place {
        0 => Function::new(heap, [(2, ValType::I32), (1, ValType::I64)]),
        1 => { Function::new_with_locals_types(heap, [ValType::I32, ValType::I32, ValType::I64]) }
        _ => given.clone(),
    }
}

/// Checks the result of a call of which one request was to fail: a function of these locals, if all
/// were granted. Returns whether they were.
fn check_function(
    rt: &impl Abort,
    heap: Heap<'_>,
    nth: u64,
    answer: Result<Function<Heap<'_>>>,
) -> bool {
    match answer {
        Ok(function) => {
            check_bytes(rt, &function.into_raw_body(), &[2, 2, 0x7F, 1, 0x7E]);
            check_answer(rt, heap, nth, Ok(()))
        }
        Err(refused) => check_answer(rt, heap, nth, Err(refused)),
    }
}

/// Checks the call of `begun` of this index.
fn check_begun<'a>(rt: &impl Abort, heap: Heap<'a>, given: &Function<Heap<'a>>, place: usize) {
    for nth in 1..MOST {
        heap.refuse(nth);
        let answer = begun(heap, given, place);
        if check_function(rt, heap, nth, answer) {
            return;
        }
    }
    panic!(rt; "no call was granted")
}

#[test]
fn functions() {
    let rt = crate::host::HostRuntime;
    let heap = Refusing::new(rt.alloc());
    let given = begun(&heap, &without_locals(&heap).expect("accepted"), 0).expect(
        "accepted",
    );
    for place in 0..3 {
        check_begun(&rt, &heap, &given, place);
    }
}

/// Makes a call that adds the body.
fn add(
    code: &mut CodeSection<Heap<'_>>,
    function: &Function<Heap<'_>>,
    place: usize,
) -> Result<()> {
    match place {
        0 => code.function(function),
        1 => code.raw(&[0, 11]),
        _ => code.add(function),
    }
}

/// Checks that the section has one empty body, or none.
fn check_section(rt: &impl Abort, granted: bool, len: u32, byte_len: usize) {
    let expected = if granted { (1, 3) } else { (0, 0) };
    assert_eq!(rt; (len, byte_len), expected);
}

/// Checks the call of `add` of this index.
fn check_adding(rt: &impl Abort, heap: Heap<'_>, function: &Function<Heap<'_>>, place: usize) {
    for nth in 1..MOST {
        let mut code = CodeSection::new(heap);
        heap.refuse(nth);
        let answer = add(&mut code, function, place);
        let granted = check_answer(rt, heap, nth, answer);
        check_section(rt, granted, code.len(), code.byte_len());
        if granted {
            return;
        }
    }
    panic!(rt; "no call was granted")
}

#[test]
fn code_sections() {
    let rt = crate::host::HostRuntime;
    let heap = Refusing::new(rt.alloc());
    let mut function = without_locals(&heap).expect("accepted");
    function.instructions().end().expect("accepted");
    for place in 0..3 {
        check_adding(&rt, &heap, &function, place);
    }
}

#[test]
fn copies_of_expressions() {
    let rt = crate::host::HostRuntime;
    let heap = Refusing::new(rt.alloc());
    let kept = ConstExpr::ref_func(&heap, 3).expect("accepted");
    let given = ConstExpr::raw(&heap, [0xD2, 3]).expect("accepted");
    heap.refuse(1);
    check_refused(&rt, given.clone().err());
    check_that(
        &rt,
        given.clone().expect("accepted").get_ref_func() == Some(3),
    );
    heap.refuse_all();
    check_that(
        &rt,
        kept.clone().expect("accepted").get_ref_func() == Some(3),
    );
}

/// Checks the result of a copy of which one request was to fail. Returns whether all were granted.
fn check_copy(
    rt: &impl Abort,
    heap: Heap<'_>,
    nth: u64,
    copy: Result<CodeSection<Heap<'_>>>,
) -> bool {
    match copy {
        Ok(code) => {
            check_piece(rt, code.piece(0), Some(&[2, 0, 11]));
            check_answer(rt, heap, nth, Ok(()))
        }
        Err(refused) => check_answer(rt, heap, nth, Err(refused)),
    }
}

#[test]
fn copies() {
    let rt = crate::host::HostRuntime;
    let heap = Refusing::new(rt.alloc());
    let mut code = CodeSection::new(&heap);
    code.raw(&[0, 11]).expect("accepted");
    for nth in 1..MOST {
        heap.refuse(nth);
        if check_copy(&rt, &heap, nth, code.clone()) {
            return;
        }
    }
    panic!(rt; "no call was granted")
}

/// Checks `encode`, into a sink that holds the byte 7. It makes one request, and none if the sink
/// has spare capacity.
fn check_written<T: Encode>(rt: &impl Abort, alloc: Global, item: &T, expected: &[u8]) {
    let heap = Refusing::new(alloc);
    let mut sink = Vec::with_capacity(&heap, 1).expect("accepted");
    sink.push(7).expect("accepted");
    heap.refuse(1);
    check_refused(rt, item.encode(&mut sink).err());
    check_sink(rt, false, &sink, expected);
    heap.refuse(2);
    item.encode(&mut sink).expect("accepted");
    check_that(rt, heap.is_waiting());
    check_sink(rt, true, &sink, expected);
    sink.truncate(1);
    heap.refuse_all();
    item.encode(&mut sink).expect("accepted");
}

#[test]
fn written_expressions() {
    let rt = crate::host::HostRuntime;
    let kept = ConstExpr::ref_func(rt.alloc(), 3).expect("accepted");
    check_written(&rt, rt.alloc(), &kept, &[0xD2, 3, 0x0B]);
    let given = ConstExpr::raw(rt.alloc(), [0xD2, 3]).expect("accepted");
    check_written(&rt, rt.alloc(), &given, &[0xD2, 3, 0x0B])
}

/// A sink that is full after the first components of an expression loses these if the next one
/// fails.
#[test]
fn long_expressions() {
    let rt = crate::host::HostRuntime;
    let heap = Refusing::new(rt.alloc());
    let long = ConstExpr::f64_const(rt.alloc(), Ieee64::new(1))
        .expect("accepted")
        .with_i32_const(2)
        .expect("accepted");
    for nth in 1..MOST {
        let mut sink = Vec::with_capacity(&heap, 1).expect("accepted");
        sink.push(7).expect("accepted");
        heap.refuse(nth);
        let answer = long.encode(&mut sink);
        let granted = check_answer(&rt, &heap, nth, answer);
        check_sink(
            &rt,
            granted,
            &sink,
            &[0x44, 1, 0, 0, 0, 0, 0, 0, 0, 0x41, 2, 0x0B],
        );
        if granted {
            return;
        }
    }
    panic!(rt; "no call was granted")
}

#[test]
fn written() {
    let rt = crate::host::HostRuntime;
    let mut function = without_locals(rt.alloc()).expect("accepted");
    function.instructions().end().expect("accepted");
    check_written(&rt, rt.alloc(), &function, &[2, 0, 11]);
    let mut code = CodeSection::new(rt.alloc());
    code.function(&function).expect("accepted");
    check_written(&rt, rt.alloc(), &code, &[4, 1, 2, 0, 11])
}

#[test]
fn written_with_its_id() {
    let rt = crate::host::HostRuntime;
    let heap = Refusing::new(rt.alloc());
    let mut code = CodeSection::new(rt.alloc());
    code.raw(&[0, 11]).expect("accepted");
    for nth in 1..MOST {
        let mut sink = Vec::with_capacity(&heap, 1).expect("accepted");
        sink.push(7).expect("accepted");
        heap.refuse(nth);
        let answer = code.append_to(&mut sink);
        let granted = check_answer(&rt, &heap, nth, answer);
        check_sink(&rt, granted, &sink, &[10, 4, 1, 2, 0, 11]);
        if granted {
            return;
        }
    }
    panic!(rt; "no call was granted")
}
