// Written by tools/to-rust from tests/wasm_reader_sections_tests/src/called.rtt: change that.
// Tests of the worked callers, each called once.

use dolzhytik::fallible::Vec;
use crate::checks::check_bytes;
use crate::calls::decodings::{load_of_alignment_16, pieces_of_a_constant};
use crate::calls::instructions::{append_call, append_end, append_sum, block};
use crate::examples::{encode_given_import, encode_memories, grow, grow_by_each};
use crate::read_back::handed::{code_of, encode_listed_exports};
use crate::read_back::sections::{kind_of_items, shortest_payload};
use crate::read_back::{shortened_function, write_function, write_names, written_function, written_names};
use dolzhytik::fallible::Global;
use crate::host::Abort;
use crate::test_support::{MOST, Refusing};
use dolzhytik::fallible::Encode;
use dolzhytik::fallible::Function;
use dolzhytik::fallible::Instruction;
use dolzhytik::reader::{Items, SectionKind, Sections};
use dolzhytik::fallible::{EntityType, Export, ExportKind, Import, MemoryType};

/// The name section of a module `m`, whose first function is `f`, without its id.
const NAMES: &[u8] = &[
    15, 4, b'n', b'a', b'm', b'e', 0, 2, 1, b'm', 1, 4, 1, 0, 1, b'f',
];

#[test]
fn instructions() {
    let rt = crate::host::HostRuntime;
    let mut bytes = Vec::new(rt.alloc());
    append_sum(&mut bytes).expect("accepted");
    append_call(&mut bytes).expect("accepted");
    append_end(&mut bytes).expect("accepted");
    check_bytes(
        &rt,
        &bytes,
        &[0x20, 0, 0x20, 1, 0x6A, 0x0B, 0x11, 1, 2, 0x0B],
    );
    let bytes = block(rt.alloc()).expect("accepted");
    check_bytes(&rt, &bytes, &[0x02, 0x40, 0x01, 0x0B]);
    load_of_alignment_16();
    pieces_of_a_constant()
}

#[test]
fn functions() {
    let rt = crate::host::HostRuntime;
    let mut text = Vec::new(rt.alloc());
    write_function(&mut text, 7).expect("accepted");
    check_bytes(&rt, &text, &[2, 1, 7]);
    let mut text = Vec::new(rt.alloc());
    match written_function(&mut text, 7).expect("read") {
        Items::Functions(indices) => assert_eq!(rt; indices.as_slice(), [7].as_slice()),
        _ => assert!(rt; false, "a function section"),
    }
    let mut text = Vec::new(rt.alloc());
    let mut sink = Vec::new(rt.alloc());
    let taken = shortened_function(&mut text, 7, &mut sink).expect("read");
    assert_eq!(rt; taken, 3);
    check_bytes(&rt, &sink, &[2, 1, 7])
}

/// Checks the shortest payload of the first section of a module.
fn check_shortest(rt: &impl Abort, alloc: Global, module: &[u8], expected: &[u8]) {
    let mut sections = Sections::new(alloc, module).expect("a module");
    match sections.next() {
        None => panic!(rt; "no section"),
        Some(section) => {
            let section = section.expect("a section");
            let payload = shortest_payload(&section, alloc).expect("a table");
            check_bytes(rt, &payload, expected)
        }
    }
}

/// A table of `anyref`, which the standard encodes in one byte: 63 6E becomes 6E, and 6E stays.
/// Builders write 63 6E.
#[test]
fn shortest() {
    let rt = crate::host::HostRuntime;
    let built = &[0, b'a', b's', b'm', 1, 0, 0, 0, 4, 5, 1, 0x63, 0x6E, 0, 7];
    check_shortest(&rt, rt.alloc(), built, &[1, 0x6E, 0, 7]);
    let short = &[0, b'a', b's', b'm', 1, 0, 0, 0, 4, 4, 1, 0x6E, 0, 7];
    check_shortest(&rt, rt.alloc(), short, &[1, 0x6E, 0, 7]);
    let kind = kind_of_items(rt.alloc(), SectionKind::Tables, &built[9..]).expect("a table");
    assert_eq!(rt; kind, SectionKind::Tables)
}

#[test]
fn names() {
    let rt = crate::host::HostRuntime;
    let mut text = Vec::new(rt.alloc());
    write_names(&mut text, "m", "f").expect("accepted");
    check_bytes(&rt, &text, NAMES);
    let mut text = Vec::new(rt.alloc());
    match written_names(&mut text, "m", "f").expect("read") {
        Items::Names(items) => assert_eq!(rt; items.len(), 2),
        _ => assert!(rt; false, "a name section"),
    }
}

#[test]
fn grown() {
    let rt = crate::host::HostRuntime;
    let mut function = Function::new(rt.alloc(), []).expect("accepted");
    grow(&mut function, &Instruction::I32Const(1)).expect("accepted");
    let more = [Instruction::Drop, Instruction::End];
    grow_by_each(&mut function, &more).expect("accepted");
    check_bytes(&rt, &function.into_raw_body(), &[0, 0x41, 0x01, 0x1A, 0x0B])
}

#[test]
fn handed_in() {
    let rt = crate::host::HostRuntime;
    let import = Import {
        module: "m",
        name: "n",
        ty: EntityType::Function(1),
    };
    let mut sink = Vec::new(rt.alloc());
    encode_given_import(&mut sink, &import).expect("accepted");
    check_bytes(&rt, &sink, &[7, 1, 1, b'm', 1, b'n', 0, 1]);
    let memory = MemoryType {
        minimum: 1,
        maximum: None,
        memory64: false,
        shared: false,
        page_size_log2: None,
    };
    let mut sink = Vec::new(rt.alloc());
    encode_memories(&mut sink, &[memory]).expect("accepted");
    check_bytes(&rt, &sink, &[3, 1, 0, 1])
}

#[test]
fn listed() {
    let rt = crate::host::HostRuntime;
    let alloc = rt.alloc();
    let mut first = Function::new(alloc, []).expect("accepted");
    first.instruction(&Instruction::End).expect("accepted");
    let second = Function::new(alloc, []).expect("accepted");
    let code = code_of(alloc, &[first, second]).expect("accepted");
    let mut bytes = Vec::new(alloc);
    code.encode(&mut bytes).expect("accepted");
    check_bytes(&rt, &bytes, &[6, 2, 2, 0, 0x0B, 1, 0]);
    let mut bytes = Vec::new(alloc);
    let export = Export {
        name: "e",
        kind: ExportKind::Func,
        index: 3,
    };
    encode_listed_exports(&mut bytes, &[export]).expect("accepted");
    check_bytes(&rt, &bytes, &[5, 1, 1, b'e', 0, 3])
}

/// Each request for memory fails in turn.
#[test]
fn listed_and_refused() {
    let rt = crate::host::HostRuntime;
    let heap = Refusing::new(rt.alloc());
    let function = Function::new(&heap, []).expect("accepted");
    let functions = [function];
    let export = Export {
        name: "e",
        kind: ExportKind::Func,
        index: 3,
    };
    for nth in 1..MOST {
        heap.refuse(nth);
        let code = code_of(&heap, &functions);
        let code_granted = heap.is_waiting();
        assert!(rt; code.is_ok() == code_granted);
        heap.refuse(nth);
        let mut bytes = Vec::new(&heap);
        let listed = encode_listed_exports(&mut bytes, &[export]);
        let granted = heap.is_waiting();
        assert!(rt; listed.is_ok() == granted);
        if code_granted && granted {
            assert!(rt; nth > 1);
            return;
        }
    }
    assert!(rt; false, "a request is granted in the end")
}
