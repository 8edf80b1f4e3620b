// Written by tools/to-rust from tests/wasm_reader_sections_tests/src/example_bytes.rtt: change that.
// Tests of each example once, with ample memory.

use dolzhytik::fallible::Vec;
use crate::checks::check_bytes;
use crate::examples::{adding_module, choice, encode_exports, encode_group, encode_import, encode_local, encode_padded_body, encode_padded_globals, encode_padded_names, encode_reference, encode_sum, encode_sum_and_padded, factorial, filled_module, first_module, named_module, padded_module, whole_module};
use dolzhytik::fallible::Global;
use crate::host::Abort;
use crate::test_support::{MOST, Refusing};
use dolzhytik::fallible::{Refused, Result};
use dolzhytik::fallible::{Export, ExportKind};

#[test]
fn module_of_one_section() {
    let rt = crate::host::HostRuntime;
    let first = first_module(rt.alloc()).expect("accepted");
    check_bytes(
        &rt,
        &first,
        b"\0asm\x01\0\0\0\x0A\x06\x01\x04\x01\x01\x7F\x0B",
    );
    let padded = padded_module(rt.alloc()).expect("accepted");
    check_bytes(
        &rt,
        &padded,
        b"\0asm\x01\0\0\0\x0A\x0B\x02\x04\x80\x80\0\x0B\x04\x01\x01\x7F\x0B",
    );
}

#[test]
fn module_of_four_sections() {
    let rt = crate::host::HostRuntime;
    let adding = adding_module(rt.alloc()).expect("accepted");
    check_bytes(
        &rt,
        &adding,
        b"\0asm\x01\0\0\0\x01\x07\x01\x60\x02\x7F\x7F\x01\x7F\x03\x02\x01\0\x07\x07\x01\x03add\0\0\x0A\x09\x01\x07\0\x20\0\x20\x01\x6A\x0B",
    );
}

#[test]
fn module_of_eight_sections() {
    let rt = crate::host::HostRuntime;
    let whole = whole_module(rt.alloc()).expect("accepted");
    let header_and_types = b"\0asm\x01\0\0\0\x01\x09\x02\x60\0\0\x60\x01\x7F\x01\x7F";
    let imports = b"\x02\x0E\x01\x04host\x05ready\0\0";
    let functions = b"\x03\x03\x02\x01\0";
    let memories = b"\x05\x03\x01\0\x01";
    let globals = b"\x06\x06\x01\x7F\x01\x41\x05\x0B";
    let exports = b"\x07\x16\x02\x09factorial\0\x01\x06memory\x02\0";
    let start = b"\x08\x01\x02";
    let code =
        b"\x0A\x24\x02\x17\0\x02\x40\x20\0\x45\x0D\0\x20\0\x20\0\x41\x01\x6B\x10\x01\x6C\x0F\x0B\x41\x01\x0B\x0A\0\x23\0\x10\x01\x24\0\x10\0\x0B";
    let mut expected = Vec::new(rt.alloc());
    for section in [
        header_and_types.as_slice(),
        imports,
        functions,
        memories,
        globals,
        exports,
        start,
        code,
    ] {
        expected.extend_from_slice(section).expect("accepted");
    }
    check_bytes(&rt, &whole, &expected);
}

#[test]
fn module_that_is_filled() {
    let rt = crate::host::HostRuntime;
    let filled = filled_module(rt.alloc(), &[9, 10]).expect("accepted");
    check_bytes(
        &rt,
        &filled,
        b"\0asm\x01\0\0\0\x01\x04\x01\x60\0\0\x02\x0E\x01\x04host\x05ready\0\0\x04\x04\x01\x70\0\x03\x05\x03\x01\0\x01\x09\x07\x01\0\x41\0\x0B\x01\0\x0C\x01\x02\x0B\x0D\x02\0\x41\x08\x0B\x02\x09\x0A\x01\x03\x01\x02\x03",
    );
}

#[test]
fn module_with_names() {
    let rt = crate::host::HostRuntime;
    let named = named_module(rt.alloc(), "f").expect("accepted");
    check_bytes(
        &rt,
        &named,
        b"\0asm\x01\0\0\0\x0A\x06\x01\x04\x01\x01\x7F\x0B\0\x17\x04name\0\x02\x01m\x01\x04\x01\0\x01f\x02\x06\x01\0\x01\0\x01x",
    );
}

#[test]
fn functions() {
    let rt = crate::host::HostRuntime;
    let body = factorial(rt.alloc(), 300)
        .expect("accepted")
        .into_raw_body();
    check_bytes(
        &rt,
        &body,
        b"\0\x02\x40\x20\0\x45\x0D\0\x20\0\x20\0\x41\x01\x6B\x10\xAC\x02\x6C\x0F\x0B\x41\x01\x0B",
    );
    let body = choice(rt.alloc()).expect("accepted").into_raw_body();
    check_bytes(
        &rt,
        &body,
        b"\0\x02\x40\x02\x40\x20\0\x0E\x01\0\x01\x0B\x0B\x0B",
    );
}

#[test]
fn sections() {
    let rt = crate::host::HostRuntime;
    let mut sink = Vec::new(rt.alloc());
    encode_local(&mut sink, 300).expect("accepted");
    check_bytes(&rt, &sink, b"\x07\x01\x05\0\x20\xAC\x02\x0B");
    sink.clear();
    encode_import(&mut sink, "a", "bc", 3).expect("accepted");
    check_bytes(&rt, &sink, b"\x08\x01\x01a\x02bc\0\x03");
    sink.clear();
    encode_group(&mut sink, "a", &["b", "cd"], 3).expect("accepted");
    check_bytes(&rt, &sink, b"\x0D\x01\x01a\0\x7E\0\x03\x02\x01b\x02cd");
    sink.clear();
    let exports = [
        Export {
            name: "f",
            kind: ExportKind::Func,
            index: 1,
        },
        Export {
            name: "",
            kind: ExportKind::Memory,
            index: 0,
        },
    ];
    encode_exports(&mut sink, &exports).expect("accepted");
    check_bytes(&rt, &sink, b"\x08\x02\x01f\0\x01\0\x02\0");
}

/// Checks the result of a call whose request numbered `nth` was to fail, and a sink after it that
/// held the byte 7.
fn check_answer(
    rt: &impl Abort,
    nth: u64,
    granted: bool,
    answer: Result<()>,
    sink: &[u8],
    expected: &[u8],
) {
    let (told, appended): (Result<()>, &[u8]) = if granted {
        (Ok(()), expected)
    } else {
        (Err(Refused::Memory), &[])
    };
    assert_eq!(rt; answer, told);
    assert_eq!(rt; sink.split_first(), Some((&7, appended)));
    assert!(rt; !granted || nth > 1);
}

/// Checks that these bytes are appended. If a request fails, the sink is unchanged.
fn check_appending<'h, F: Fn(&mut Vec<u8, &'h Refusing<Global>>) -> Result<()>>(
    rt: &impl Abort,
    heap: &'h Refusing<Global>,
    expected: &[u8],
    append: F,
) {
    for nth in 1..MOST {
        heap.refuse(0);
        let mut sink = Vec::from_slice(heap, &[7]).expect("accepted");
        heap.refuse(nth);
        let answer = append(&mut sink);
        let granted = heap.is_waiting();
        check_answer(rt, nth, granted, answer, &sink, expected);
        if granted {
            return;
        }
    }
    panic!(rt; "no call was granted")
}

#[test]
fn padded_numbers() {
    let rt = crate::host::HostRuntime;
    let heap = Refusing::new(rt.alloc());
    let bodies = b"\x0B\x02\x03\x80\0\x0B\x05\0\x20\xAC\x02\x0B";
    check_appending(&rt, &heap, bodies, |sink: &mut Vec<u8, _>| {
        encode_padded_body(sink, 300)
    });
    let globals = b"\x10\x02\x7F\0\x41\xFF\xFF\xFF\xFF\x7F\x0B\x7F\0\x41\x80\0\x0B";
    check_appending(&rt, &heap, globals, |sink: &mut Vec<u8, _>| {
        encode_padded_globals(sink)
    });
    let names = b"\x0C\x04name\x01\x05\x01\x80\0\x01a";
    check_appending(&rt, &heap, names, |sink: &mut Vec<u8, _>| {
        encode_padded_names(sink)
    })
}

#[test]
fn expressions() {
    let rt = crate::host::HostRuntime;
    let mut sink = Vec::new(rt.alloc());
    encode_reference(&mut sink, 300).expect("accepted");
    check_bytes(&rt, &sink, b"\x08\x01\x05\x70\x01\xD2\xAC\x02\x0B");
    sink.clear();
    encode_sum(&mut sink, 300).expect("accepted");
    check_bytes(&rt, &sink, b"\x0A\x01\x7F\0\x23\xAC\x02\x41\x05\x6A\x0B");
    sink.clear();
    encode_sum_and_padded(&mut sink, 1).expect("accepted");
    let padded = b"\x0F\x02\x7F\0\x23\x01\x41\x05\x6A\x0B\x7F\0\x41\x80\0\x0B";
    check_bytes(&rt, &sink, padded);
}
