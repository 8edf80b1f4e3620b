// Written by tools/to-rust from tests/wasm_reader_sections_tests/src/appended.rtt: change that.
// Tests of calls that append the minimal encoding of decoded values. If a request for memory fails,
// the sink is unchanged.

use dolzhytik::fallible::Vec;
use dolzhytik::fallible::Global;
use crate::host::Abort;
use crate::test_support::{MOST, Refusing};
use dolzhytik::reader::{Padded, ReadFault, Shorten, SizePrefixed, Standard, append_all};
use dolzhytik::fallible::{Refused, Result};
use dolzhytik::reader::shorten_body;
use dolzhytik::fallible::{append_build_id, append_call_targets, append_debug_file, append_dylink, append_features, append_frequencies, append_hints, append_instances, append_links, append_modules, append_names, append_orders, append_process, append_producers, append_relocations, append_source_map, append_stack, read_call_targets, read_dylink, read_features, read_frequencies, read_hints, read_instances, read_links, read_modules, read_names, read_orders, read_process, read_producers, read_relocations, read_stack};
use dolzhytik::reader::{Items, SectionKind, encode_items_in, read_section};
use dolzhytik::fallible::{append_imports, read_imports};
use dolzhytik::fallible::{append_types, read_types};

/// The byte in a sink before a call.
const BEFORE: u8 = 0xAA;

/// Checks the result of the call, and the bytes of the sink after its first one.
fn check_outcome(
    rt: &impl Abort,
    answer: Result<()>,
    expected: Result<()>,
    sink: &[u8],
    bytes: &[u8],
) {
    assert_eq!(rt; answer, expected);
    assert_eq!(rt; sink.split_first(), Some((&BEFORE, bytes)));
}

/// Checks that the call appends these bytes. It makes two requests for memory or more. If any of
/// them fails, it returns `Memory`, and the sink is unchanged.
fn check<'h, F: Fn(&mut Vec<u8, &'h Refusing<Global>>) -> Result<()>>(
    rt: &impl Abort,
    heap: &'h Refusing<Global>,
    bytes: &[u8],
    append: F,
) {
    for nth in 1..MOST {
        heap.refuse(0);
        let mut sink = Vec::from_slice(heap, &[BEFORE]).expect("accepted");
        heap.refuse(nth);
        let answer = append(&mut sink);
        if heap.is_waiting() {
            check_outcome(rt, answer, Ok(()), &sink, bytes);
            assert!(rt; nth > 2);
            heap.refuse(0);
            return;
        }
        check_outcome(rt, answer, Err(Refused::Memory), &sink, &[]);
    }
    panic!(rt; "no call was granted")
}

#[test]
fn names() {
    let rt = crate::host::HostRuntime;
    let heap = Refusing::new(rt.alloc());
    let bytes = b"\x04name\0\x02\x01m\x01\x25\x01\0\x22the_function_with_a_very_long_name";
    let items = read_names::<&Refusing<Global>, Padded>(bytes, &heap).expect("read");
    check(&rt, &heap, bytes, |sink: &mut Vec<u8, _>| {
        append_names(&items, sink)
    });
}

#[test]
fn imports() {
    let rt = crate::host::HostRuntime;
    let heap = Refusing::new(rt.alloc());
    let bytes = b"\x01\x03env\x22the_function_with_a_very_long_name\0\0";
    let items = read_imports::<&Refusing<Global>, Padded>(bytes, &heap).expect("read");
    check(&rt, &heap, bytes, |sink: &mut Vec<u8, _>| {
        append_imports(&items, sink)
    });
}

#[test]
fn types() {
    let rt = crate::host::HostRuntime;
    let heap = Refusing::new(rt.alloc());
    let bytes = b"\x02\x60\x10\x7F\x7F\x7F\x7F\x7F\x7F\x7F\x7F\x7F\x7F\x7F\x7F\x7F\x7F\x7F\x7F\0\
        \x60\x10\x7E\x7E\x7E\x7E\x7E\x7E\x7E\x7E\x7E\x7E\x7E\x7E\x7E\x7E\x7E\x7E\0";
    let items = read_types::<&Refusing<Global>, Padded>(bytes, &heap).expect("read");
    check(&rt, &heap, bytes, |sink: &mut Vec<u8, _>| {
        append_types(&items, sink)
    });
}

#[test]
fn producers() {
    let rt = crate::host::HostRuntime;
    let heap = Refusing::new(rt.alloc());
    let bytes = b"\x09producers\x01\x08language\x01\x22the_language_with_a_very_long_name\x041.80";
    let items = read_producers::<&Refusing<Global>, Padded>(bytes, &heap).expect("read");
    check(&rt, &heap, bytes, |sink: &mut Vec<u8, _>| {
        append_producers(&items, sink)
    });
}

#[test]
fn target_features() {
    let rt = crate::host::HostRuntime;
    let heap = Refusing::new(rt.alloc());
    let bytes = b"\x0Ftarget_features\x02+\x0Bbulk-memory-\x1Ethe_feature_with_a_longer_name";
    let items = read_features::<&Refusing<Global>, Padded>(bytes, &heap).expect("read");
    check(&rt, &heap, bytes, |sink: &mut Vec<u8, _>| {
        append_features(&items, sink)
    });
}

#[test]
fn dylink() {
    let rt = crate::host::HostRuntime;
    let heap = Refusing::new(rt.alloc());
    let bytes = b"\x08dylink.0\x01\x04\x01\x02\x03\x04\
        \x02\x25\x01\x23the_programme_with_a_long_long_name";
    let items = read_dylink::<&Refusing<Global>, Padded>(bytes, &heap).expect("read");
    check(&rt, &heap, bytes, |sink: &mut Vec<u8, _>| {
        append_dylink(&items, sink)
    });
}

#[test]
fn relocations() {
    let rt = crate::host::HostRuntime;
    let heap = Refusing::new(rt.alloc());
    let bytes = b"\x0Areloc.CODE\x03\x0A\0\x04\0\0\x0A\0\0\x10\0\0\x16\0\0\x1C\0\
        \x03\x23\x01\x08\x03\x29\x01\x08\x03\x2F\x01\x08\x03\x35\x01\x08\x03\x3B\x01\x08";
    let (name, section, relocations) = read_relocations::<&Refusing<Global>, Padded>(
        bytes, &heap,
    ).expect("read");
    check(&rt, &heap, bytes, |sink: &mut Vec<u8, _>| {
        append_relocations(name, section, &relocations, sink)
    });
}

#[test]
fn debug_files() {
    let rt = crate::host::HostRuntime;
    let heap = Refusing::new(rt.alloc());
    let text = "the_programme_with_a_long_long_name";
    let bytes = b"\x10sourceMappingURL\x23the_programme_with_a_long_long_name";
    check(&rt, &heap, bytes, |sink: &mut Vec<u8, _>| {
        append_source_map(text, sink)
    });
    let bytes = b"\x13external_debug_info\x23the_programme_with_a_long_long_name";
    check(&rt, &heap, bytes, |sink: &mut Vec<u8, _>| {
        append_debug_file(text, sink)
    });
    let bytes = b"\x08build_id\x23the_programme_with_a_long_long_name";
    check(&rt, &heap, bytes, |sink: &mut Vec<u8, _>| {
        append_build_id(text.as_bytes(), sink)
    });
}

#[test]
fn hints() {
    let rt = crate::host::HostRuntime;
    let heap = Refusing::new(rt.alloc());
    let bytes = b"\x19metadata.code.branch_hint\x01\x05\x02\x03\x01\x01\x09\x01\0";
    let items = read_hints::<&Refusing<Global>, Padded>(bytes, &heap).expect("read");
    check(&rt, &heap, bytes, |sink: &mut Vec<u8, _>| {
        append_hints(&items, sink)
    });
}

#[test]
fn code_metadata() {
    let rt = crate::host::HostRuntime;
    let heap = Refusing::new(rt.alloc());
    let bytes = b"\x18metadata.code.instr_freq\x01\x05\x02\x03\x01\x20\x09\x01\0";
    let items = read_frequencies::<&Refusing<Global>, Padded>(bytes, &heap).expect("read");
    check(&rt, &heap, bytes, |sink: &mut Vec<u8, _>| {
        append_frequencies(&items, sink)
    });
    let bytes = b"\x1Fmetadata.code.compilation_order\x02\x05\x01\0\x01\x03\x06\x01\0\x02\x04\x01";
    let items = read_orders::<&Refusing<Global>, Padded>(bytes, &heap).expect("read");
    check(&rt, &heap, bytes, |sink: &mut Vec<u8, _>| {
        append_orders(&items, sink)
    });
    let bytes = b"\x1Ametadata.code.call_targets\x01\x05\x02\x03\x04\x07\x5A\x08\x0A\x09\0";
    let items = read_call_targets::<&Refusing<Global>, Padded>(bytes, &heap).expect("read");
    check(&rt, &heap, bytes, |sink: &mut Vec<u8, _>| {
        append_call_targets(&items, sink)
    });
}

#[test]
fn links() {
    let rt = crate::host::HostRuntime;
    let heap = Refusing::new(rt.alloc());
    let bytes = b"\x07linking\x02\x08\x29\x01\x01\0\x22the_variable_with_a_very_long_name\0\0\x04";
    let items = read_links::<&Refusing<Global>, Padded>(bytes, &heap).expect("read");
    check(&rt, &heap, bytes, |sink: &mut Vec<u8, _>| {
        append_links(&items, sink)
    });
}

#[test]
fn core_dumps() {
    let rt = crate::host::HostRuntime;
    let heap = Refusing::new(rt.alloc());
    let bytes = b"\x04core\0\x23the_programme_with_a_long_long_name";
    let name = read_process::<&Refusing<Global>, Padded>(bytes, &heap).expect("read");
    check(&rt, &heap, bytes, |sink: &mut Vec<u8, _>| {
        append_process(name, sink)
    });
    let bytes = b"\x0Bcoremodules\x01\0\x23the_programme_with_a_long_long_name";
    let modules = read_modules::<&Refusing<Global>, Padded>(bytes, &heap).expect("read");
    check(&rt, &heap, bytes, |sink: &mut Vec<u8, _>| {
        append_modules(&modules, sink)
    });
    let bytes = b"\x0Dcoreinstances\x01\0\x05\x02\x01\x02\x14aaaaaaaaaaaaaaaaaaaa";
    let instances = read_instances::<&Refusing<Global>, Padded>(bytes, &heap).expect("read");
    check(&rt, &heap, bytes, |sink: &mut Vec<u8, _>| {
        append_instances(&instances, sink)
    });
    let bytes = b"\x09corestack\0\x06thread\x01\0\x01\x02\x03\x01\x7F\x05\x01\x7F\x06";
    let (thread, frames) = read_stack::<&Refusing<Global>, Padded>(bytes, &heap).expect(
        "read",
    );
    check(&rt, &heap, bytes, |sink: &mut Vec<u8, _>| {
        append_stack(thread, &frames, sink)
    });
}

/// The bytes of a body with its size prefix, of which `shorten_body` receives all but the first.
#[test]
fn body() {
    let rt = crate::host::HostRuntime;
    let heap = Refusing::new(rt.alloc());
    let bytes =
        b"\x15\x01\x01\x7F\x41\xE4\0\x41\x05\x41\x06\x41\x07\x41\x08\x6A\x6A\x6A\x6A\x21\0\x0B";
    let (_size, body) = bytes.split_first().expect("a byte");
    check(&rt, &heap, bytes, |sink: &mut Vec<u8, _>| {
        match shorten_body(body, &heap, sink) {
            Ok(()) => Ok(()),
            Err(error) if error.cause() == ReadFault::Memory => Err(Refused::Memory),
            Err(_) => Err(Refused::TooLong),
        }
    });
}

#[test]
fn values() {
    let rt = crate::host::HostRuntime;
    let heap = Refusing::new(rt.alloc());
    let names = [
        "the_first_name_which_is_long",
        "the_other_name_which_is_long",
    ];
    let text = b"\x1Cthe_first_name_which_is_long\x1Cthe_other_name_which_is_long";
    check(&rt, &heap, text, |sink: &mut Vec<u8, _>| {
        append_all(&names, sink)
    });
    let listed = Vec::from_slice(rt.alloc(), &names).expect("accepted");
    let framed = SizePrefixed((listed, 7u32));
    let text = b"\x3C\x02\x1Cthe_first_name_which_is_long\x1Cthe_other_name_which_is_long\x07";
    check(&rt, &heap, text, |sink: &mut Vec<u8, _>| {
        framed.append_minimal(sink)
    });
}

/// A table of `anyref`: 6E in the standard's grammar, 63 6E in the builders'.
#[test]
fn items_in_a_grammar() {
    let rt = crate::host::HostRuntime;
    let heap = Refusing::new(rt.alloc());
    let section = b"\x05\x01\x63\x6E\0\x07";
    let (items, _size): (Items<'_, _>, usize) = read_section(
        rt.alloc(),
        SectionKind::Tables,
        section,
    ).expect("a table");
    check(&rt, &heap, b"\x01\x6E\0\x07", |sink: &mut Vec<u8, _>| {
        encode_items_in::<Standard, _, _, _>(&heap, &items, sink)
    });
    check(&rt, &heap, b"\x01\x63\x6E\0\x07", |sink: &mut Vec<u8, _>| {
        encode_items_in::<Padded, _, _, _>(&heap, &items, sink)
    });
}
