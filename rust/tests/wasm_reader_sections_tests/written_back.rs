// Written by tools/to-rust from tests/wasm_reader_sections_tests/src/written_back.rtt: change that.
// Tests of the callers that write, decode and minimize, once with ample memory, and with each
// request failing.

use dolzhytik::fallible::Vec;
use crate::checks::check_bytes;
use crate::read_back::compilation_hints::{read_call_targets, read_frequencies, read_orders};
use crate::read_back::custom::{read_custom, read_features, read_hints, read_linking, read_more_names, read_producers, rewritten_linking};
use crate::read_back::debug_files::{read_build_id, read_debug_file, read_source_map};
use crate::read_back::declared::{read_exports, read_imports, read_memories, read_tables, read_tags, read_types};
use crate::read_back::dumps::{core_dump, read_instances, read_modules, read_process, read_stack};
use crate::read_back::dylink::read_dylink;
use crate::read_back::handed::handed_module;
use crate::read_back::objects::read_objects;
use crate::read_back::padded::{padded_entries, read_padded_segment, write_padded_bodies};
use crate::read_back::relocations::read_relocations;
use crate::read_back::stored::{read_bodies, read_data_count, read_elements, read_globals, read_segments, read_start};
use dolzhytik::fallible::Global;
use crate::host::Abort;
use crate::test_support::{MOST, Refusing};
use dolzhytik::reader::ReadFault;
use dolzhytik::fallible::{Refused, Result};
use dolzhytik::fallible::append_links;
use dolzhytik::reader::Items;

/// The module of a core dump: its process, modules, instances and stack.
const DUMP: &[u8] = b"\0asm\x01\0\0\0\
    \0\x08\x04core\0\x01p\
    \0\x16\x0Bcoremodules\x02\0\x04main\0\x01p\
    \0\x1C\x0Dcoreinstances\x02\0\0\x01\0\x02\0\x01\0\x05\x01\x01\x01\x07\
    \0\x1F\x09corestack\0\x01p\x02\0\0\x01\x02\x01\x01\x01\x7F\x05\0\0\0\x05\x01\x7F\x05\0";

/// The module of arguments: tags, a raw body, and a custom section twice.
const HANDED: &[u8] = b"\0asm\x01\0\0\0\
    \x0D\x05\x02\0\0\0\x03\
    \x0A\x03\x01\x01\x0B\
    \0\x03\x01n\x05\
    \0\x03\x01n\x05";

/// The module of padded numbers: tables, elements, data and names.
const PADDED: &[u8] = b"\0asm\x01\0\0\0\
    \x04\x0A\x01\x40\0\x70\0\x01\xD2\x80\0\x0B\
    \x09\x08\x01\0\x41\x80\0\x0B\x01\x01\
    \x0B\x09\x01\x02\x01\x41\x80\0\x0B\x01\x05\
    \0\x0E\x04name\x02\x07\x01\0\x01\x80\0\x01a";

/// Checks that the result decodes as its kind, and that the call appends these bytes. It returns
/// `Memory` if a request fails.
///
/// # Asks
///
/// ```text
/// requires { F.IsAlwaysCallable read }
/// ```
fn check_read<
    'h,
    F: Fn(&'h Refusing<Global>) -> Result<(bool, Vec<u8, &'h Refusing<Global>>), ReadFault>,
>(rt: &impl Abort, heap: &'h Refusing<Global>, expected: &[u8], read: F) {
    for nth in 1..MOST {
        heap.refuse(nth);
        let read = read(heap);
        if heap.is_waiting() {
            let (is_kind, shortened) = read.expect("read");
            assert!(rt; is_kind);
            check_bytes(rt, &shortened, expected);
            return;
        }
        match read {
            Ok(_) => panic!(rt; "accepted"),
            Err(fault) => assert_eq!(rt; fault, ReadFault::Memory),
        }
    }
    panic!(rt; "no call was granted")
}

#[test]
fn types() {
    let rt = crate::host::HostRuntime;
    let heap = Refusing::new(rt.alloc());
    let expected = &[
        13, 3, 0x5E, 0x78, 1, 0x5F, 1, 0x78, 1, 0x50, 0, 0x5E, 0x78, 1,
    ];
    check_read(&rt, &heap, expected, |heap| {
        let (mut text, mut sink) = (Vec::new(heap), Vec::new(heap));
        let is_kind = matches!(read_types(&mut text, &mut sink)?, Items::Types(_));
        Ok((is_kind, sink))
    })
}

#[test]
fn imports() {
    let rt = crate::host::HostRuntime;
    let heap = Refusing::new(rt.alloc());
    let expected = &[7, 1, 1, b'm', 1, b'f', 0, 7];
    check_read(&rt, &heap, expected, |heap| {
        let (mut text, mut sink) = (Vec::new(heap), Vec::new(heap));
        let is_kind = matches!(read_imports(&mut text, 7, &mut sink)?, Items::Imports(_));
        Ok((is_kind, sink))
    })
}

#[test]
fn tables() {
    let rt = crate::host::HostRuntime;
    let heap = Refusing::new(rt.alloc());
    let expected = &[12, 2, 0x70, 0, 1, 0x40, 0, 0x70, 0, 1, 0xD0, 0x70, 0x0B];
    check_read(&rt, &heap, expected, |heap| {
        let (mut text, mut sink) = (Vec::new(heap), Vec::new(heap));
        let is_kind = matches!(read_tables(&mut text, 1, &mut sink)?, Items::Tables(_));
        Ok((is_kind, sink))
    })
}

#[test]
fn memories() {
    let rt = crate::host::HostRuntime;
    let heap = Refusing::new(rt.alloc());
    let expected = &[6, 2, 0, 1, 5, 1, 2];
    check_read(&rt, &heap, expected, |heap| {
        let (mut text, mut sink) = (Vec::new(heap), Vec::new(heap));
        let is_kind = matches!(read_memories(&mut text, 1, &mut sink)?, Items::Memories(_));
        Ok((is_kind, sink))
    })
}

#[test]
fn tags() {
    let rt = crate::host::HostRuntime;
    let heap = Refusing::new(rt.alloc());
    let expected = &[5, 2, 0, 0, 0, 3];
    check_read(&rt, &heap, expected, |heap| {
        let (mut text, mut sink) = (Vec::new(heap), Vec::new(heap));
        let is_kind = matches!(read_tags(&mut text, 3, &mut sink)?, Items::Tags(_));
        Ok((is_kind, sink))
    })
}

#[test]
fn exports() {
    let rt = crate::host::HostRuntime;
    let heap = Refusing::new(rt.alloc());
    let expected = &[5, 1, 1, b'f', 0, 7];
    check_read(&rt, &heap, expected, |heap| {
        let (mut text, mut sink) = (Vec::new(heap), Vec::new(heap));
        let is_kind = matches!(
            read_exports(&mut text, "f", 7, &mut sink)?,
            Items::Exports(_)
        );
        Ok((is_kind, sink))
    })
}

#[test]
fn globals() {
    let rt = crate::host::HostRuntime;
    let heap = Refusing::new(rt.alloc());
    let expected = &[6, 1, 0x7F, 0, 0x23, 3, 0x0B];
    check_read(&rt, &heap, expected, |heap| {
        let (mut text, mut sink) = (Vec::new(heap), Vec::new(heap));
        let is_kind = matches!(read_globals(&mut text, 3, &mut sink)?, Items::Globals(_));
        Ok((is_kind, sink))
    })
}

#[test]
fn elements() {
    let rt = crate::host::HostRuntime;
    let heap = Refusing::new(rt.alloc());
    let expected = &[12, 2, 0, 0x41, 8, 0x0B, 1, 7, 1, 0, 2, 1, 2];
    check_read(&rt, &heap, expected, |heap| {
        let (mut text, mut sink) = (Vec::new(heap), Vec::new(heap));
        let is_kind = matches!(read_elements(&mut text, 7, &mut sink)?, Items::Elements(_));
        Ok((is_kind, sink))
    })
}

#[test]
fn segments() {
    let rt = crate::host::HostRuntime;
    let heap = Refusing::new(rt.alloc());
    let expected = &[11, 2, 0, 0x41, 8, 0x0B, 2, 5, 6, 1, 1, 7];
    check_read(&rt, &heap, expected, |heap| {
        let (mut text, mut sink) = (Vec::new(heap), Vec::new(heap));
        let is_kind = matches!(read_segments(&mut text, &mut sink)?, Items::Segments(_));
        Ok((is_kind, sink))
    })
}

#[test]
fn bodies() {
    let rt = crate::host::HostRuntime;
    let heap = Refusing::new(rt.alloc());
    let expected = &[11, 2, 6, 1, 2, 0x7F, 0x20, 1, 0x0B, 2, 0, 0x0B];
    check_read(&rt, &heap, expected, |heap| {
        let (mut text, mut sink) = (Vec::new(heap), Vec::new(heap));
        let is_kind = matches!(read_bodies(&mut text, 1, &mut sink)?, Items::Bodies(_));
        Ok((is_kind, sink))
    })
}

#[test]
fn start() {
    let rt = crate::host::HostRuntime;
    let heap = Refusing::new(rt.alloc());
    let expected = &[1, 7];
    check_read(&rt, &heap, expected, |heap| {
        let (mut text, mut sink) = (Vec::new(heap), Vec::new(heap));
        let is_kind = matches!(read_start(&mut text, 7, &mut sink)?, Items::Start(_));
        Ok((is_kind, sink))
    })
}

#[test]
fn data_count() {
    let rt = crate::host::HostRuntime;
    let heap = Refusing::new(rt.alloc());
    let expected = &[1, 2];
    check_read(&rt, &heap, expected, |heap| {
        let (mut text, mut sink) = (Vec::new(heap), Vec::new(heap));
        let is_kind = matches!(
            read_data_count(&mut text, 2, &mut sink)?,
            Items::DataCount(_)
        );
        Ok((is_kind, sink))
    })
}

#[test]
fn names() {
    let rt = crate::host::HostRuntime;
    let heap = Refusing::new(rt.alloc());
    let expected = b"\x0C\x04name\0\x02\x01m\x0E\x01\x05";
    check_read(&rt, &heap, expected, |heap| {
        let (mut text, mut sink) = (Vec::new(heap), Vec::new(heap));
        let is_kind = matches!(
            read_more_names(&mut text, "m", &[5], &mut sink)?,
            Items::Names(_)
        );
        Ok((is_kind, sink))
    })
}

#[test]
fn linking() {
    let rt = crate::host::HostRuntime;
    let heap = Refusing::new(rt.alloc());
    let expected = b"\x1C\x07linking\x02\x08\x08\x01\x01\0\x01d\0\0\x01\x09\x07\x06wasm32";
    check_read(&rt, &heap, expected, |heap| {
        let (mut text, mut sink) = (Vec::new(heap), Vec::new(heap));
        let is_kind = matches!(read_linking(&mut text, "d", &mut sink)?, Items::Linking(_));
        Ok((is_kind, sink))
    })
}

#[test]
fn linking_again() {
    let rt = crate::host::HostRuntime;
    let heap = Refusing::new(rt.alloc());
    // The symbol of section 1, with a padded size and a padded index, and a subsection of id 10.
    let payload = b"\x07linking\x02\x08\x85\0\x01\x03\x02\x81\0\x0A\x02\xAA\xBB";
    let expected = b"\x07linking\x02\x08\x04\x01\x03\x02\x01\x0A\x02\xAA\xBB";
    check_read(&rt, &heap, expected, |heap| {
        let mut sink = Vec::new(heap);
        match rewritten_linking(payload, &mut sink) {
            Ok(()) => Ok((true, sink)),
            Err(error) => Err(error.cause()),
        }
    })
}

#[test]
fn producers() {
    let rt = crate::host::HostRuntime;
    let heap = Refusing::new(rt.alloc());
    let expected = b"\x1E\x09producers\x01\x08language\x01\x06rattle\x011";
    check_read(&rt, &heap, expected, |heap| {
        let (mut text, mut sink) = (Vec::new(heap), Vec::new(heap));
        let is_kind = matches!(
            read_producers(&mut text, "1", &mut sink)?,
            Items::Producers(_)
        );
        Ok((is_kind, sink))
    })
}

#[test]
fn target_features() {
    let rt = crate::host::HostRuntime;
    let heap = Refusing::new(rt.alloc());
    let expected = b"\x20\x0Ftarget_features\x02+\x07atomics-\x04simd";
    check_read(&rt, &heap, expected, |heap| {
        let (mut text, mut sink) = (Vec::new(heap), Vec::new(heap));
        let is_kind = matches!(
            read_features(&mut text, "simd", &mut sink)?,
            Items::TargetFeatures(_)
        );
        Ok((is_kind, sink))
    })
}

#[test]
fn source_map() {
    let rt = crate::host::HostRuntime;
    let heap = Refusing::new(rt.alloc());
    let expected = b"\x17\x10sourceMappingURL\x05a.map";
    check_read(&rt, &heap, expected, |heap| {
        let (mut text, mut sink) = (Vec::new(heap), Vec::new(heap));
        let is_kind = matches!(
            read_source_map(&mut text, "a.map", &mut sink)?,
            Items::SourceMappingUrl(_)
        );
        Ok((is_kind, sink))
    })
}

#[test]
fn debug_file() {
    let rt = crate::host::HostRuntime;
    let heap = Refusing::new(rt.alloc());
    let expected = b"\x16\x13external_debug_info\x01d";
    check_read(&rt, &heap, expected, |heap| {
        let (mut text, mut sink) = (Vec::new(heap), Vec::new(heap));
        let is_kind = matches!(
            read_debug_file(&mut text, "d", &mut sink)?,
            Items::ExternalDebugInfo(_)
        );
        Ok((is_kind, sink))
    })
}

#[test]
fn build_id() {
    let rt = crate::host::HostRuntime;
    let heap = Refusing::new(rt.alloc());
    let expected = b"\x0C\x08build_id\x02\x12\x34";
    check_read(&rt, &heap, expected, |heap| {
        let (mut text, mut sink) = (Vec::new(heap), Vec::new(heap));
        let is_kind = matches!(
            read_build_id(&mut text, &[0x12, 0x34], &mut sink)?,
            Items::BuildId(_)
        );
        Ok((is_kind, sink))
    })
}

#[test]
fn dylink() {
    let rt = crate::host::HostRuntime;
    let heap = Refusing::new(rt.alloc());
    let expected = b"\x2D\x08dylink.0\
        \x01\x04\x10\x02\x00\x00\
        \x02\x06\x01\x04a.so\
        \x03\x04\x01\x01f\x04\
        \x04\x08\x01\x03env\x01g\x01\
        \x05\x04\x01\x02/l";
    check_read(&rt, &heap, expected, |heap| {
        let (mut text, mut sink) = (Vec::new(heap), Vec::new(heap));
        let is_kind = matches!(
            read_dylink(&mut text, "a.so", 4, &mut sink)?,
            Items::Dylink(_)
        );
        Ok((is_kind, sink))
    })
}

#[test]
fn objects() {
    let rt = crate::host::HostRuntime;
    let heap = Refusing::new(rt.alloc());
    let expected = b"\x07linking\x02\
        \x05\x06\x01\x02.d\x02\x00\
        \x06\x03\x01\x07\x03\
        \x07\x07\x01\x01g\x00\x01\x00\x04\
        \x08\x09\x02\x03\x00\x08\x04\x00\x01\x01t\
        \x09\x07\x06wasm32";
    check_read(&rt, &heap, expected, |heap| {
        let (mut text, mut sink) = (Vec::new(heap), Vec::new(heap));
        let items = read_objects(&mut text, ".d", 7)?;
        append_links(&items, &mut sink)?;
        Ok((items.len() == 5, sink))
    })
}

#[test]
fn relocations() {
    let rt = crate::host::HostRuntime;
    let heap = Refusing::new(rt.alloc());
    let expected = b"\x1A\x0Areloc.CODE\x03\x03\
        \x00\x04\x05\
        \x03\xAC\x02\x05\x7C\
        \x10\xB6\x02\x01\x78";
    check_read(&rt, &heap, expected, |heap| {
        let (mut text, mut sink) = (Vec::new(heap), Vec::new(heap));
        let is_kind = matches!(
            read_relocations(&mut text, 5, &mut sink)?,
            Items::Relocations { .. }
        );
        Ok((is_kind, sink))
    })
}

#[test]
fn hints() {
    let rt = crate::host::HostRuntime;
    let heap = Refusing::new(rt.alloc());
    let expected = b"\x25\x19metadata.code.branch_hint\x02\0\x01\x03\x01\x01\x07\x01\x03\x01\x01";
    check_read(&rt, &heap, expected, |heap| {
        let (mut text, mut sink) = (Vec::new(heap), Vec::new(heap));
        let is_kind = matches!(read_hints(&mut text, 7, &mut sink)?, Items::Hints(_));
        Ok((is_kind, sink))
    })
}

#[test]
fn compilation_hints() {
    let rt = crate::host::HostRuntime;
    let heap = Refusing::new(rt.alloc());
    let expected = b"\x1F\x18metadata.code.instr_freq\x01\x07\x01\x03\x01\x20";
    check_read(&rt, &heap, expected, |heap| {
        let (mut text, mut sink) = (Vec::new(heap), Vec::new(heap));
        let items = read_frequencies(&mut text, 7, &mut sink)?;
        let is_kind = matches!(items, Items::InstructionFrequencies(_));
        Ok((is_kind, sink))
    });
    let expected = b"\x27\x1Fmetadata.code.compilation_order\x01\x07\x01\x00\x02\x01\x05";
    check_read(&rt, &heap, expected, |heap| {
        let (mut text, mut sink) = (Vec::new(heap), Vec::new(heap));
        let items = read_orders(&mut text, 7, &mut sink)?;
        let is_kind = matches!(items, Items::CompilationOrders(_));
        Ok((is_kind, sink))
    });
    let expected = b"\x22\x1Ametadata.code.call_targets\x01\x00\x01\x05\x02\x07\x5A";
    let (mut text, mut sink) = (Vec::new(rt.alloc()), Vec::new(rt.alloc()));
    let items = read_call_targets(&mut text, 7, &mut sink).expect("accepted");
    assert_eq!(rt; matches!(items, Items::CallTargets(_)), true);
    check_bytes(&rt, &sink, expected)
}

#[test]
fn custom() {
    let rt = crate::host::HostRuntime;
    let heap = Refusing::new(rt.alloc());
    let expected = b"\x03\x01n\x05";
    check_read(&rt, &heap, expected, |heap| {
        let (mut text, mut sink) = (Vec::new(heap), Vec::new(heap));
        let is_kind = matches!(
            read_custom(&mut text, "n", &[5], &mut sink)?,
            Items::Custom { .. }
        );
        Ok((is_kind, sink))
    })
}

#[test]
fn process() {
    let rt = crate::host::HostRuntime;
    let heap = Refusing::new(rt.alloc());
    let expected = b"\x08\x04core\0\x01p";
    check_read(&rt, &heap, expected, |heap| {
        let (mut text, mut sink) = (Vec::new(heap), Vec::new(heap));
        let is_kind = matches!(read_process(&mut text, "p", &mut sink)?, Items::Core(_));
        Ok((is_kind, sink))
    })
}

#[test]
fn modules() {
    let rt = crate::host::HostRuntime;
    let heap = Refusing::new(rt.alloc());
    let expected = b"\x16\x0Bcoremodules\x02\0\x04main\0\x01p";
    check_read(&rt, &heap, expected, |heap| {
        let (mut text, mut sink) = (Vec::new(heap), Vec::new(heap));
        let is_kind = matches!(
            read_modules(&mut text, "p", &mut sink)?,
            Items::CoreModules(_)
        );
        Ok((is_kind, sink))
    })
}

#[test]
fn instances() {
    let rt = crate::host::HostRuntime;
    let heap = Refusing::new(rt.alloc());
    let expected = b"\x1C\x0Dcoreinstances\x02\0\0\x01\0\x02\0\x01\0\x05\x01\x01\x01\x07";
    check_read(&rt, &heap, expected, |heap| {
        let (mut text, mut sink) = (Vec::new(heap), Vec::new(heap));
        let is_kind = matches!(
            read_instances(&mut text, 5, &mut sink)?,
            Items::CoreInstances(_)
        );
        Ok((is_kind, sink))
    })
}

#[test]
fn stack() {
    let rt = crate::host::HostRuntime;
    let heap = Refusing::new(rt.alloc());
    let expected =
        b"\x1F\x09corestack\0\x01t\x02\0\0\x01\x02\x01\x01\x01\x7F\x05\0\0\0\x09\x01\x7F\x05\0";
    check_read(&rt, &heap, expected, |heap| {
        let (mut text, mut sink) = (Vec::new(heap), Vec::new(heap));
        let is_kind = matches!(
            read_stack(&mut text, "t", 9, &mut sink)?,
            Items::CoreStack { .. }
        );
        Ok((is_kind, sink))
    })
}

#[test]
fn padded_segment() {
    let rt = crate::host::HostRuntime;
    let heap = Refusing::new(rt.alloc());
    let expected = &[8, 1, 2, 1, 0x41, 0, 0x0B, 1, 5];
    check_read(&rt, &heap, expected, |heap| {
        let (mut text, mut sink) = (Vec::new(heap), Vec::new(heap));
        let is_kind = matches!(
            read_padded_segment(&mut text, 1, &[5], &mut sink)?,
            Items::Segments(_)
        );
        Ok((is_kind, sink))
    })
}

/// Checks that a call returns these bytes, or `Memory` if a request fails.
///
/// # Asks
///
/// ```text
/// requires { F.IsAlwaysCallable make }
/// ```
fn check_made<'h, F: Fn(&'h Refusing<Global>) -> Result<Vec<u8, &'h Refusing<Global>>>>(
    rt: &impl Abort,
    heap: &'h Refusing<Global>,
    expected: &[u8],
    make: F,
) {
    for nth in 1..MOST {
        heap.refuse(nth);
        let made = make(heap);
        if heap.is_waiting() {
            check_bytes(rt, &made.expect("accepted"), expected);
            return;
        }
        assert_eq!(rt; made.err(), Some(Refused::Memory));
    }
    panic!(rt; "no call was granted")
}

#[test]
fn dump() {
    let rt = crate::host::HostRuntime;
    let heap = Refusing::new(rt.alloc());
    check_made(&rt, &heap, DUMP, |heap| core_dump(heap, "p", 5))
}

#[test]
fn handed() {
    let rt = crate::host::HostRuntime;
    let heap = Refusing::new(rt.alloc());
    check_made(&rt, &heap, HANDED, |heap| {
        handed_module(heap, 3, &[0x0B], "n", &[5])
    })
}

#[test]
fn padded() {
    let rt = crate::host::HostRuntime;
    let heap = Refusing::new(rt.alloc());
    check_made(&rt, &heap, PADDED, |heap| padded_entries(heap, 1, &[5]))
}

#[test]
fn padded_bodies() {
    let rt = crate::host::HostRuntime;
    let heap = Refusing::new(rt.alloc());
    let expected = &[12, 2, 7, 0, 0x20, 0x80, 0, 0x20, 0, 0x0B, 2, 0, 0x0B];
    check_made(&rt, &heap, expected, |heap| {
        let mut sink = Vec::new(heap);
        write_padded_bodies(&mut sink)?;
        Ok(sink)
    })
}
