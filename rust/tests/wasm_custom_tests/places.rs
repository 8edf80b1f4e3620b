// Written by tools/to-rust from tests/wasm_custom_tests/src/places.rtt: change that.
// Tests of the places of errors.

use dolzhytik::fallible::Global;
use crate::host::Abort;
use dolzhytik::reader::{DecodeError, Grammar, Padded, ReadFault, Standard};
use dolzhytik::fallible::{read_build_id, read_call_targets, read_debug_file, read_dylink, read_features, read_frequencies, read_hints, read_instances, read_links, read_modules, read_names, read_orders, read_process, read_producers, read_relocations, read_source_map, read_stack};

/// Returns the cause and the place of an error.
fn place<T>(read: Result<T, DecodeError>) -> (Option<ReadFault>, u32) {
    match read {
        Ok(_) => (None, 0),
        Err(error) => (Some(error.cause()), error.left()),
    }
}

fn names<G: Grammar>(rt: &impl Abort, alloc: Global) {
    // Good
    assert_eq!(rt;
        place(read_names::<Global, G>(b"\x04name\0\x02\x01m", alloc)),
        (None, 0)
    );
    // A shorter name of section: the size byte
    assert_eq!(rt;
        place(read_names::<Global, G>(b"\x03nam\0\x02\x01m", alloc)),
        (Some(ReadFault::UnknownTag), 8)
    );
    assert_eq!(rt;
        place(read_names::<Global, G>(b"\0\0\x02\x01m", alloc)),
        (Some(ReadFault::UnknownTag), 5)
    );
    // Another third byte
    assert_eq!(rt;
        place(read_names::<Global, G>(b"\x04nave\0\x02\x01m", alloc)),
        (Some(ReadFault::UnknownTag), 6)
    );
    // Another first byte
    assert_eq!(rt;
        place(read_names::<Global, G>(b"\x04fame\0\x02\x01m", alloc)),
        (Some(ReadFault::UnknownTag), 8)
    );
    // Another last byte
    assert_eq!(rt;
        place(read_names::<Global, G>(b"\x04namx", alloc)),
        (Some(ReadFault::UnknownTag), 1)
    );
    // Ended
    assert_eq!(rt;
        place(read_names::<Global, G>(b"\x04nam", alloc)),
        (Some(ReadFault::Ended), 0)
    );
    // the subsection's content has one byte more than the name
    assert_eq!(rt;
        place(read_names::<Global, G>(b"\x04name\0\x03\x01mx\x63\x01y", alloc)),
        (Some(ReadFault::SizeMismatch), 4)
    );
    // the name in it ends too soon
    assert_eq!(rt;
        place(read_names::<Global, G>(b"\x04name\0\x03\x03mx\x63\x01y", alloc)),
        (Some(ReadFault::Ended), 3)
    );
    // a map whose number is too long
    assert_eq!(rt;
        place(read_names::<Global, G>(
            b"\x04name\x01\x07\x01\x80\x80\x80\x80\x80\x00\x63\x01y",
            alloc
        )),
        (Some(ReadFault::TooLarge), 5)
    );
    // an indirect map with a name that is not UTF-8
    assert_eq!(rt;
        place(read_names::<Global, G>(b"\x04name\x02\x06\x01\x00\x01\x00\x01\xFF\x63\x01y", alloc)),
        (Some(ReadFault::NotUtf8), 4)
    );
    // the same in a map
    assert_eq!(rt;
        place(read_names::<Global, G>(b"\x04name\x01\x04\x01\x00\x01\xFF", alloc)),
        (Some(ReadFault::NotUtf8), 1)
    );
}

fn links<G: Grammar>(rt: &impl Abort, alloc: Global) {
    assert_eq!(rt;
        place(read_links::<Global, G>(b"\x07linking\x02\x08\x04\x01\0\x10\0\x09\x02\x01m", alloc)),
        (None, 0)
    );
    assert_eq!(rt;
        place(read_links::<Global, G>(b"\x07linking\x03\x08\x04\x01\0\x10\0\x09\x02\x01m", alloc)),
        (Some(ReadFault::UnknownTag), 11)
    );
    assert_eq!(rt;
        place(read_links::<Global, G>(
            b"\x07linking\x02\x08\x04\x01\x06\x10\0\x09\x02\x01m",
            alloc
        )),
        (Some(ReadFault::UnknownTag), 7)
    );
    assert_eq!(rt;
        place(read_links::<Global, G>(
            b"\x07linking\x02\x08\x05\x01\0\x10\0\0\x09\x02\x01m",
            alloc
        )),
        (Some(ReadFault::SizeMismatch), 5)
    );
    assert_eq!(rt;
        place(read_links::<Global, G>(b"\x07linking\x02\x08\x03\x01\0\x10\x09\x02\x01m", alloc)),
        (Some(ReadFault::Ended), 4)
    );
    assert_eq!(rt;
        place(read_links::<Global, G>(b"\x07linking\x02\x09\x03\x01mx\x09\x02\x01m", alloc)),
        (Some(ReadFault::SizeMismatch), 5)
    );
    assert_eq!(rt;
        place(read_links::<Global, G>(b"\x07linking\x02\x09\x02\x01\xFF\x09\x02\x01m", alloc)),
        (Some(ReadFault::NotUtf8), 5)
    );
    assert_eq!(rt;
        place(read_links::<Global, G>(b"\x07linking", alloc)),
        (Some(ReadFault::Ended), 0)
    );
}

fn others<G: Grammar>(rt: &impl Abort, alloc: Global) {
    assert_eq!(rt;
        place(read_producers::<Global, G>(b"\x09producers\0x", alloc)),
        (Some(ReadFault::SizeMismatch), 1)
    );
    assert_eq!(rt;
        place(read_producers::<Global, G>(b"\x09producers\x01\x01a\x01\x01b\x01\xFF", alloc)),
        (Some(ReadFault::NotUtf8), 1)
    );
    assert_eq!(rt;
        place(read_hints::<Global, G>(
            b"\x19metadata.code.branch_hint\x01\0\x02\x03\x01\x80\x05\x01\x01",
            alloc
        )),
        (Some(ReadFault::TooLarge), 4)
    );
    assert_eq!(rt;
        place(read_hints::<Global, G>(
            b"\x19metadata.code.branch_hint\x01\0\x02\x03\x02\x01\x05\x01\x01",
            alloc
        )),
        (Some(ReadFault::UnknownTag), 5)
    );
    // A frequency of two bytes, and of none
    assert_eq!(rt;
        place(read_frequencies::<Global, G>(
            b"\x18metadata.code.instr_freq\x01\0\x02\x03\x02\x20\x21\x05\x01\x20",
            alloc
        )),
        (Some(ReadFault::SizeMismatch), 4)
    );
    assert_eq!(rt;
        place(read_frequencies::<Global, G>(
            b"\x18metadata.code.instr_freq\x01\0\x02\x03\0\x05\x01\x20",
            alloc
        )),
        (Some(ReadFault::Ended), 3)
    );
    // A third number, and none
    assert_eq!(rt;
        place(read_orders::<Global, G>(
            b"\x1Fmetadata.code.compilation_order\x01\0\x01\0\x03\x01\x02\x03",
            alloc
        )),
        (Some(ReadFault::SizeMismatch), 1)
    );
    assert_eq!(rt;
        place(read_orders::<Global, G>(
            b"\x1Fmetadata.code.compilation_order\x01\0\x01\0\0",
            alloc
        )),
        (Some(ReadFault::Ended), 0)
    );
    // A second target without its share
    assert_eq!(rt;
        place(read_call_targets::<Global, G>(
            b"\x1Ametadata.code.call_targets\x01\0\x02\x03\x03\x07\x5A\x09\x05\0",
            alloc
        )),
        (Some(ReadFault::Ended), 2)
    );
    assert_eq!(rt;
        place(read_features::<Global, G>(b"\x0Ftarget_features\x02+\x01a!\x01b", alloc)),
        (Some(ReadFault::UnknownTag), 3)
    );
    assert_eq!(rt;
        place(read_features::<Global, G>(b"\x0Ftarget_features\x01=\x01\xFF", alloc)),
        (Some(ReadFault::NotUtf8), 1)
    );
    assert_eq!(rt;
        place(read_dylink::<Global, G>(b"\x08dylink.0\x02\x03\x01\x01\xFF\x02\x01\x00", alloc)),
        (Some(ReadFault::NotUtf8), 4)
    );
    // A name that does not begin with `reloc.`: its first byte
    assert_eq!(rt;
        place(read_relocations::<Global, G>(b"\x05reloc\x03\x00", alloc)),
        (Some(ReadFault::UnknownTag), 7)
    );
    assert_eq!(rt;
        place(read_relocations::<Global, G>(b"\x0Areloc.CODE\x03\x01\x1B\x00\x00", alloc)),
        (Some(ReadFault::UnknownTag), 3)
    );
    assert_eq!(rt;
        place(read_source_map::<Global, G>(b"\x10sourceMappingURL\x01\xFF", alloc)),
        (Some(ReadFault::NotUtf8), 1)
    );
    assert_eq!(rt;
        place(read_debug_file::<Global, G>(b"\x13external_debug_info\x01dx", alloc)),
        (Some(ReadFault::SizeMismatch), 1)
    );
    assert_eq!(rt;
        place(read_build_id::<Global, G>(b"\x08build_id\x02a", alloc)),
        (Some(ReadFault::Ended), 0)
    );
    assert_eq!(rt;
        place(read_process::<Global, G>(b"\x04core\x01\x01m", alloc)),
        (Some(ReadFault::UnknownTag), 3)
    );
    assert_eq!(rt;
        place(read_process::<Global, G>(b"\x04core\0\x01mx", alloc)),
        (Some(ReadFault::SizeMismatch), 1)
    );
    assert_eq!(rt;
        place(read_modules::<Global, G>(b"\x0Bcoremodules\x02\0\x01m\x01\x01m", alloc)),
        (Some(ReadFault::UnknownTag), 3)
    );
    assert_eq!(rt;
        place(read_instances::<Global, G>(b"\x0Dcoreinstances\x02\0\0\0\0\x02\0\0\0", alloc)),
        (Some(ReadFault::UnknownTag), 4)
    );
    assert_eq!(rt;
        place(read_stack::<Global, G>(b"\x09corestack\0\x01m\x01\0\0\0\0\x01\x02\0", alloc)),
        (Some(ReadFault::UnknownTag), 2)
    );
    assert_eq!(rt;
        place(read_stack::<Global, G>(b"\x09corestack\x01\x01m\x01\0\0\0\0\x01\x01\0", alloc)),
        (Some(ReadFault::UnknownTag), 11)
    );
    assert_eq!(rt;
        place(read_stack::<Global, G>(b"\x09corestack\0\x01m\x01\0\0\0\0\x01\x01\0\0", alloc)),
        (Some(ReadFault::SizeMismatch), 1)
    );
}

#[test]
fn places() {
    let rt = crate::host::HostRuntime;
    let alloc = rt.alloc();
    names::<Padded>(&rt, alloc);
    names::<Standard>(&rt, alloc);
    links::<Padded>(&rt, alloc);
    links::<Standard>(&rt, alloc);
    others::<Padded>(&rt, alloc);
    others::<Standard>(&rt, alloc);
}
