// Written by tools/to-rust from tests/wasm_reader_tests/src/base.rtt: change that.
// Tests of numbers, fixed-width bytes, names, types and immediates, with ample memory.

use crate::checks::{check_fault, check_read, check_text};
use crate::host::Abort;
use dolzhytik::fallible::{AbstractHeapType, HeapType, RefType, ValType, read_groups};
use dolzhytik::reader::ReadFault;
use dolzhytik::fallible::{BlockType, Catch, Handle, Ieee32, Ieee64, MemArg, MemArgOrdering, Ordering};

/// Checks the decoded groups, and the number of remaining bytes.
fn check_groups(rt: &impl Abort, expected: (u128, u128, u8), left: usize, bytes: &[u8]) {
    match read_groups(bytes, 5) {
        Ok((groups, rest)) => {
            assert_eq!(rt; (groups.sum, groups.power, groups.last), expected);
            assert_eq!(rt; rest.len(), left);
        }
        Err(_) => panic!(rt; "no groups"),
    }
}

/// Checks that decoding groups fails with this cause.
fn check_no_groups(rt: &impl Abort, cause: ReadFault, bytes: &[u8]) {
    match read_groups(bytes, 2) {
        Ok(_) => panic!(rt; "groups"),
        Err(error) => assert_eq!(rt; error.cause(), cause),
    }
}

#[test]
fn groups() {
    let rt = crate::host::HostRuntime;
    check_groups(&rt, (5, 128, 5), 1, &[5, 9]);
    check_groups(&rt, (624485, 2097152, 0x26), 0, &[0xE5, 0x8E, 0x26]);
    check_no_groups(&rt, ReadFault::Ended, &[0xE5]);
    check_no_groups(&rt, ReadFault::TooLarge, &[0xE5, 0x8E, 0x26]);
}

#[test]
fn unsigned_numbers() {
    let rt = crate::host::HostRuntime;
    let alloc = rt.alloc();
    check_read(&rt, alloc, &[0x7F, 9], 0x7Fu8, 1);
    check_read(&rt, alloc, &[0x05], 5u32, 0);
    check_read(&rt, alloc, &[0x85, 0x80, 0x80, 0x80, 0x00, 9], 5u32, 1);
    check_read(&rt, alloc, &[0xFF, 0xFF, 0xFF, 0xFF, 0x0F], u32::MAX, 0);
    check_read(&rt, alloc, &[0x80, 0x80, 0x00, 1, 2], 0u64, 2);
    check_read(
        &rt,
        alloc,
        &[0xFF, 0xFF, 0xFF, 0xFF, 0xFF, 0xFF, 0xFF, 0xFF, 0xFF, 0x01],
        u64::MAX,
        0,
    )
}

#[test]
fn signed_numbers() {
    let rt = crate::host::HostRuntime;
    let alloc = rt.alloc();
    check_read(&rt, alloc, &[0x3F], 63i32, 0);
    check_read(&rt, alloc, &[0x40], -64i32, 0);
    check_read(&rt, alloc, &[0xC0, 0x00], 64i32, 0);
    check_read(&rt, alloc, &[0xFF, 0xFF, 0xFF, 0xFF, 0x7F, 9], -1i32, 1);
    check_read(&rt, alloc, &[0x80, 0x80, 0x80, 0x80, 0x78], i32::MIN, 0);
    check_read(&rt, alloc, &[0x7F], -1i64, 0);
    check_read(
        &rt,
        alloc,
        &[0x80, 0x80, 0x80, 0x80, 0x80, 0x80, 0x80, 0x80, 0x80, 0x7F],
        i64::MIN,
        0,
    )
}

#[test]
fn numbers_that_are_none() {
    let rt = crate::host::HostRuntime;
    let alloc = rt.alloc();
    check_fault::<u8>(&rt, alloc, &[], ReadFault::Ended);
    check_fault::<u32>(&rt, alloc, &[], ReadFault::Ended);
    check_fault::<u32>(&rt, alloc, &[0x80], ReadFault::Ended);
    check_fault::<u32>(
        &rt,
        alloc,
        &[0xFF, 0xFF, 0xFF, 0xFF, 0x1F],
        ReadFault::TooLarge,
    );
    check_fault::<u32>(
        &rt,
        alloc,
        &[0x80, 0x80, 0x80, 0x80, 0x80, 0],
        ReadFault::TooLarge,
    );
    check_fault::<i32>(
        &rt,
        alloc,
        &[0x80, 0x80, 0x80, 0x80, 0x70],
        ReadFault::TooLarge,
    );
    check_fault::<i32>(
        &rt,
        alloc,
        &[0x80, 0x80, 0x80, 0x80, 0x08],
        ReadFault::TooLarge,
    );
    check_fault::<u64>(
        &rt,
        alloc,
        &[0xFF, 0xFF, 0xFF, 0xFF, 0xFF, 0xFF, 0xFF, 0xFF, 0xFF, 0x03],
        ReadFault::TooLarge,
    );
    check_fault::<i64>(
        &rt,
        alloc,
        &[0x80, 0x80, 0x80, 0x80, 0x80, 0x80, 0x80, 0x80, 0x80, 0x7E],
        ReadFault::TooLarge,
    );
}

#[test]
fn fixed_bytes() {
    let rt = crate::host::HostRuntime;
    let alloc = rt.alloc();
    check_read(
        &rt,
        alloc,
        &[0, 0, 0x80, 0x3F, 9],
        Ieee32::new(0x3F80_0000),
        1,
    );
    check_read(
        &rt,
        alloc,
        &[0, 0, 0, 0, 0, 0, 0xF0, 0x3F],
        Ieee64::new(0x3FF0_0000_0000_0000),
        0,
    );
    check_read(&rt, alloc, &[0xFF; 16], -1i128, 0);
    check_read(&rt, alloc, &[3; 17], [3u8; 16], 1);
    check_fault::<Ieee32>(&rt, alloc, &[0, 0, 0x80], ReadFault::Ended);
    check_fault::<Ieee64>(&rt, alloc, &[0, 0, 0x80, 0x3F], ReadFault::Ended);
    check_fault::<i128>(&rt, alloc, &[0xFF; 15], ReadFault::Ended);
    check_fault::<[u8; 16]>(&rt, alloc, &[0xFF; 15], ReadFault::Ended);
}

#[test]
fn names() {
    let rt = crate::host::HostRuntime;
    let alloc = rt.alloc();
    check_read(&rt, alloc, b"\x03abc\x01", "abc", 1);
    check_read(&rt, alloc, b"\x81\x00m", "m", 0);
    check_read(
        &rt,
        alloc,
        &[2, 0xFF, 0xFE, 7],
        [0xFFu8, 0xFE].as_slice(),
        1,
    );
    check_fault::<&str>(&rt, alloc, &[1, 0xFF], ReadFault::NotUtf8);
    check_fault::<&str>(&rt, alloc, b"\x02m", ReadFault::Ended);
}

#[test]
fn types() {
    let rt = crate::host::HostRuntime;
    let alloc = rt.alloc();
    check_read(&rt, alloc, &[0x71], AbstractHeapType::None, 0);
    check_read(&rt, alloc, &[0x70, 9], HeapType::FUNC, 1);
    check_read(&rt, alloc, &[0xC0, 0x00], HeapType::Concrete(64), 0);
    check_read(&rt, alloc, &[0x62, 0x83, 0x00], HeapType::Exact(3), 0);
    let shared = HeapType::Abstract {
        shared: true,
        ty: AbstractHeapType::Any,
    };
    check_read(&rt, alloc, &[0x65, 0x6E], shared, 0);
    check_read(&rt, alloc, &[0x6F], RefType::EXTERNREF, 0);
    let to_func = RefType {
        nullable: false,
        heap_type: HeapType::FUNC,
    };
    check_read(&rt, alloc, &[0x64, 0x70], to_func, 0);
    check_read(&rt, alloc, &[0x7B], ValType::V128, 0);
    check_read(&rt, alloc, &[0x64, 0x70, 9], ValType::Ref(to_func), 1)
}

#[test]
fn types_that_are_none() {
    let rt = crate::host::HostRuntime;
    let alloc = rt.alloc();
    check_fault::<AbstractHeapType>(&rt, alloc, &[0x60], ReadFault::UnknownTag);
    check_fault::<HeapType>(&rt, alloc, &[0x65, 0x60], ReadFault::UnknownTag);
    check_fault::<HeapType>(&rt, alloc, &[0x60], ReadFault::UnknownTag);
    check_fault::<RefType>(&rt, alloc, &[0x63, 0x70], ReadFault::UnknownTag);
    check_fault::<RefType>(&rt, alloc, &[0x7F], ReadFault::UnknownTag);
    check_fault::<ValType>(&rt, alloc, &[0x60], ReadFault::UnknownTag);
    check_fault::<ValType>(&rt, alloc, &[0x63], ReadFault::Ended);
}

#[test]
fn memory_arguments() {
    let rt = crate::host::HostRuntime;
    let alloc = rt.alloc();
    check_text::<MemArg>(&rt, alloc, &[0x02, 0x04, 9], &[0x02, 0x04], 1);
    check_text::<MemArg>(
        &rt,
        alloc,
        &[0x82, 0x00, 0x84, 0x80, 0x00],
        &[0x02, 0x04],
        0,
    );
    check_text::<MemArg>(
        &rt,
        alloc,
        &[0x42, 0x81, 0x00, 0x04],
        &[0x42, 0x01, 0x04],
        0,
    );
    check_text::<MemArg>(&rt, alloc, &[0x22, 0x00, 0x04], &[0x22, 0x00, 0x04], 0);
    check_text::<MemArg>(&rt, alloc, &[0x12, 0x11, 0x00], &[0x12, 0x11, 0x00], 0);
    check_text::<MemArg>(
        &rt,
        alloc,
        &[0x52, 0x03, 0x01, 0x08],
        &[0x52, 0x03, 0x01, 0x08],
        0,
    )
}

#[test]
fn memory_arguments_that_are_none() {
    let rt = crate::host::HostRuntime;
    let alloc = rt.alloc();
    check_fault::<MemArg>(&rt, alloc, &[0x80, 0x01, 0x00], ReadFault::UnknownTag);
    check_fault::<MemArg>(&rt, alloc, &[0x42, 0x00, 0x00], ReadFault::UnknownTag);
    check_fault::<MemArg>(&rt, alloc, &[0x62, 0x01, 0x00], ReadFault::UnknownTag);
    check_fault::<MemArg>(&rt, alloc, &[0x12, 0x10, 0x00], ReadFault::UnknownTag);
    check_fault::<MemArg>(&rt, alloc, &[0x10, 0x00], ReadFault::Ended);
}

#[test]
fn immediates() {
    let rt = crate::host::HostRuntime;
    let alloc = rt.alloc();
    check_read(&rt, alloc, &[0x01], Ordering::AcqRel, 0);
    check_read(&rt, alloc, &[0x00], MemArgOrdering::Op(Ordering::SeqCst), 0);
    check_text::<BlockType>(&rt, alloc, &[0x40, 9], &[0x40], 1);
    check_text::<BlockType>(&rt, alloc, &[0x64, 0x70], &[0x64, 0x70], 0);
    check_text::<BlockType>(&rt, alloc, &[0xC0, 0x80, 0x00], &[0xC0, 0x00], 0);
    check_text::<Catch>(
        &rt,
        alloc,
        &[0x00, 0x81, 0x00, 0x02],
        &[0x00, 0x01, 0x02],
        0,
    );
    check_text::<Catch>(&rt, alloc, &[0x03, 0x07], &[0x03, 0x07], 0);
    check_text::<Handle>(
        &rt,
        alloc,
        &[0x00, 0x01, 0x82, 0x00],
        &[0x00, 0x01, 0x02],
        0,
    );
    check_text::<Handle>(&rt, alloc, &[0x01, 0x05, 9], &[0x01, 0x05], 1)
}

#[test]
fn immediates_that_are_none() {
    let rt = crate::host::HostRuntime;
    let alloc = rt.alloc();
    check_fault::<Ordering>(&rt, alloc, &[0x02], ReadFault::UnknownTag);
    check_fault::<BlockType>(&rt, alloc, &[0x60], ReadFault::UnknownTag);
    check_fault::<BlockType>(&rt, alloc, &[], ReadFault::Ended);
    check_fault::<Catch>(&rt, alloc, &[0x04, 0x00], ReadFault::UnknownTag);
    check_fault::<Catch>(&rt, alloc, &[0x00, 0x01], ReadFault::Ended);
    check_fault::<Handle>(&rt, alloc, &[0x02, 0x00], ReadFault::UnknownTag);
}
