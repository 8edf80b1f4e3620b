// Written by tools/to-rust from tests/wasm_custom_tests/src/whole_refusals.rtt: change that.
// Tests of constructors, copies, `as_custom` and sections without entries, with each request for
// memory failing in turn.

use dolzhytik::fallible::{Vec, String};
use crate::checks::check_answer;
use crate::further_entries::{Growing, check_further};
use crate::refusals::{check_append_to, check_copy, check_encode, check_written};
use crate::host::Abort;
use crate::test_support::{Heap, MOST, Refusing};
use dolzhytik::fallible::{CowSlice, CowStr, Encode, Result};
use dolzhytik::fallible::{BranchHint, BuildId, CoreDumpInstancesSection, CoreDumpModulesSection, CoreDumpSection, CoreDumpStackSection, CoreDumpValue, CustomSection, DataSymbolDefinition, ExternalDebugInfo, RawCustomSection, SourceMappingUrl};

/// Checks that the call returns an item of these bytes, or fails.
pub(crate) fn check_made<'h, T: Encode, F: Fn() -> Result<T>>(
    rt: &impl Abort,
    heap: Heap<'h>,
    expected: &[u8],
    make: F,
) {
    for nth in 1..MOST {
        heap.refuse(nth);
        if check_copy(rt, heap, nth, make(), expected) {
            return;
        }
    }
    panic!(rt; "no call was granted")
}

const PROCESS: &[u8] = b"\x0B\x04core\x00\x04test";

#[test]
fn process() {
    let rt = crate::host::HostRuntime;
    let heap = Refusing::new(rt.alloc());
    check_made(&rt, &heap, PROCESS, || CoreDumpSection::new(&heap, "test"))
}

#[test]
fn copied_process() {
    let rt = crate::host::HostRuntime;
    let heap = Refusing::new(rt.alloc());
    let section = CoreDumpSection::new(&heap, "test").expect("accepted");
    check_encode(&rt, &heap, &section);
    check_append_to(&rt, &heap, &section);
    check_made(&rt, &heap, PROCESS, || section.clone())
}

#[test]
fn debug_files() {
    let rt = crate::host::HostRuntime;
    let heap = Refusing::new(rt.alloc());
    check_encode(&rt, &heap, &SourceMappingUrl("a.map"));
    check_append_to(&rt, &heap, &SourceMappingUrl("a.map"));
    check_encode(&rt, &heap, &ExternalDebugInfo("d"));
    check_append_to(&rt, &heap, &ExternalDebugInfo("d"));
    check_encode(&rt, &heap, &BuildId(&[0x12, 0x34]));
    check_append_to(&rt, &heap, &BuildId(&[0x12, 0x34]))
}

const MODULES: &[u8] = b"\x13\x0Bcoremodules\x01\x00\x04mod1";

#[test]
fn custom_modules() {
    let rt = crate::host::HostRuntime;
    let heap = Refusing::new(rt.alloc());
    let mut section: CoreDumpModulesSection = CoreDumpModulesSection::new(rt.alloc());
    section.module("mod1").expect("accepted");
    check_made(&rt, &heap, MODULES, || section.as_custom(&heap))
}

const INSTANCES: &[u8] = b"\x15\x0Dcoreinstances\x01\x00\x00\x01\x2A\x01\x11";

#[test]
fn custom_instances() {
    let rt = crate::host::HostRuntime;
    let heap = Refusing::new(rt.alloc());
    let mut section: CoreDumpInstancesSection = CoreDumpInstancesSection::new(rt.alloc());
    section.instance(0, [42], [17]).expect("accepted");
    check_made(&rt, &heap, INSTANCES, || section.as_custom(&heap))
}

const EMPTY_STACK: &[u8] = b"\x11\x09corestack\x00\x04main\x00";

#[test]
fn stack() {
    let rt = crate::host::HostRuntime;
    let heap = Refusing::new(rt.alloc());
    check_made(&rt, &heap, EMPTY_STACK, || {
        CoreDumpStackSection::new(&heap, "main")
    })
}

const STACK: &[u8] = b"\x1B\x09corestack\x00\x04main\x01\x00\x00\x2A\x33\x01\x7F\x01\x01\x7F\x02";

/// Adds a frame.
fn add_frame(section: &mut CoreDumpStackSection<Heap<'_>>) -> Result<()> {
    section.frame(0, 42, 51, [CoreDumpValue::I32(1)], [CoreDumpValue::I32(2)])
}

impl Growing for CoreDumpStackSection<Heap<'_>> {
    type Given = ();

    fn grow(&mut self, _: &(), _: usize) -> Result<()> {
        add_frame(self)
    }

    fn number(&self) -> Option<u32> {
        None
    }
}

#[test]
fn frames() {
    let rt = crate::host::HostRuntime;
    let heap = Refusing::new(rt.alloc());
    for nth in 1..MOST {
        heap.refuse(0);
        let mut section = CoreDumpStackSection::new(&heap, "main").expect("accepted");
        heap.refuse(nth);
        let answer = add_frame(&mut section);
        let granted = check_answer(&rt, &heap, nth, answer);
        check_written(
            &rt,
            &heap,
            &section,
            if granted { STACK } else { EMPTY_STACK },
        );
        if granted {
            check_stack(&rt, &heap, &section);
            return check_further(&rt, &heap, &mut section, &(), 0);
        }
    }
    panic!(rt; "no call was granted")
}

/// Checks the calls on a stack.
fn check_stack<'h>(rt: &impl Abort, heap: Heap<'h>, section: &CoreDumpStackSection<Heap<'h>>) {
    check_encode(rt, heap, section);
    check_append_to(rt, heap, section);
    check_made(rt, heap, STACK, || section.clone());
    check_made(rt, heap, STACK, || section.as_custom(heap))
}

#[test]
fn custom() {
    let rt = crate::host::HostRuntime;
    let heap = Refusing::new(rt.alloc());
    let section = CustomSection {
        name: CowStr::Owned(String::from_str(&heap, "test").expect("accepted")),
        bytes: CowSlice::Owned(Vec::from_slice(&heap, &[11, 22, 33, 44]).expect("accepted")),
    };
    check_encode(&rt, &heap, &section);
    check_append_to(&rt, &heap, &section);
    check_made(&rt, &heap, b"\x09\x04test\x0B\x16\x21\x2C", || {
        section.clone()
    })
}

#[test]
fn raw_custom() {
    let rt = crate::host::HostRuntime;
    let heap = Refusing::new(rt.alloc());
    check_encode(&rt, &heap, &RawCustomSection(&[1, 0]));
    check_append_to(&rt, &heap, &RawCustomSection(&[1, 0]))
}

/// Checks that the sink held the byte 7, and has these bytes or nothing after it.
fn check_sink(rt: &impl Abort, granted: bool, sink: &[u8], expected: &[u8]) {
    let appended: &[u8] = if granted { expected } else { &[] };
    assert_eq!(rt; sink.split_first(), Some((&7, appended)));
}

/// Checks that these bytes are appended. If a request fails, the sink is unchanged.
pub(crate) fn check_part<T: Encode>(rt: &impl Abort, heap: Heap<'_>, part: &T, expected: &[u8]) {
    for nth in 1..MOST {
        heap.refuse(0);
        let mut sink = Vec::from_slice(heap, &[7]).expect("accepted");
        heap.refuse(nth);
        let answer = part.encode(&mut sink);
        let granted = check_answer(rt, heap, nth, answer);
        check_sink(rt, granted, &sink, expected);
        if granted {
            return;
        }
    }
    panic!(rt; "no call was granted")
}

const DEFINITION: DataSymbolDefinition = DataSymbolDefinition {
    index: 1,
    offset: 2,
    size: 3,
};

#[test]
fn parts() {
    let rt = crate::host::HostRuntime;
    let heap = Refusing::new(rt.alloc());
    let hint = BranchHint {
        branch_func_offset: 3,
        branch_hint_value: 1,
    };
    check_part(&rt, &heap, &hint, &[3, 1, 1]);
    check_part(&rt, &heap, &DEFINITION, &[1, 2, 3]);
    check_part(&rt, &heap, &CoreDumpValue::Missing, &[0x01]);
    check_part(&rt, &heap, &CoreDumpValue::I64(-1), &[0x7E, 0x7F])
}
