// Written by tools/to-rust from tests/wasm_custom_tests/src/relocations.rtt: change that.
// Tests of relocation sections: bytes worked out by hand, with ample memory and with each request
// failing in turn.

use crate::checks::{check, check_answer, check_bytes, check_text};
use crate::further_entries::{Growing, check_further};
use crate::refusals::{check_append_to, check_encode, check_written};
use crate::whole_refusals::{check_made, check_part};
use crate::host::Abort;
use crate::test_support::{Heap, MOST, Refusing};
use dolzhytik::fallible::Result;
use dolzhytik::fallible::{Addend32Relocation, Addend64Relocation, PlainRelocation, Relocation, RelocationSection};

const CALL: Relocation = Relocation::Plain {
    kind: PlainRelocation::FunctionIndexLeb,
    offset: 4,
    index: 0,
};

const ADDRESS: Relocation = Relocation::Addend32 {
    kind: Addend32Relocation::MemoryAddrLeb,
    offset: 300,
    index: 1,
    addend: -1,
};

const LONG_ADDRESS: Relocation = Relocation::Addend64 {
    kind: Addend64Relocation::MemoryAddrI64,
    offset: 8,
    index: 2,
    addend: -8,
};

const EMPTY: &[u8] = b"\x0D\x0Areloc.CODE\x03\x00";

const ONE: &[u8] = b"\x10\x0Areloc.CODE\x03\x01\x00\x04\x00";

#[test]
fn relocations() {
    let rt = crate::host::HostRuntime;
    let mut section = RelocationSection::new(rt.alloc(), "CODE", 3).expect("accepted");
    check(&rt, rt.alloc(), &section, EMPTY);
    section.relocation(CALL).expect("accepted");
    section.relocation(ADDRESS).expect("accepted");
    section.relocation(LONG_ADDRESS).expect("accepted");
    check(
        &rt,
        rt.alloc(),
        &section.clone().expect("accepted"),
        b"\x19\x0Areloc.CODE\x03\x03\x00\x04\x00\x03\xAC\x02\x01\x7F\x10\x08\x02\x78",
    );
    let custom = section.as_custom(rt.alloc()).expect("accepted");
    check_bytes(&rt, custom.name.as_str().as_bytes(), b"reloc.CODE");
    check_bytes(
        &rt,
        custom.bytes.as_slice(),
        b"\x03\x03\x00\x04\x00\x03\xAC\x02\x01\x7F\x10\x08\x02\x78",
    );
}

/// The shortest name, and an index of two bytes.
#[test]
fn shortest_name() {
    let rt = crate::host::HostRuntime;
    let section = RelocationSection::new(rt.alloc(), "", 200).expect("accepted");
    check(&rt, rt.alloc(), &section, b"\x0A\x06reloc.\xC8\x01\x00")
}

static PLAIN: [(PlainRelocation, u8); 13] = [
    (PlainRelocation::FunctionIndexLeb, 0),
    (PlainRelocation::TableIndexSleb, 1),
    (PlainRelocation::TableIndexI32, 2),
    (PlainRelocation::TypeIndexLeb, 6),
    (PlainRelocation::GlobalIndexLeb, 7),
    (PlainRelocation::TagIndexLeb, 10),
    (PlainRelocation::TableIndexRelSleb, 12),
    (PlainRelocation::GlobalIndexI32, 13),
    (PlainRelocation::TableIndexSleb64, 18),
    (PlainRelocation::TableIndexI64, 19),
    (PlainRelocation::TableNumberLeb, 20),
    (PlainRelocation::TableIndexRelSleb64, 24),
    (PlainRelocation::FunctionIndexI32, 26),
];

static ADDEND32: [(Addend32Relocation, u8); 8] = [
    (Addend32Relocation::MemoryAddrLeb, 3),
    (Addend32Relocation::MemoryAddrSleb, 4),
    (Addend32Relocation::MemoryAddrI32, 5),
    (Addend32Relocation::FunctionOffsetI32, 8),
    (Addend32Relocation::SectionOffsetI32, 9),
    (Addend32Relocation::MemoryAddrRelSleb, 11),
    (Addend32Relocation::MemoryAddrTlsSleb, 21),
    (Addend32Relocation::MemoryAddrLocrelI32, 23),
];

static ADDEND64: [(Addend64Relocation, u8); 6] = [
    (Addend64Relocation::MemoryAddrLeb64, 14),
    (Addend64Relocation::MemoryAddrSleb64, 15),
    (Addend64Relocation::MemoryAddrI64, 16),
    (Addend64Relocation::MemoryAddrRelSleb64, 17),
    (Addend64Relocation::FunctionOffsetI64, 22),
    (Addend64Relocation::MemoryAddrTlsSleb64, 25),
];

/// The numbers are those of LLVM's `WasmRelocs.def`.
#[test]
fn kinds() {
    let rt = crate::host::HostRuntime;
    for (kind, code) in PLAIN.iter() {
        check_text(&rt, rt.alloc(), kind, &[*code]);
    }
    for (kind, code) in ADDEND32.iter() {
        check_text(&rt, rt.alloc(), kind, &[*code]);
    }
    for (kind, code) in ADDEND64.iter() {
        check_text(&rt, rt.alloc(), kind, &[*code]);
    }
}

#[test]
fn refused_parts() {
    let rt = crate::host::HostRuntime;
    let heap = Refusing::new(rt.alloc());
    check_part(&rt, &heap, &PlainRelocation::FunctionIndexI32, &[26]);
    check_part(&rt, &heap, &Addend32Relocation::MemoryAddrI32, &[5]);
    check_part(&rt, &heap, &Addend64Relocation::MemoryAddrLeb64, &[14]);
    check_part(&rt, &heap, &CALL, &[0, 4, 0]);
    check_part(&rt, &heap, &ADDRESS, &[3, 0xAC, 2, 1, 0x7F]);
    check_part(&rt, &heap, &LONG_ADDRESS, &[16, 8, 2, 0x78])
}

#[test]
fn refused() {
    let rt = crate::host::HostRuntime;
    let heap = Refusing::new(rt.alloc());
    check_made(&rt, &heap, EMPTY, || {
        RelocationSection::new(&heap, "CODE", 3)
    })
}

impl Growing for RelocationSection<Heap<'_>> {
    type Given = ();

    fn grow(&mut self, _: &(), _: usize) -> Result<()> {
        self.relocation(CALL)
    }

    fn number(&self) -> Option<u32> {
        None
    }
}

#[test]
fn refused_relocations() {
    let rt = crate::host::HostRuntime;
    let heap = Refusing::new(rt.alloc());
    for nth in 1..MOST {
        heap.refuse(0);
        let mut section = RelocationSection::new(&heap, "CODE", 3).expect("accepted");
        heap.refuse(nth);
        let answer = section.relocation(CALL);
        let granted = check_answer(&rt, &heap, nth, answer);
        check_written(&rt, &heap, &section, if granted { ONE } else { EMPTY });
        if granted {
            check_section(&rt, &heap, &section);
            return check_further(&rt, &heap, &mut section, &(), 0);
        }
    }
    panic!(rt; "no call was granted")
}

/// Checks the calls on a section of one relocation.
fn check_section<'h>(rt: &impl Abort, heap: Heap<'h>, section: &RelocationSection<Heap<'h>>) {
    check_encode(rt, heap, section);
    check_append_to(rt, heap, section);
    check_made(rt, heap, ONE, || section.clone());
    check_made(rt, heap, ONE, || section.as_custom(heap))
}
