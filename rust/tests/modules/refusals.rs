//! Calls of which each allocation fails in turn.
use crate::every::{EVERY, EVERY_SHIFTED};
use crate::remapped::{By, Rejected, shifted};
use crate::samples::{PADDED, PADDED_NAME, SHORT, SHORT_NAME, UNREAD, bytes_of, module};
use crate::sections::first_section;
use dolzhytik::fallible::{AllocError, Allocator, Refused, Vec};
use dolzhytik::reader::remap::{RemapError, remap_module, remap_section};
use dolzhytik::reader::{
    ModuleFault, Offsets, Padded, ReadError, ReadFault, Section, Sections, Standard, encode_items,
    encode_items_in, outline, shorten_module,
};
use std::cell::Cell;

/// Grants so many requests.
struct Grants(Cell<usize>);

impl Allocator for Grants {
    fn grant(&self, _bytes: usize) -> Result<(), AllocError> {
        let left = self.0.get().checked_sub(1).ok_or(AllocError)?;
        self.0.set(left);
        Ok(())
    }
}

/// The first result without a failed allocation, and the number of requests that were granted for
/// it.
fn first_granted<T>(mut call: impl FnMut(&Grants) -> Option<T>) -> (usize, T) {
    (0..1000)
        .find_map(|granted| call(&Grants(Cell::new(granted))).map(|answer| (granted, answer)))
        .expect("enough memory")
}

fn sections() -> std::vec::Vec<u8> {
    module(&[
        PADDED[0],
        PADDED[1],
        PADDED[2],
        PADDED[3],
        PADDED_NAME,
        UNREAD,
    ])
}

#[test]
fn of_outlines() {
    let bytes = sections();
    let (granted, lines) = first_granted(|alloc| match outline(alloc, &bytes) {
        Ok(lines) => Some(lines.len()),
        Err((number, fault)) => {
            assert!(fault == ReadFault::Memory && number <= 6);
            None
        }
    });
    assert!(granted > 0);
    assert_eq!(lines, 6);
}

#[test]
fn of_modules() {
    let bytes = sections();
    let expected = module(&[SHORT[0], SHORT[1], SHORT[2], SHORT[3], SHORT_NAME, UNREAD]);
    let (granted, kept) = first_granted(|alloc| {
        let mut sink = Vec::new(alloc);
        match shorten_module(alloc, &bytes, Offsets::Refuse, &mut sink) {
            Ok(kept) => {
                assert_eq!(*sink, *expected);
                Some(kept)
            }
            Err(ModuleFault::Section { number, fault }) => {
                assert!(fault == ReadFault::Memory && number <= 6);
                assert!(sink.is_empty());
                None
            }
            Err(fault) => panic!("{fault:?}"),
        }
    });
    assert!(granted > 0);
    assert_eq!(kept, 1);
}

/// The value of a call, or `None` if an allocation failed.
fn unless_refused<T>(given: Result<T, ReadError>) -> Option<T> {
    match given {
        Ok(value) => Some(value),
        Err(error) => {
            assert_eq!(error.cause, ReadFault::Memory);
            None
        }
    }
}

/// The first section, which no request for memory is made for.
fn first<'a>(alloc: &'a Grants, module: &'a [u8]) -> Section<'a, &'a Grants> {
    let mut sections = Sections::new(alloc, module).unwrap();
    sections.next().unwrap().unwrap()
}

/// A section alone: counting requests no memory, and decoding so many times.
#[track_caller]
fn check_section(section: &str, decoding: usize) {
    let bytes = module(&[section]);
    let (granted, _) = first_granted(|alloc| unless_refused(first(alloc, &bytes).count()));
    assert_eq!(granted, 0);
    let (granted, _) =
        first_granted(|alloc| unless_refused(first(alloc, &bytes).items()).map(drop));
    assert_eq!(granted, decoding);
}

/// A type has a list of parameters and one of results.
#[test]
fn of_sections() {
    check_section(PADDED[0], 3);
    check_section(PADDED[1], 1);
    check_section(PADDED[2], 1);
}

#[test]
fn of_bodies() {
    let bytes = module(&[PADDED[3]]);
    let (granted, ()) = first_granted(|alloc| {
        let code = first(alloc, &bytes);
        let body = code.bodies().unwrap().next().unwrap().unwrap();
        let (locals, _) = unless_refused(body.instructions())?;
        assert!(locals.is_empty());
        Some(())
    });
    assert_eq!(granted, 0);
}

#[test]
fn of_encoded_items() {
    let sections = [
        (PADDED[0], "01 60 02 7f7f 01 7f"),
        (PADDED[1], "01 00"),
        (PADDED[2], "01 01 66 00 00"),
        (PADDED[3], "01 07 00 2000 2001 6a 0b"),
        (PADDED_NAME, "04 6e616d65 00 02 01 6d"),
        ("00 03 01 61 ff", "01 61 ff"),
        ("0e 01 aa", "aa"),
    ];
    for (section, payload) in sections {
        let bytes = module(&[section]);
        let section = first_section(&bytes);
        let items = section.items().unwrap();
        first_granted(|alloc| {
            let mut sink = Vec::new(alloc);
            let encoded = encode_items(&items, &mut sink);
            check_encoded(encoded, &sink, payload)
        });
    }
}

/// Checks the bytes of a call, or that it changes nothing without memory.
fn check_encoded(encoded: Result<(), Refused>, sink: &[u8], payload: &str) -> Option<()> {
    match encoded {
        Ok(()) => assert_eq!(*sink, *bytes_of(payload)),
        Err(refused) => {
            assert_eq!(refused, Refused::Memory);
            assert!(sink.is_empty());
            return None;
        }
    }
    Some(())
}

/// A table of `anyref`, a body that tests for it, and a section of an unknown id: the bytes of the
/// standard's grammar, and then of the builders'.
#[test]
fn every_request_of_items_in_a_grammar() {
    let sections = [
        ("04 04 01 6e 00 07", "01 6e 00 07", "01 63 6e 00 07"),
        (
            "0a 08 01 06 01 01 63 70 0b 0b",
            "01 05 01 01 70 0b 0b",
            "01 05 01 01 70 0b 0b",
        ),
        ("0e 01 aa", "aa", "aa"),
    ];
    for (section, standard, builders) in sections {
        let bytes = module(&[section]);
        let items = first_section(&bytes).items().unwrap();
        let (requests, ()) = first_granted(|alloc| {
            let mut sink = Vec::new(alloc);
            let encoded = encode_items_in::<Standard, _, _, _>(alloc, &items, &mut sink);
            check_encoded(encoded, &sink, standard)
        });
        assert!(requests >= 2);
        first_granted(|alloc| {
            let mut sink = Vec::new(alloc);
            let encoded = encode_items_in::<Padded, _, _, _>(alloc, &items, &mut sink);
            check_encoded(encoded, &sink, builders)
        });
    }
}

/// The value of a call that maps indices, or `None` if an allocation failed.
fn unless_unmapped<T>(given: Result<T, RemapError<Rejected>>) -> Option<T> {
    match given {
        Ok(value) => Some(value),
        Err(RemapError::Refused(Refused::Memory)) => None,
        Err(RemapError::Read(error)) => unless_refused(Err(error)),
        Err(error) => panic!("{error:?}"),
    }
}

#[test]
fn every_request_of_mapped_modules() {
    let bytes = module(&EVERY);
    let (granted, remapped) = first_granted(|alloc| {
        let remapped = remap_module(&bytes, alloc, &By(shifted), Offsets::Refuse);
        unless_unmapped(remapped).map(|bytes| bytes.to_vec())
    });
    assert!(granted > 0);
    assert_eq!(remapped, module(&EVERY_SHIFTED));
}

/// The sink is unchanged after an error.
#[test]
fn every_request_of_mapped_sections() {
    for (section, expected) in EVERY.into_iter().zip(EVERY_SHIFTED) {
        let (bytes, expected) = (module(&[section]), module(&[expected]));
        first_granted(|alloc| {
            let mut sink = Vec::new(alloc);
            let mapped = remap_section(&first(alloc, &bytes), alloc, &By(shifted), &mut sink);
            if mapped.is_err() {
                assert!(sink.is_empty());
            } else {
                assert_eq!(sink[..], *first_section(&expected).payload());
            }
            unless_unmapped(mapped)
        });
    }
}
