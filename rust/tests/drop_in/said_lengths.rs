//! Iterators that yield another number of items than they report: the reported length is written,
//! and then all items.
use crate::checks::section;
use dolzhytik::fallible::{self, AllocError, Allocator, Encode, Refused};
use dolzhytik::*;
use std::cell::Cell;

/// Reports `said` items, and yields the bytes `next..end`, each modulo 256.
struct Said {
    said: usize,
    next: usize,
    end: usize,
}

impl Said {
    fn new(said: usize, given: usize) -> Self {
        let (next, end) = (0, given);
        Said { said, next, end }
    }
}

impl Iterator for Said {
    type Item = u8;

    fn next(&mut self) -> Option<u8> {
        let item = (self.next < self.end).then_some(self.next as u8)?;
        self.next += 1;
        self.said = self.said.saturating_sub(1);
        Some(item)
    }

    fn size_hint(&self) -> (usize, Option<usize>) {
        (self.said, Some(self.said))
    }
}

impl ExactSizeIterator for Said {}

/// The section, after its id, of one segment: its first bytes, the reported length, and the yielded
/// bytes.
fn expected(front: &[u8], said: &[u8], given: usize) -> std::vec::Vec<u8> {
    let payload = 1 + front.len() + said.len() + given;
    let mut bytes = match payload {
        0..0x80 => vec![payload as u8],
        _ => vec![payload as u8 | 0x80, (payload >> 7) as u8],
    };
    bytes.push(1);
    bytes.extend_from_slice(front);
    bytes.extend_from_slice(said);
    bytes.extend((0..given).map(|it| it as u8));
    bytes
}

/// Lengths that are said, their bytes, and how many items are given.
const LENGTHS: [(usize, &[u8], usize); 9] = [
    (0, &[0], 300),
    (2, &[2], 3),
    (2, &[2], 300),
    (15, &[15], 300),
    (16, &[16], 300),
    (256, &[0x80, 0x02], 300),
    (257, &[0x81, 0x02], 300),
    (300, &[0xAC, 0x02], 300),
    (15, &[15], 3),
];

#[test]
fn at_the_root() {
    for (said, text, given) in LENGTHS {
        let mut data = DataSection::new();
        data.passive(Said::new(said, given));
        section(&data, 11, &expected(&[1], text, given));

        let mut data = DataSection::new();
        data.active(1, &ConstExpr::i32_const(0), Said::new(said, given));
        section(&data, 11, &expected(&[2, 1, 0x41, 0, 0x0B], text, given));
    }
}

#[test]
fn of_the_fallible_calls() {
    for (said, text, given) in LENGTHS {
        let mut data = fallible::DataSection::new(fallible::Global);
        data.passive(Said::new(said, given)).unwrap();
        let mut bytes = vec![];
        data.encode(&mut bytes).unwrap();
        assert_eq!(bytes, expected(&[1], text, given));

        let mut sink = vec![7];
        let said_bytes = fallible::bytes_of(Said::new(said, given)).unwrap();
        fallible::EncodeOnce::encode_once(said_bytes, &mut sink).unwrap();
        assert_eq!(sink[1..1 + text.len()], *text);
        assert!(
            sink[1 + text.len()..]
                .iter()
                .copied()
                .eq(Said::new(0, given))
        );
    }
}

/// The items are appended to the vector whatever it has spare.
#[test]
fn of_vectors() {
    for (said, _, given) in LENGTHS {
        for spare in [0, 1, 2, 5, 300, 1000] {
            let mut bytes = fallible::Vec::with_capacity(fallible::Global, spare).unwrap();
            bytes.extend(Said::new(said, given)).unwrap();
            assert!(bytes.iter().copied().eq(Said::new(0, given)));
        }
    }
}

/// Grants so many requests.
struct Grants(Cell<usize>);

impl Allocator for Grants {
    fn grant(&self, _bytes: usize) -> Result<(), AllocError> {
        let left = self.0.get().checked_sub(1).ok_or(AllocError)?;
        self.0.set(left);
        Ok(())
    }
}

/// Each allocation fails in turn, also those for items past the reported length.
#[test]
fn memory_that_is_refused() {
    let granted = (0..100)
        .find(|&granted| {
            let alloc = Grants(Cell::new(granted));
            let mut data = fallible::DataSection::new(&alloc);
            let answer = data.passive(Said::new(2, 300));
            let mut bytes = vec![];
            data.encode(&mut bytes).unwrap();
            match answer {
                Ok(()) => assert_eq!(bytes, expected(&[1], &[2], 300)),
                Err(refused) => {
                    assert_eq!(refused, Refused::Memory);
                    assert_eq!((data.len(), bytes), (0, vec![1, 0]));
                }
            }
            answer.is_ok()
        })
        .expect("enough memory");
    assert!(granted > 2, "the vector grows for items that were not said");
}
