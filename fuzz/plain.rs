//! A plain reader: it decodes bytes, and writes the minimal encoding of the same items in a grammar,
//! or of the items with their indices mapped.

use crate::grammar::{Follow, Grammar, Row, Space, table};
use std::collections::HashMap;
use std::sync::OnceLock;

/// A map of indices, which rejects some.
pub type Indices<'a> = &'a dyn Fn(Space, u32) -> Option<u32>;

pub struct Plain<'a> {
    pub rest: &'a [u8],
    pub encoding: Vec<u8>,
    grammar: Grammar,
    written: Grammar,
    indices: Indices<'a>,
    /// The indices that the map rejects.
    rejected: Vec<(Space, u32)>,
}

pub fn put_unsigned(encoding: &mut Vec<u8>, mut n: u64) {
    while n > 0x7F {
        encoding.push(n as u8 | 0x80);
        n >>= 7;
    }
    encoding.push(n as u8);
}

pub fn put_signed(encoding: &mut Vec<u8>, mut n: i64) {
    while !(-0x40..0x40).contains(&n) {
        encoding.push(n as u8 | 0x80);
        n >>= 7;
    }
    encoding.push(n as u8 & 0x7F);
}

/// The row of each opcode, by its prefix, or 0, and its number.
fn rows() -> &'static HashMap<(u8, u32), &'static Row> {
    static ROWS: OnceLock<HashMap<(u8, u32), &'static Row>> = OnceLock::new();
    ROWS.get_or_init(|| {
        table()
            .iter()
            .map(|row| ((row.prefix.unwrap_or(0), row.number), row))
            .collect()
    })
}

/// The map of all indices to themselves.
const SAME: Indices<'static> = &|_, index| Some(index);

impl<'a> Plain<'a> {
    /// Reads from the first of the bytes on, and writes as builders do.
    pub fn new(rest: &'a [u8], grammar: Grammar) -> Self {
        Plain::between(rest, grammar, Grammar::Builders)
    }

    /// Reads in one grammar, and writes in another.
    fn between(rest: &'a [u8], grammar: Grammar, written: Grammar) -> Self {
        Plain::mapping(rest, grammar, written, SAME)
    }

    /// Reads in one grammar, and writes in another, with the indices mapped.
    fn mapping(rest: &'a [u8], grammar: Grammar, written: Grammar, indices: Indices<'a>) -> Self {
        Plain {
            rest,
            encoding: Vec::new(),
            grammar,
            written,
            indices,
            rejected: Vec::new(),
        }
    }

    /// The new index of an old one. If the map rejects it, it is noted, and stays.
    fn mapped(&mut self, space: Space, index: u32) -> u32 {
        (self.indices)(space, index).unwrap_or_else(|| {
            self.rejected.push((space, index));
            index
        })
    }

    pub fn byte(&mut self) -> Option<u8> {
        let (&byte, rest) = self.rest.split_first()?;
        self.rest = rest;
        Some(byte)
    }

    pub fn take(&mut self, count: usize) -> Option<&'a [u8]> {
        let (front, rest) = self.rest.split_at_checked(count)?;
        self.rest = rest;
        Some(front)
    }

    /// The groups of seven bits, and their number: at most as many as this many bits need.
    fn groups(&mut self, bits: u32) -> Option<(u128, u32, u8)> {
        let mut sum = 0;
        for place in 0..bits.div_ceil(7) {
            let byte = self.byte()?;
            sum |= u128::from(byte & 0x7F) << (7 * place);
            if byte < 0x80 {
                return Some((sum, 7 * (place + 1), byte));
            }
        }
        None
    }

    pub fn unsigned(&mut self, bits: u32) -> Option<u64> {
        let (sum, _, _) = self.groups(bits)?;
        (sum >> bits == 0).then_some(sum as u64)
    }

    fn in_twos_complement(&mut self, bits: u32) -> Option<i64> {
        let (sum, length, last) = self.groups(bits)?;
        let value = sum as i128 - if last & 0x40 != 0 { 1 << length } else { 0 };
        let limit = 1i128 << (bits - 1);
        (-limit..limit).contains(&value).then_some(value as i64)
    }

    fn counted(&mut self) -> Option<usize> {
        let count = self.unsigned(32)?;
        put_unsigned(&mut self.encoding, count);
        Some(count as usize)
    }
}

impl Follow for Plain<'_> {
    fn grammar(&self) -> Grammar {
        self.grammar
    }

    fn written(&self) -> Grammar {
        self.written
    }

    fn rewritten(
        &mut self,
        item: fn(&mut Self) -> Option<()>,
        other: fn(&[u8]) -> Option<Vec<u8>>,
    ) -> Option<()> {
        let begun = self.encoding.len();
        item(self)?;
        if let Some(bytes) = other(&self.encoding[begun..]) {
            self.encoding.truncate(begun);
            self.encoding.extend(bytes);
        }
        Some(())
    }

    fn tag(&mut self, tags: &[u8]) -> Option<u8> {
        let byte = self.byte()?;
        self.encoding.push(byte);
        tags.contains(&byte).then_some(byte)
    }

    fn tag_or_else(&mut self, tags: &[u8], _others: u32) -> Option<Option<u8>> {
        match self.rest.first() {
            Some(byte) if tags.contains(byte) => self.tag(tags).map(Some),
            _ => Some(None),
        }
    }

    fn fixed_or_else(&mut self, bytes: &[u8]) -> Option<bool> {
        if !self.rest.starts_with(bytes) {
            return Some(false);
        }
        self.raw(bytes.len())?;
        Some(true)
    }

    fn raw(&mut self, count: usize) -> Option<()> {
        let bytes = self.take(count)?;
        self.encoding.extend(bytes);
        Some(())
    }

    fn all(&mut self) -> Option<()> {
        self.raw(self.rest.len())
    }

    fn number(&mut self, bits: u32, is_in: fn(u64) -> bool) -> Option<u64> {
        let n = self.unsigned(bits)?;
        put_unsigned(&mut self.encoding, n);
        is_in(n).then_some(n)
    }

    fn signed(&mut self, bits: u32) -> Option<i64> {
        let n = self.in_twos_complement(bits)?;
        put_signed(&mut self.encoding, n);
        Some(n)
    }

    fn type_index(&mut self) -> Option<()> {
        let n = self.in_twos_complement(33)?;
        let index = self.mapped(Space::Types, u32::try_from(n).ok()?);
        put_signed(&mut self.encoding, i64::from(index));
        Some(())
    }

    fn index(&mut self, space: Space) -> Option<()> {
        let n = self.unsigned(32)?;
        let index = self.mapped(space, n as u32);
        put_unsigned(&mut self.encoding, u64::from(index));
        Some(())
    }

    fn implied(&mut self, space: Space, bit: u8) -> Option<bool> {
        let index = self.mapped(space, 0);
        if index == 0 {
            return Some(false);
        }
        *self.encoding.last_mut()? |= bit;
        put_unsigned(&mut self.encoding, u64::from(index));
        Some(true)
    }

    fn add(&mut self, byte: u8) {
        self.encoding.push(byte);
    }

    fn name(&mut self) -> Option<()> {
        let length = self.counted()?;
        let bytes = self.take(length)?;
        std::str::from_utf8(bytes).ok()?;
        self.encoding.extend(bytes);
        Some(())
    }

    fn named(&mut self, name: &str) -> Option<()> {
        let length = self.counted()?;
        let bytes = self.take(length)?;
        self.encoding.extend(bytes);
        (bytes == name.as_bytes()).then_some(())
    }

    fn name_after(&mut self, prefix: &str) -> Option<()> {
        let begun = self.encoding.len();
        self.name()?;
        // The size of the name has five bytes at most.
        let name = &self.encoding[begun..];
        let text = name.iter().position(|byte| *byte < 0x80)? + 1;
        name[text..].starts_with(prefix.as_bytes()).then_some(())
    }

    fn opcode(&mut self, with_end: bool) -> Option<&'static Row> {
        let byte = self.byte()?;
        self.encoding.push(byte);
        let number = if (0xFB..=0xFE).contains(&byte) {
            self.number(32, |_| true)? as u32
        } else {
            u32::from(byte)
        };
        let prefix = if (0xFB..=0xFE).contains(&byte) {
            byte
        } else {
            0
        };
        if byte == 0x0B && !with_end {
            return None;
        }
        rows().get(&(prefix, number)).copied()
    }

    fn vector(&mut self, member: fn(&mut Self) -> Option<()>) -> Option<()> {
        for _ in 0..self.counted()? {
            member(self)?;
        }
        Some(())
    }

    fn vector_of_some(&mut self, member: fn(&mut Self) -> Option<()>) -> Option<()> {
        let count = self.counted()?;
        if count == 0 {
            return None;
        }
        for _ in 0..count {
            member(self)?;
        }
        Some(())
    }

    fn bytes(&mut self) -> Option<()> {
        let count = self.counted()?;
        self.raw(count)
    }

    fn frame(&mut self, content: &dyn Fn(&mut Self) -> Option<()>) -> Option<()> {
        let size = self.unsigned(32)?;
        let framed = self.take(size as usize)?;
        let mut inner = Plain::mapping(framed, self.grammar, self.written, self.indices);
        let decoded = content(&mut inner);
        self.rejected.append(&mut inner.rejected);
        decoded?;
        if !inner.rest.is_empty() {
            return None;
        }
        put_unsigned(&mut self.encoding, inner.encoding.len() as u64);
        self.encoding.append(&mut inner.encoding);
        Some(())
    }

    fn goes_on(&mut self) -> bool {
        !self.rest.is_empty()
    }

    fn ends(&mut self) -> Option<bool> {
        let ends = *self.rest.first()? == 0x0B;
        if ends {
            self.raw(1)?;
        }
        Some(ends)
    }
}

/// Returns the minimal encoding of the section of the kind at the front, which is read in one grammar
/// and written in another, and the length of that section in bytes.
pub fn shortened(
    bytes: &[u8],
    kind: &str,
    grammar: Grammar,
    written: Grammar,
) -> Option<(Vec<u8>, usize)> {
    let mut along = Plain::between(bytes, grammar, written);
    crate::grammar::section(&mut along, kind)?;
    let taken = bytes.len() - along.rest.len();
    Some((along.encoding, taken))
}

/// Returns the minimal encoding in the standard's grammar of the section of the kind at the front,
/// with its indices mapped, and its length in bytes. Also returns the indices that the map rejects:
/// if no section decodes, those before the first wrong byte.
#[allow(clippy::type_complexity)]
pub fn remapped(
    bytes: &[u8],
    kind: &str,
    indices: Indices<'_>,
) -> (Option<(Vec<u8>, usize)>, Vec<(Space, u32)>) {
    let mut along = Plain::mapping(bytes, Grammar::Standard, Grammar::Standard, indices);
    let decoded = crate::grammar::section(&mut along, kind);
    let taken = bytes.len() - along.rest.len();
    (decoded.map(|()| (along.encoding, taken)), along.rejected)
}
