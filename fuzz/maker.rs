//! Makes random encodings of the grammar, with some numbers padded, and changes them.

use crate::grammar::{Follow, Grammar, Row, Space, table};
use crate::plain::{put_signed, put_unsigned};

pub struct Random(u64);

impl Random {
    pub fn new(seed: u64) -> Self {
        // Seeds that are near each other begin far apart.
        let mut random = Random(seed.wrapping_mul(0x9E37_79B9_7F4A_7C15) | 1);
        for _ in 0..8 {
            random.next();
        }
        random
    }

    pub fn next(&mut self) -> u64 {
        self.0 ^= self.0 << 13;
        self.0 ^= self.0 >> 7;
        self.0 ^= self.0 << 17;
        self.0.wrapping_mul(0x2545_F491_4F6C_DD1D)
    }

    pub fn below(&mut self, limit: usize) -> usize {
        (self.next() >> 33) as usize % limit
    }

    pub fn one_in(&mut self, count: usize) -> bool {
        self.below(count) == 0
    }

    pub fn one_of<T: Copy>(&mut self, items: &[T]) -> T {
        items[self.below(items.len())]
    }
}

pub struct Maker<'r> {
    pub random: &'r mut Random,
    pub encoding: Vec<u8>,
    /// How many more members, instructions and items may be made.
    left: usize,
    /// The number of members that a vector has at most, and of items that a list has on average.
    pub most: usize,
    grammar: Grammar,
}

/// Names: some of several bytes a character, and some that are the start or the end of another.
const NAMES: [&str; 8] = [
    "",
    "a",
    "main",
    "\u{e9}",
    "name",
    "\u{20ac}x",
    "core",
    "\u{1F980}",
];

impl<'r> Maker<'r> {
    pub fn new(random: &'r mut Random, left: usize, grammar: Grammar) -> Self {
        Maker {
            random,
            encoding: Vec::new(),
            left,
            most: 3,
            grammar,
        }
    }

    /// Pads a minimal number with zeros, or copies of the sign.
    fn pad(&mut self, begun: usize, most: usize, filling: u8) {
        if !self.random.one_in(6) {
            return;
        }
        let length = self.encoding.len() - begun;
        // A number too long at times.
        let more = self
            .random
            .below(most - length + 1 + usize::from(self.random.0 % 16 == 0));
        for _ in 0..more {
            if let Some(last) = self.encoding.last_mut() {
                *last |= 0x80;
            }
            self.encoding.push(filling);
        }
    }

    pub fn unsigned(&mut self, n: u64, bits: u32) {
        let begun = self.encoding.len();
        put_unsigned(&mut self.encoding, n);
        self.pad(begun, bits.div_ceil(7) as usize, 0x00);
    }

    fn some(&mut self, bits: u32) -> u64 {
        let n = self.random.next() >> (64 - bits);
        match self.random.below(8) {
            0 => n,
            1 => n >> (bits / 2),
            2 => u64::MAX >> (64 - bits),
            3 => 1 << (self.random.below(bits as usize)),
            _ => n % 140,
        }
    }

    fn counted(&mut self, most: usize) -> usize {
        let count = self.random.below(most.min(self.left) + 1);
        self.unsigned(count as u64, 32);
        count
    }
}

impl Follow for Maker<'_> {
    fn grammar(&self) -> Grammar {
        self.grammar
    }

    fn written(&self) -> Grammar {
        self.grammar()
    }

    fn rewritten(
        &mut self,
        item: fn(&mut Self) -> Option<()>,
        _other: fn(&[u8]) -> Option<Vec<u8>>,
    ) -> Option<()> {
        item(self)
    }

    fn tag(&mut self, tags: &[u8]) -> Option<u8> {
        // Of all bytes the first have a meaning, and are made more often.
        let most = if tags.len() == 256 && !self.random.one_in(4) {
            16
        } else {
            tags.len()
        };
        let tag = self.random.one_of(&tags[..most]);
        self.encoding.push(tag);
        Some(tag)
    }

    fn tag_or_else(&mut self, tags: &[u8], others: u32) -> Option<Option<u8>> {
        if self.random.below(tags.len() + others as usize) < others as usize {
            Some(None)
        } else {
            self.tag(tags).map(Some)
        }
    }

    fn fixed_or_else(&mut self, bytes: &[u8]) -> Option<bool> {
        let is = self.random.one_in(3);
        if is {
            self.encoding.extend(bytes);
        }
        Some(is)
    }

    fn raw(&mut self, count: usize) -> Option<()> {
        for _ in 0..count {
            let byte = self.random.next() as u8;
            self.encoding.push(byte);
        }
        Some(())
    }

    fn all(&mut self) -> Option<()> {
        let count = self.random.below(5);
        self.raw(count)
    }

    fn number(&mut self, bits: u32, is_in: fn(u64) -> bool) -> Option<u64> {
        let n = (0..200)
            .map(|_| self.some(bits))
            .find(|n| is_in(*n))
            .or_else(|| (0..200).find(|n| is_in(*n)))?;
        self.unsigned(n, bits);
        Some(n)
    }

    fn signed(&mut self, bits: u32) -> Option<i64> {
        let n = (self.some(bits) << (64 - bits)) as i64 >> (64 - bits);
        let n = if self.random.one_in(2) { n } else { !n };
        let begun = self.encoding.len();
        put_signed(&mut self.encoding, n);
        self.pad(
            begun,
            bits.div_ceil(7) as usize,
            if n < 0 { 0x7F } else { 0x00 },
        );
        Some(n)
    }

    fn type_index(&mut self) -> Option<()> {
        let n = self.some(32);
        let begun = self.encoding.len();
        put_signed(&mut self.encoding, n as i64);
        self.pad(begun, 5, 0x00);
        Some(())
    }

    fn index(&mut self, _space: Space) -> Option<()> {
        self.number(32, |_| true).map(|_| ())
    }

    fn implied(&mut self, _space: Space, _bit: u8) -> Option<bool> {
        Some(false)
    }

    fn add(&mut self, _byte: u8) {}

    fn name(&mut self) -> Option<()> {
        let name = self.random.one_of(&NAMES);
        self.named(name)
    }

    fn named(&mut self, name: &str) -> Option<()> {
        self.unsigned(name.len() as u64, 32);
        self.encoding.extend(name.bytes());
        Some(())
    }

    fn name_after(&mut self, prefix: &str) -> Option<()> {
        let name = format!("{prefix}{}", self.random.one_of(&NAMES));
        self.named(&name)
    }

    fn opcode(&mut self, with_end: bool) -> Option<&'static Row> {
        let rows = table();
        // Ops with immediates that have many forms are made more often.
        let mut row = &rows[self.random.below(rows.len())];
        if row.shape == "-" && self.random.one_in(2) {
            row = &rows[self.random.below(rows.len())];
        }
        if row.prefix.is_none() && row.number == 0x0B && !with_end {
            return self.opcode(with_end);
        }
        match row.prefix {
            Some(prefix) => {
                self.encoding.push(prefix);
                self.unsigned(u64::from(row.number), 32);
            }
            None => self.encoding.push(row.number as u8),
        }
        Some(row)
    }

    fn vector(&mut self, member: fn(&mut Self) -> Option<()>) -> Option<()> {
        for _ in 0..self.counted(self.most) {
            self.left = self.left.saturating_sub(1);
            member(self)?;
        }
        Some(())
    }

    fn vector_of_some(&mut self, member: fn(&mut Self) -> Option<()>) -> Option<()> {
        let count = 1 + self.random.below(2);
        self.unsigned(count as u64, 32);
        for _ in 0..count {
            self.left = self.left.saturating_sub(1);
            member(self)?;
        }
        Some(())
    }

    fn bytes(&mut self) -> Option<()> {
        let count = self.counted(4);
        self.raw(count)
    }

    fn frame(&mut self, content: &dyn Fn(&mut Self) -> Option<()>) -> Option<()> {
        let outer = std::mem::take(&mut self.encoding);
        content(self)?;
        let mut inner = std::mem::replace(&mut self.encoding, outer);
        self.unsigned(inner.len() as u64, 32);
        self.encoding.append(&mut inner);
        Some(())
    }

    fn goes_on(&mut self) -> bool {
        self.left > 0 && {
            self.left -= 1;
            !self.random.one_in(self.most + 1)
        }
    }

    fn ends(&mut self) -> Option<bool> {
        let ends = !self.goes_on();
        if ends {
            self.encoding.push(0x0B);
        }
        Some(ends)
    }
}

/// Bytes that have a meaning at many offsets.
const BYTES: [u8; 24] = [
    0x00, 0x01, 0x02, 0x03, 0x04, 0x05, 0x0B, 0x1C, 0x1F, 0x20, 0x40, 0x41, 0x60, 0x62, 0x63, 0x64,
    0x65, 0x6F, 0x70, 0x7E, 0x7F, 0x80, 0xFC, 0xFF,
];

/// One change: a byte is replaced, inserted or removed, or the remaining bytes are cut off.
fn change(random: &mut Random, encoding: &mut Vec<u8>) {
    if encoding.is_empty() {
        return;
    }
    let place = random.below(encoding.len());
    let byte = if random.one_in(2) {
        random.one_of(&BYTES)
    } else {
        random.next() as u8
    };
    match random.below(8) {
        0 => encoding.insert(place, byte),
        1 => drop(encoding.remove(place)),
        2 => encoding.truncate(place),
        3 => encoding[place] ^= 1 << random.below(8),
        4 => encoding[place] = encoding[place].wrapping_add(1),
        5 => encoding[place] = encoding[place].wrapping_sub(1),
        _ => encoding[place] = byte,
    }
}

/// A section of the kind in the grammar, sometimes changed or with bytes after it, and sometimes
/// any bytes.
pub fn input(random: &mut Random, kind: &str, grammar: Grammar) -> Vec<u8> {
    let left = 1 + random.below(8);
    let mut maker = Maker::new(random, left, grammar);
    if maker.random.one_in(16) {
        let count = maker.random.below(12);
        let _ = maker.raw(count);
    } else {
        let _ = crate::grammar::section(&mut maker, kind);
    }
    let mut encoding = maker.encoding;
    for _ in 0..[0, 0, 1, 1, 1, 2, 3, 5][random.below(8)] {
        change(random, &mut encoding);
    }
    if random.one_in(4) {
        encoding.push(random.next() as u8);
    }
    encoding
}
