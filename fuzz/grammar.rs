//! The grammar of all kinds of sections, written from docs/FORMAT.md once for its two users: the
//! plain reader, which returns the minimal encoding of decoded items, and the maker of random
//! encodings. It says which numbers are indices, and of which space: that is written from the
//! standard, the proposals and the tool conventions, apart from the library.

use std::sync::OnceLock;

/// Which encodings of values are in the grammar.
#[derive(Clone, Copy, PartialEq, Eq, Debug)]
pub enum Grammar {
    /// Those that builders write.
    Builders,
    /// All that the standard and the tool conventions have.
    Standard,
}

/// An index space of a module.
#[derive(Clone, Copy, PartialEq, Eq, Hash, Debug)]
pub enum Space {
    Functions,
    Types,
    Tables,
    Memories,
    Globals,
    Tags,
    Elements,
    Data,
}

/// Follows the grammar, byte by byte. `None` means that the bytes encode nothing of it.
pub trait Follow: Sized {
    fn grammar(&self) -> Grammar;

    /// The grammar whose minimal encodings are written.
    fn written(&self) -> Grammar;

    /// Follows `item`. Its minimal encoding is `other` of its bytes, if that is some.
    fn rewritten(
        &mut self,
        item: fn(&mut Self) -> Option<()>,
        other: fn(&[u8]) -> Option<Vec<u8>>,
    ) -> Option<()>;

    /// A byte that is one of these.
    fn tag(&mut self, tags: &[u8]) -> Option<u8>;

    /// A byte that is one of these, or `Some(None)` if the remaining bytes begin with none of them.
    fn tag_or_else(&mut self, tags: &[u8], others: u32) -> Option<Option<u8>>;

    /// Bytes that are these, or `false` if the remaining bytes begin with others.
    fn fixed_or_else(&mut self, bytes: &[u8]) -> Option<bool>;

    fn raw(&mut self, count: usize) -> Option<()>;

    /// Bytes up to the end.
    fn all(&mut self) -> Option<()>;

    /// A number of at most this many bits: its largest value, and whether it is in a set.
    fn number(&mut self, bits: u32, is_in: fn(u64) -> bool) -> Option<u64>;

    fn signed(&mut self, bits: u32) -> Option<i64>;

    /// The index of a type, as a signed number of 33 bits that isn't negative.
    fn type_index(&mut self) -> Option<()>;

    /// An index of the space, as a number of 32 bits.
    fn index(&mut self, space: Space) -> Option<()>;

    /// Index 0 of the space, which has no bytes. If another index is to be written for it, this sets
    /// the bit in the last byte, writes the index, and returns `true`.
    fn implied(&mut self, space: Space, bit: u8) -> Option<bool>;

    /// Writes a byte that belongs to such an index.
    fn add(&mut self, byte: u8);

    fn name(&mut self) -> Option<()>;

    fn named(&mut self, name: &str) -> Option<()>;

    /// A name that begins with `prefix`.
    fn name_after(&mut self, prefix: &str) -> Option<()>;

    /// The opcode of an instruction, which is not `End` if no `End` may be here.
    fn opcode(&mut self, with_end: bool) -> Option<&'static Row>;

    fn vector(&mut self, member: fn(&mut Self) -> Option<()>) -> Option<()>;

    /// A vector of at least one member.
    fn vector_of_some(&mut self, member: fn(&mut Self) -> Option<()>) -> Option<()>;

    fn bytes(&mut self) -> Option<()>;

    fn frame(&mut self, content: &dyn Fn(&mut Self) -> Option<()>) -> Option<()>;

    /// Whether bytes remain, in the payload or in the whole.
    fn goes_on(&mut self) -> bool;

    /// Skips the byte of `End`, and returns whether it was the next one.
    fn ends(&mut self) -> Option<bool>;
}

// ---- opcodes

/// The opcode of a byte, or of a prefix and a number, and its shape.
pub struct Row {
    pub prefix: Option<u8>,
    pub number: u32,
    pub shape: &'static str,
}

/// All opcodes. Below a line of names are lines of a byte, or of a prefix and a number, a name and
/// a shape.
pub fn table() -> &'static [Row] {
    static TABLE: OnceLock<Vec<Row>> = OnceLock::new();
    TABLE.get_or_init(|| {
        include_str!("../tools/instructions.tsv")
            .lines()
            .skip(1)
            .map(row)
            .collect()
    })
}

fn row(line: &'static str) -> Row {
    let mut words = line.split('\t');
    let op = words.next().expect("an opcode");
    let shape = words.nth(1).expect("a shape");
    let byte = u8::from_str_radix(&op[..2], 16).expect("two digits");
    match op.get(3..) {
        Some(number) => Row {
            prefix: Some(byte),
            number: number.parse().expect("a number"),
            shape,
        },
        None => Row {
            prefix: None,
            number: u32::from(byte),
            shape,
        },
    }
}

/// The spaces of the first and the second number after an opcode. `None` is a label, a local, a
/// field or a length.
pub fn spaces(row: &Row) -> [Option<Space>; 2] {
    use Space::{Data, Elements, Functions, Globals, Memories, Tables, Tags, Types};
    match (row.prefix, row.number) {
        // catch, throw, suspend
        (None, 0x07 | 0x08 | 0xE2) => [Some(Tags), None],
        // call, return_call, ref.func
        (None, 0x10 | 0x12 | 0xD2) => [Some(Functions), None],
        // call_indirect, return_call_indirect
        (None, 0x11 | 0x13) => [Some(Types), Some(Tables)],
        // call_ref, return_call_ref, cont.new, resume, resume_throw_ref
        (None, 0x14 | 0x15 | 0xE0 | 0xE3 | 0xE5) => [Some(Types), None],
        // global.get, global.set
        (None, 0x23 | 0x24) => [Some(Globals), None],
        // table.get, table.set
        (None, 0x25 | 0x26) => [Some(Tables), None],
        // memory.size, memory.grow
        (None, 0x3F | 0x40) => [Some(Memories), None],
        // cont.bind
        (None, 0xE1) => [Some(Types), Some(Types)],
        // resume_throw, switch
        (None, 0xE4 | 0xE6) => [Some(Types), Some(Tags)],
        // struct.new to array.new_fixed: the second number is a field or a length
        (Some(0xFB), 0..=8) => [Some(Types), None],
        // array.new_data, array.init_data
        (Some(0xFB), 9 | 18) => [Some(Types), Some(Data)],
        // array.new_elem, array.init_elem
        (Some(0xFB), 10 | 19) => [Some(Types), Some(Elements)],
        // array.get to array.set, array.fill
        (Some(0xFB), 11..=14 | 16) => [Some(Types), None],
        // array.copy
        (Some(0xFB), 17) => [Some(Types), Some(Types)],
        // struct.new_desc, struct.new_default_desc, ref.get_desc
        (Some(0xFB), 32..=34) => [Some(Types), None],
        // memory.init
        (Some(0xFC), 8) => [Some(Data), Some(Memories)],
        // data.drop
        (Some(0xFC), 9) => [Some(Data), None],
        // memory.copy
        (Some(0xFC), 10) => [Some(Memories), Some(Memories)],
        // memory.fill, memory.discard
        (Some(0xFC), 11 | 18) => [Some(Memories), None],
        // table.init
        (Some(0xFC), 12) => [Some(Elements), Some(Tables)],
        // elem.drop
        (Some(0xFC), 13) => [Some(Elements), None],
        // table.copy
        (Some(0xFC), 14) => [Some(Tables), Some(Tables)],
        // table.grow, table.size, table.fill
        (Some(0xFC), 15..=17) => [Some(Tables), None],
        // global.atomic.*
        (Some(0xFE), 79..=87) => [Some(Globals), None],
        // table.atomic.*
        (Some(0xFE), 88..=91) => [Some(Tables), None],
        // struct.atomic.*, whose second number is a field, and array.atomic.*
        (Some(0xFE), 92..=113) => [Some(Types), None],
        _ => [None, None],
    }
}

// ---- types

fn any(_n: u64) -> bool {
    true
}

fn u32_any<G: Follow>(g: &mut G) -> Option<()> {
    g.number(32, any).map(|_| ())
}

const ABSTRACT: [u8; 14] = [
    0x70, 0x6F, 0x6E, 0x6D, 0x6C, 0x6B, 0x6A, 0x69, 0x74, 0x73, 0x72, 0x71, 0x68, 0x75,
];

/// A heap type whose first byte is none of `left_out`.
fn heap_but<G: Follow>(g: &mut G, left_out: &[u8]) -> Option<()> {
    let tags: Vec<u8> = ABSTRACT
        .iter()
        .copied()
        .filter(|tag| !left_out.contains(tag))
        .chain([0x62, 0x65])
        .collect();
    match g.tag_or_else(&tags, 2)? {
        Some(0x62) => g.index(Space::Types),
        Some(0x65) => g.tag(&ABSTRACT).map(|_| ()),
        Some(_) => Some(()),
        None => g.type_index(),
    }
}

fn heap<G: Follow>(g: &mut G) -> Option<()> {
    heap_but(g, &[])
}

/// The bytes after the first byte of a reference type.
fn reference_after<G: Follow>(g: &mut G, tag: u8) -> Option<()> {
    match (tag, g.grammar()) {
        (0x63, Grammar::Builders) => heap_but(g, &[0x70, 0x6F]),
        (0x63 | 0x64, _) => heap(g),
        _ => Some(()),
    }
}

const NUMBERS: [u8; 5] = [0x7F, 0x7E, 0x7D, 0x7C, 0x7B];
const REFERENCES: [u8; 2] = [0x63, 0x64];

/// The types that a nullable reference has by one byte.
fn short(grammar: Grammar) -> &'static [u8] {
    match grammar {
        Grammar::Builders => &ABSTRACT[..2],
        Grammar::Standard => &ABSTRACT,
    }
}

/// A nullable reference to an abstract type, as builders write it.
fn by_builders(bytes: &[u8]) -> Option<Vec<u8>> {
    match *bytes {
        [0x63, tag @ (0x70 | 0x6F)] => Some(vec![tag]),
        [tag] if ABSTRACT[2..].contains(&tag) => Some(vec![0x63, tag]),
        _ => None,
    }
}

/// A nullable reference to an abstract type in one byte.
fn in_one_byte(bytes: &[u8]) -> Option<Vec<u8>> {
    match *bytes {
        [0x63, tag] if ABSTRACT.contains(&tag) => Some(vec![tag]),
        _ => None,
    }
}

/// The minimal encoding of types in a grammar.
fn minimal_type(written: Grammar) -> fn(&[u8]) -> Option<Vec<u8>> {
    match written {
        Grammar::Builders => by_builders,
        Grammar::Standard => in_one_byte,
    }
}

fn reference<G: Follow>(g: &mut G) -> Option<()> {
    let any_reference = |g: &mut G| {
        let tag = g.tag(&[short(g.grammar()), &REFERENCES].concat())?;
        reference_after(g, tag)
    };
    g.rewritten(any_reference, minimal_type(g.written()))
}

fn value<G: Follow>(g: &mut G) -> Option<()> {
    let any_value = |g: &mut G| {
        let tag = g.tag(&[&NUMBERS, short(g.grammar()), &REFERENCES].concat())?;
        reference_after(g, tag)
    };
    g.rewritten(any_value, minimal_type(g.written()))
}

fn block<G: Follow>(g: &mut G) -> Option<()> {
    let any_block = |g: &mut G| {
        let tags = [&[0x40], &NUMBERS[..], short(g.grammar()), &REFERENCES].concat();
        match g.tag_or_else(&tags, 3)? {
            Some(tag) => reference_after(g, tag),
            None => g.type_index(),
        }
    };
    g.rewritten(any_block, minimal_type(g.written()))
}

// ---- immediates

fn is_memory_flags(n: u64) -> bool {
    n < 128 && n & 0x60 != 0x60
}

fn is_not_zero(n: u64) -> bool {
    n != 0
}

/// The index of a memory that is explicit. Builders leave out that of memory 0.
fn explicit_memory<G: Follow>(g: &mut G) -> Option<()> {
    match g.grammar() {
        Grammar::Builders => g.number(32, is_not_zero).map(|_| ()),
        Grammar::Standard => g.index(Space::Memories),
    }
}

/// A memory argument without the index of memory 0.
fn without_index(bytes: &[u8]) -> Option<Vec<u8>> {
    match bytes {
        [flags, 0, rest @ ..] if flags & 0x40 != 0 => Some([&[flags & !0x40], rest].concat()),
        _ => None,
    }
}

fn memory_argument<G: Follow>(g: &mut G) -> Option<()> {
    let argument = |g: &mut G| {
        let flags = g.number(32, is_memory_flags)?;
        if flags & 0x40 != 0 {
            explicit_memory(g)?;
        } else if flags & 0x20 != 0 {
            g.index(Space::Types)?;
        } else {
            g.implied(Space::Memories, 0x40)?;
        }
        if flags & 0x10 != 0 {
            g.tag(&[0x00, 0x01, 0x11])?;
        }
        g.number(64, any).map(|_| ())
    };
    g.rewritten(argument, without_index)
}

fn catch<G: Follow>(g: &mut G) -> Option<()> {
    if g.tag(&[0, 1, 2, 3])? < 2 {
        g.index(Space::Tags)?;
    }
    u32_any(g)
}

fn handle<G: Follow>(g: &mut G) -> Option<()> {
    let tag = g.tag(&[0, 1])?;
    g.index(Space::Tags)?;
    if tag == 0 { u32_any(g) } else { Some(()) }
}

/// A number that is an index if it has a space.
fn number_of<G: Follow>(g: &mut G, space: Option<Space>) -> Option<()> {
    match space {
        Some(space) => g.index(space),
        None => u32_any(g),
    }
}

fn immediates<G: Follow>(g: &mut G, row: &Row) -> Option<()> {
    let [first, second] = spaces(row);
    match row.shape {
        "-" => Some(()),
        "u" => number_of(g, first),
        "uu" => number_of(g, first).and_then(|()| number_of(g, second)),
        "m" => memory_argument(g),
        "ml" => memory_argument(g).and_then(|()| g.raw(1)),
        "l" => g.raw(1),
        "b" => block(g),
        "h" => heap(g),
        "o" => g.tag(&[0, 1]).map(|_| ()),
        "ou" => g.tag(&[0, 1]).and_then(|_| number_of(g, first)),
        "ouu" => {
            g.tag(&[0, 1])?;
            number_of(g, first)?;
            number_of(g, second)
        }
        "c32" => g.signed(32).map(|_| ()),
        "c64" => g.signed(64).map(|_| ()),
        "f32" => g.raw(4),
        "f64" => g.raw(8),
        "v" | "ls" => g.raw(16),
        "bt" => g.vector(u32_any).and_then(|()| u32_any(g)),
        "tt" => block(g).and_then(|()| g.vector(catch)),
        "ts" => g.vector(value),
        "k" => {
            g.tag(&[0, 1, 2, 3])?;
            u32_any(g)?;
            heap(g)?;
            heap(g)
        }
        "uH" => number_of(g, first).and_then(|()| g.vector(handle)),
        "uuH" => {
            number_of(g, first)?;
            number_of(g, second)?;
            g.vector(handle)
        }
        shape => panic!("no such shape: {shape}"),
    }
}

fn instruction<G: Follow>(g: &mut G, with_end: bool) -> Option<()> {
    let row = g.opcode(with_end)?;
    immediates(g, row)
}

fn expression<G: Follow>(g: &mut G) -> Option<()> {
    while !g.ends()? {
        instruction(g, false)?;
    }
    Some(())
}

// ---- items of core sections

fn run<G: Follow>(g: &mut G) -> Option<()> {
    u32_any(g)?;
    value(g)
}

fn body<G: Follow>(g: &mut G) -> Option<()> {
    g.frame(&|g: &mut G| {
        g.vector(run)?;
        while g.goes_on() {
            instruction(g, true)?;
        }
        Some(())
    })
}

/// A segment of memory 0 without its index.
fn without_memory(bytes: &[u8]) -> Option<Vec<u8>> {
    match bytes {
        [2, 0, rest @ ..] => Some([&[0], rest].concat()),
        _ => None,
    }
}

fn segment<G: Follow>(g: &mut G) -> Option<()> {
    let any_segment = |g: &mut G| {
        let flag = g.number(32, |n| n < 3)?;
        if flag == 2 {
            explicit_memory(g)?;
        }
        if flag == 0 {
            g.implied(Space::Memories, 2)?;
        }
        if flag != 1 {
            expression(g)?;
        }
        g.bytes()
    };
    g.rewritten(any_segment, without_memory)
}

fn element<G: Follow>(g: &mut G) -> Option<()> {
    let flag = g.number(32, |n| n < 8)?;
    let is_explicit = match flag & 3 {
        0 => g.implied(Space::Tables, 2)?,
        2 => g.index(Space::Tables).map(|()| false)?,
        _ => false,
    };
    if flag & 1 == 0 {
        expression(g)?;
    }
    // The byte of functions, or the type `funcref`.
    if is_explicit {
        g.add(if flag == 0 { 0x00 } else { 0x70 });
    }
    if flag & 4 == 0 {
        if flag != 0 {
            g.tag(&[0x00])?;
        }
        return g.vector(|g| g.index(Space::Functions));
    }
    if flag != 4 {
        reference(g)?;
    }
    g.vector(expression)
}

fn export<G: Follow>(g: &mut G) -> Option<()> {
    g.name()?;
    match g.tag(&[0, 1, 2, 3, 4])? {
        0 => g.index(Space::Functions),
        1 => g.index(Space::Tables),
        2 => g.index(Space::Memories),
        3 => g.index(Space::Globals),
        _ => g.index(Space::Tags),
    }
}

fn global_type<G: Follow>(g: &mut G) -> Option<()> {
    value(g)?;
    g.tag(&[0, 1, 2, 3]).map(|_| ())
}

fn global<G: Follow>(g: &mut G) -> Option<()> {
    global_type(g)?;
    expression(g)
}

fn table_type<G: Follow>(g: &mut G) -> Option<()> {
    reference(g)?;
    let flags = g.tag(&[0, 1, 2, 3, 4, 5, 6, 7])?;
    g.number(64, any)?;
    if flags & 1 != 0 {
        g.number(64, any).map(|_| ())
    } else {
        Some(())
    }
}

fn table_item<G: Follow>(g: &mut G) -> Option<()> {
    if g.fixed_or_else(&[0x40])? {
        g.tag(&[0x00])?;
        table_type(g)?;
        return expression(g);
    }
    table_type(g)
}

fn memory<G: Follow>(g: &mut G) -> Option<()> {
    let flags = g.tag(&[0, 1, 2, 3, 4, 5, 6, 7, 8, 9, 10, 11, 12, 13, 14, 15])?;
    g.number(64, any)?;
    if flags & 1 != 0 {
        g.number(64, any)?;
    }
    if flags & 8 != 0 { u32_any(g) } else { Some(()) }
}

fn tag_type<G: Follow>(g: &mut G) -> Option<()> {
    g.tag(&[0])?;
    g.index(Space::Types)
}

fn entity<G: Follow>(g: &mut G) -> Option<()> {
    match g.tag(&[0x00, 0x01, 0x02, 0x03, 0x04, 0x20])? {
        0x01 => table_type(g),
        0x02 => memory(g),
        0x03 => global_type(g),
        0x04 => tag_type(g),
        _ => g.index(Space::Types),
    }
}

fn named_entity<G: Follow>(g: &mut G) -> Option<()> {
    g.name()?;
    entity(g)
}

fn import<G: Follow>(g: &mut G) -> Option<()> {
    g.name()?;
    if g.fixed_or_else(&[0x00, 0x7F])? {
        return g.vector(named_entity);
    }
    if g.fixed_or_else(&[0x00, 0x7E])? {
        entity(g)?;
        return g.vector(|g| g.name());
    }
    named_entity(g)
}

// ---- types that a module defines

fn field_type<G: Follow>(g: &mut G) -> Option<()> {
    if g.tag_or_else(&[0x78, 0x77], 3)?.is_none() {
        value(g)?;
    }
    g.tag(&[0, 1]).map(|_| ())
}

/// A composite type: the byte of a shared one, the optional indices of the described and the
/// describing type, and a shape.
fn composite<G: Follow>(g: &mut G) -> Option<()> {
    g.fixed_or_else(&[0x65])?;
    for tag in [0x4C, 0x4D] {
        if g.fixed_or_else(&[tag])? {
            g.index(Space::Types)?;
        }
    }
    match g.tag(&[0x60, 0x5E, 0x5F, 0x5D])? {
        0x60 => {
            g.vector(value)?;
            g.vector(value)
        }
        0x5E => field_type(g),
        0x5F => g.vector(field_type),
        _ => g.type_index(),
    }
}

fn subtype<G: Follow>(g: &mut G) -> Option<()> {
    let supertypes = |g: &mut G| match (g.tag_or_else(&[0x50, 0x4F], 3)?, g.grammar()) {
        (None, _) => Some(()),
        (Some(0x4F), Grammar::Builders) => g.vector_of_some(|g| g.index(Space::Types)),
        _ => g.vector(|g| g.index(Space::Types)),
    };
    g.rewritten(supertypes, |bytes| (bytes == [0x4F, 0x00]).then(Vec::new))?;
    composite(g)
}

fn type_item<G: Follow>(g: &mut G) -> Option<()> {
    if g.fixed_or_else(&[0x4E])? {
        g.vector(subtype)
    } else {
        subtype(g)
    }
}

// ---- custom sections

fn naming<G: Follow>(g: &mut G, space: Space) -> Option<()> {
    g.index(space)?;
    g.name()
}

/// An index of the space, and names of numbers in it: of locals, labels, fields or parameters.
fn indirect_naming<G: Follow>(g: &mut G, space: Space) -> Option<()> {
    g.index(space)?;
    g.vector(|g| {
        u32_any(g)?;
        g.name()
    })
}

/// A vector of names in a subsection of this id.
fn namings<G: Follow>(g: &mut G, id: u8) -> Option<()> {
    match id {
        1 => g.vector(|g| naming(g, Space::Functions)),
        2 | 3 => g.vector(|g| indirect_naming(g, Space::Functions)),
        4 => g.vector(|g| naming(g, Space::Types)),
        5 => g.vector(|g| naming(g, Space::Tables)),
        6 => g.vector(|g| naming(g, Space::Memories)),
        7 => g.vector(|g| naming(g, Space::Globals)),
        8 => g.vector(|g| naming(g, Space::Elements)),
        9 => g.vector(|g| naming(g, Space::Data)),
        10 | 12 => g.vector(|g| indirect_naming(g, Space::Types)),
        11 => g.vector(|g| naming(g, Space::Tags)),
        _ => g.vector(|g| indirect_naming(g, Space::Tags)),
    }
}

fn subsection<G: Follow>(g: &mut G) -> Option<()> {
    let every: Vec<u8> = (0..=255).collect();
    match g.tag(&every)? {
        0 => g.frame(&|g: &mut G| g.name()),
        id @ 1..=13 => g.frame(&|g: &mut G| namings(g, id)),
        _ => g.frame(&|g: &mut G| g.all()),
    }
}

fn symbol<G: Follow>(g: &mut G) -> Option<()> {
    let kinds: &[u8] = match g.grammar() {
        Grammar::Builders => &[0, 1, 2, 5],
        Grammar::Standard => &[0, 1, 2, 3, 4, 5],
    };
    let kind = g.tag(kinds)?;
    let flags = g.number(32, any)?;
    let is_defined = flags & 0x10 == 0;
    if kind == 1 {
        g.name()?;
        if is_defined {
            g.index(Space::Data)?;
            u32_any(g)?;
            u32_any(g)?;
        }
        return Some(());
    }
    match kind {
        0 => g.index(Space::Functions)?,
        2 => g.index(Space::Globals)?,
        4 => g.index(Space::Tags)?,
        5 => g.index(Space::Tables)?,
        // A section of the module.
        _ => u32_any(g)?,
    }
    // A section's symbol has no name.
    if kind != 3 && (is_defined || flags & 0x40 != 0) {
        g.name()
    } else {
        Some(())
    }
}

fn segment_info<G: Follow>(g: &mut G) -> Option<()> {
    g.name()?;
    u32_any(g)?;
    u32_any(g)
}

fn init_function<G: Follow>(g: &mut G) -> Option<()> {
    u32_any(g)?;
    u32_any(g)
}

fn comdat<G: Follow>(g: &mut G) -> Option<()> {
    g.name()?;
    u32_any(g)?;
    g.vector(|g| {
        let every: Vec<u8> = (0..=255).collect();
        match g.tag(&every)? {
            0 => g.index(Space::Data),
            1 => g.index(Space::Functions),
            2 => g.index(Space::Globals),
            3 => g.index(Space::Tags),
            4 => g.index(Space::Tables),
            // 5 is a section of the module.
            _ => u32_any(g),
        }
    })
}

/// A subsection of `linking`. The standard's grammar has those of other ids, as bytes.
fn link<G: Follow>(g: &mut G) -> Option<()> {
    let kinds: Vec<u8> = match g.grammar() {
        Grammar::Builders => vec![8, 9],
        Grammar::Standard => (0..=255).collect(),
    };
    match g.tag(&kinds)? {
        5 => g.frame(&|g: &mut G| g.vector(segment_info)),
        6 => g.frame(&|g: &mut G| g.vector(init_function)),
        7 => g.frame(&|g: &mut G| g.vector(comdat)),
        8 => g.frame(&|g: &mut G| g.vector(symbol)),
        9 => g.frame(&|g: &mut G| g.name()),
        _ => g.frame(&|g: &mut G| g.all()),
    }
}

fn field<G: Follow>(g: &mut G) -> Option<()> {
    g.name()?;
    g.vector(|g| {
        g.name()?;
        g.name()
    })
}

fn hints<G: Follow>(g: &mut G) -> Option<()> {
    g.index(Space::Functions)?;
    g.vector(|g| {
        u32_any(g)?;
        g.tag(&[1])?;
        let values: Vec<u8> = (0..128).collect();
        g.tag(&values).map(|_| ())
    })
}

/// The hints of a function.
fn hints_in<G: Follow>(g: &mut G, hint: fn(&mut G) -> Option<()>) -> Option<()> {
    g.index(Space::Functions)?;
    g.vector(hint)
}

/// A hint: an offset and a size-prefixed payload.
fn hinted<G: Follow>(g: &mut G, payload: fn(&mut G) -> Option<()>) -> Option<()> {
    u32_any(g)?;
    g.frame(&payload)
}

fn compilation_order<G: Follow>(g: &mut G) -> Option<()> {
    u32_any(g)?;
    if g.goes_on() { u32_any(g) } else { Some(()) }
}

fn call_target<G: Follow>(g: &mut G) -> Option<()> {
    g.index(Space::Functions)?;
    u32_any(g)
}

fn core_module<G: Follow>(g: &mut G) -> Option<()> {
    g.tag(&[0])?;
    g.name()
}

fn core_instance<G: Follow>(g: &mut G) -> Option<()> {
    g.tag(&[0])?;
    u32_any(g)?;
    g.vector(|g| g.index(Space::Memories))?;
    g.vector(|g| g.index(Space::Globals))
}

fn core_value<G: Follow>(g: &mut G) -> Option<()> {
    match g.tag(&[0x01, 0x7F, 0x7E, 0x7D, 0x7C])? {
        0x7F => g.signed(32).map(|_| ()),
        0x7E => g.signed(64).map(|_| ()),
        0x7D => g.raw(4),
        0x7C => g.raw(8),
        _ => Some(()),
    }
}

fn core_frame<G: Follow>(g: &mut G) -> Option<()> {
    g.tag(&[0])?;
    u32_any(g)?;
    u32_any(g)?;
    u32_any(g)?;
    g.vector(core_value)?;
    g.vector(core_value)
}

fn feature<G: Follow>(g: &mut G) -> Option<()> {
    g.tag(&[0x2B, 0x2D, 0x3D])?;
    g.name()
}

fn export_flags<G: Follow>(g: &mut G) -> Option<()> {
    g.name()?;
    u32_any(g)
}

fn import_flags<G: Follow>(g: &mut G) -> Option<()> {
    g.name()?;
    export_flags(g)
}

/// A subsection of a dynamic library. The standard's grammar has those of other ids, as bytes.
fn library<G: Follow>(g: &mut G) -> Option<()> {
    let kinds: Vec<u8> = match g.grammar() {
        Grammar::Builders => (1..=5).collect(),
        Grammar::Standard => (0..=255).collect(),
    };
    match g.tag(&kinds)? {
        1 => g.frame(&|g: &mut G| (0..4).try_for_each(|_| u32_any(g))),
        3 => g.frame(&|g: &mut G| g.vector(export_flags)),
        4 => g.frame(&|g: &mut G| g.vector(import_flags)),
        2 | 5 => g.frame(&|g: &mut G| g.vector(G::name)),
        _ => g.frame(&|g: &mut G| g.all()),
    }
}

/// A relocation: the byte of its kind, an offset, an index, and an addend if the kind has one.
fn relocation<G: Follow>(g: &mut G) -> Option<()> {
    let kinds: Vec<u8> = (0..=26).collect();
    let kind = g.tag(&kinds)?;
    u32_any(g)?;
    if kind == 6 {
        // `R_WASM_TYPE_INDEX_LEB`. All others have the number of a symbol.
        g.index(Space::Types)?;
    } else {
        u32_any(g)?;
    }
    match kind {
        3 | 4 | 5 | 8 | 9 | 11 | 21 | 23 => g.signed(32).map(|_| ()),
        14..=17 | 22 | 25 => g.signed(64).map(|_| ()),
        _ => Some(()),
    }
}

fn any_byte<G: Follow>(g: &mut G) -> Option<()> {
    g.raw(1)
}

fn until_end<G: Follow>(g: &mut G, item: fn(&mut G) -> Option<()>) -> Option<()> {
    while g.goes_on() {
        item(g)?;
    }
    Some(())
}

// ---- sections

/// The kinds of sections, in the order of their numbers.
// begin: written by tools/kinds
pub const KINDS: [&str; 32] = [
    "Bodies",
    "Segments",
    "DataCount",
    "Elements",
    "Exports",
    "Functions",
    "Globals",
    "Imports",
    "Memories",
    "Start",
    "Tables",
    "Tags",
    "Names",
    "Linking",
    "Producers",
    "Hints",
    "Core",
    "CoreModules",
    "CoreInstances",
    "CoreStack",
    "Custom",
    "Raw",
    "Types",
    "TargetFeatures",
    "SourceMappingUrl",
    "ExternalDebugInfo",
    "BuildId",
    "Dylink",
    "Relocations",
    "InstructionFrequencies",
    "CompilationOrders",
    "CallTargets",
];
// end: written by tools/kinds

fn content<G: Follow>(g: &mut G, kind: &str) -> Option<()> {
    match kind {
        "Bodies" => g.vector(body),
        "Segments" => g.vector(segment),
        "DataCount" => u32_any(g),
        "Start" => g.index(Space::Functions),
        "Elements" => g.vector(element),
        "Exports" => g.vector(export),
        "Functions" => g.vector(|g| g.index(Space::Types)),
        "Globals" => g.vector(global),
        "Imports" => g.vector(import),
        "Memories" => g.vector(memory),
        "Tables" => g.vector(table_item),
        "Tags" => g.vector(tag_type),
        "Names" => g.named("name").and_then(|()| until_end(g, subsection)),
        "Linking" => {
            g.named("linking")?;
            g.number(32, |n| n == 2)?;
            until_end(g, link)
        }
        "Producers" => g.named("producers").and_then(|()| g.vector(field)),
        "Hints" => g
            .named("metadata.code.branch_hint")
            .and_then(|()| g.vector(hints)),
        "InstructionFrequencies" => g
            .named("metadata.code.instr_freq")
            .and_then(|()| g.vector(|g| hints_in(g, |g| hinted(g, any_byte)))),
        "CompilationOrders" => g
            .named("metadata.code.compilation_order")
            .and_then(|()| g.vector(|g| hints_in(g, |g| hinted(g, compilation_order)))),
        "CallTargets" => g
            .named("metadata.code.call_targets")
            .and_then(|()| g.vector(|g| hints_in(g, |g| hinted(g, |g| until_end(g, call_target))))),
        "Core" => g.named("core").and_then(|()| core_module(g)),
        "CoreModules" => g.named("coremodules").and_then(|()| g.vector(core_module)),
        "CoreInstances" => g
            .named("coreinstances")
            .and_then(|()| g.vector(core_instance)),
        "CoreStack" => {
            g.named("corestack")?;
            core_module(g)?;
            g.vector(core_frame)
        }
        "Custom" => g.name().and_then(|()| g.all()),
        "Raw" => g.all(),
        "Types" => g.vector(type_item),
        "TargetFeatures" => g.named("target_features").and_then(|()| g.vector(feature)),
        "Dylink" => g.named("dylink.0").and_then(|()| until_end(g, library)),
        "Relocations" => {
            g.name_after("reloc.")?;
            u32_any(g)?;
            g.vector(relocation)
        }
        "SourceMappingUrl" => g.named("sourceMappingURL").and_then(|()| g.name()),
        "ExternalDebugInfo" => g.named("external_debug_info").and_then(|()| g.name()),
        "BuildId" => g.named("build_id").and_then(|()| g.vector(any_byte)),
        _ => panic!("no such kind: {kind}"),
    }
}

/// A section of the kind: its size-prefixed payload.
pub fn section<G: Follow>(g: &mut G, kind: &str) -> Option<()> {
    g.frame(&|g: &mut G| content(g, kind))
}
