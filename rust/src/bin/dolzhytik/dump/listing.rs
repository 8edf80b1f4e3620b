//! Prints listings, as text or JSON, a line at a time.
use crate::color::{self, Bright, Dim};
use crate::dump::operands::Operands;
use crate::dump::relocations::{Patch, Patches};
use crate::dump::text::Text;
use crate::json::{Inner, Members, Value, members};
use crate::name::{Name, Source};
use crate::sections::Section;
use crate::words::Format;
use dolzhytik::fallible::ValType;
use std::fmt::Display;
use std::io::{self, Write};

/// The version of the JSON: the first member of the listing. rust/schema/dump.json describes it.
const VERSION: u32 = 1;
/// How many bytes of an instruction a line has.
const BYTES_OF_CODE: usize = 9;
/// How many bytes of data a line has.
const BYTES_OF_DATA: usize = 16;
/// How many levels of blocks are indented, so that a line of deep code stays short.
const DEEPEST: usize = 32;
/// The deepest indentation.
const SPACES: [u8; 2 * DEEPEST] = [b' '; 2 * DEEPEST];

/// What an item is called.
#[derive(Clone, Copy)]
pub enum Title<'a> {
    /// A string that the item has.
    Own(&'a str),
    /// The name of the entry that it is, or is about, if there is one.
    Entry(Option<Name<'a>>),
}

/// What a line has of an item beside its kind, index and name, in the format of the listing.
pub enum Content<'a> {
    Text(String),
    Json(Members<'a>),
}

impl Default for Content<'_> {
    fn default() -> Self {
        Content::Text(String::new())
    }
}

/// Something that a section has.
#[derive(Default)]
pub struct Item<'a> {
    /// The offset of its encoding, if it has one of its own.
    pub offset: Option<usize>,
    pub kind: &'static str,
    /// The kind in JSON, if that is another one. `of` has the word of the text then.
    pub class: Option<&'static str>,
    pub index: Option<u32>,
    pub title: Option<Title<'a>>,
    pub content: Content<'a>,
}

impl<'a> Item<'a> {
    fn members(self) -> Members<'a> {
        let mut members = members! { "kind": self.class.unwrap_or(self.kind) };
        if self.class.is_some() {
            members.push(("of", self.kind.into()));
        }
        if let Some(index) = self.index {
            members.push(("index", index.into()));
        }
        match self.title {
            Some(Title::Own(text)) => members.push(("name", text.into())),
            Some(Title::Entry(name)) => members.push(("name", name.into())),
            None => {}
        }
        if let Some(offset) = self.offset {
            members.push(("offset", offset.into()));
        }
        if let Content::Json(content) = self.content {
            members.extend(content);
        }
        members
    }
}

/// A function whose body is listed.
pub struct Function<'a> {
    pub index: u32,
    pub name: Option<Name<'a>>,
    /// The index of its type, if the function section has one.
    pub ty: Option<u32>,
    /// The offset of its body, without the size prefix.
    pub offset: usize,
    /// The size of its body in bytes.
    pub size: usize,
}

/// A run of locals.
pub struct Locals<'a> {
    pub offset: usize,
    pub bytes: &'a [u8],
    /// How many parameters the function has, if that is known.
    pub parameters: Option<u64>,
    /// How many locals are before these.
    pub before: u64,
    pub count: u32,
    pub ty: ValType,
}

impl Locals<'_> {
    /// The index of the first one, if it is known.
    fn first(&self) -> Option<u64> {
        Some(self.parameters? + self.before)
    }

    /// The indices, with a space before them. Where the number of parameters is not known, `+0` is
    /// the first local.
    fn indices(&self) -> String {
        let plus = if self.parameters.is_some() { "" } else { "+" };
        let first = self.first().unwrap_or(self.before);
        match self.count {
            0 => String::new(),
            1 => format!(" {plus}{first}"),
            count => format!(" {plus}{first}..{plus}{}", first + u64::from(count) - 1),
        }
    }
}

/// An instruction.
pub struct Line<'a> {
    pub offset: usize,
    pub bytes: &'a [u8],
    /// How many blocks it is in.
    pub depth: usize,
    pub name: &'static str,
    pub operands: Operands<'a>,
    /// The relocations of its bytes.
    pub patches: &'a [Patch<'a>],
}

/// The hexadecimal digits of a byte.
fn digits(byte: u8) -> [u8; 2] {
    const DIGITS: &[u8; 16] = b"0123456789abcdef";
    [byte >> 4, byte & 15].map(|digit| DIGITS[usize::from(digit)])
}

/// Bytes in hexadecimal.
fn hex(bytes: &[u8]) -> String {
    let mut text = String::with_capacity(2 * bytes.len());
    let digits = bytes.iter().flat_map(|byte| digits(*byte));
    text.extend(digits.map(char::from));
    text
}

/// Bytes in hexadecimal, each after a space, in as many columns as `SIZE` bytes have.
fn columns<const SIZE: usize>(bytes: &[u8]) -> [[u8; 3]; SIZE] {
    let mut columns = [[b' '; 3]; SIZE];
    for (column, byte) in columns.iter_mut().zip(bytes) {
        column[1..].copy_from_slice(&digits(*byte));
    }
    columns
}

/// Prints a listing.
pub struct Listing<W: Write> {
    out: W,
    format: Format,
    /// For each open list of JSON, whether it has members: of sections, items, and instructions.
    open: Vec<bool>,
    /// Whether the innermost list has locals, after which instructions follow.
    has_locals: bool,
    is_first: bool,
    is_colored: bool,
}

impl<W: Write> Listing<W> {
    /// Begins a listing, whose names are from these sources.
    pub fn begin(mut out: W, format: Format, sources: &[Source]) -> io::Result<Self> {
        let words = sources.iter().map(|source| source.word());
        match format {
            Format::Json => {
                let names = Value::list(words);
                write!(
                    out,
                    "{{\"version\": {VERSION}, \"names\": {names}, \"sections\": ["
                )?;
            }
            Format::Table if sources.is_empty() => {}
            Format::Table => writeln!(out, "names: {}", words.collect::<Vec<_>>().join(", "))?,
        }
        Ok(Listing {
            out,
            format,
            open: vec![false],
            has_locals: false,
            is_first: sources.is_empty(),
            is_colored: color::is_on(),
        })
    }

    /// Ends the listing. What is not ended before is valid JSON then too.
    pub fn finish(mut self) -> io::Result<()> {
        if self.format == Format::Json {
            self.close(0)?;
            self.out.write_all(b"\n")?;
        }
        self.out.flush()
    }

    /// Writes what is buffered.
    pub fn flush(&mut self) -> io::Result<()> {
        self.out.flush()
    }

    pub fn is_json(&self) -> bool {
        self.format == Format::Json
    }

    /// The content of an item in the format of the listing.
    pub fn content<'a>(
        &self,
        text: impl FnOnce() -> String,
        members: impl FnOnce() -> Members<'a>,
    ) -> Content<'a> {
        match self.format {
            Format::Table => Content::Text(text()),
            Format::Json => Content::Json(members()),
        }
    }

    /// Ends lists of JSON until `depth` are open.
    fn close(&mut self, depth: usize) -> io::Result<()> {
        while self.open.len() > depth {
            if self.has_locals {
                self.end_locals()?;
            }
            self.end_list()?;
            self.out.write_all(b"]}")?;
        }
        Ok(())
    }

    /// Ends the members of the innermost list.
    fn end_list(&mut self) -> io::Result<()> {
        match self.open.pop() {
            Some(true) => self.new_line(),
            _ => Ok(()),
        }
    }

    /// Begins a member of the innermost list of JSON.
    fn member(&mut self) -> io::Result<()> {
        if let Some(true) = self.open.last_mut().map(|it| std::mem::replace(it, true)) {
            self.out.write_all(b",")?;
        }
        self.new_line()
    }

    /// Begins a line of JSON.
    fn new_line(&mut self) -> io::Result<()> {
        self.out.write_all(b"\n")?;
        self.out.write_all(&SPACES[..2 * self.open.len()])
    }

    /// Writes a member of the list of items.
    fn object(&mut self, members: &Members<'_>) -> io::Result<()> {
        self.close(2)?;
        self.member()?;
        write!(self.out, "{{{}}}", Inner(members))
    }

    /// Begins a member with a list.
    fn open_object(&mut self, members: &Members<'_>, list: &str) -> io::Result<()> {
        self.member()?;
        self.open.push(false);
        write!(self.out, "{{{}, \"{list}\": [", Inner(members))
    }

    /// Begins a line with an offset. Most lines have one, so that without colors it is written as it
    /// is.
    fn offset(&mut self, offset: usize) -> io::Result<()> {
        if self.is_colored {
            return write!(self.out, " {}:", Dim(format_args!("{offset:06x}")));
        }
        write!(self.out, " {offset:06x}:")
    }

    /// Prints the head of a section, whose items follow.
    pub fn section(&mut self, section: &Section<'_>) -> io::Result<()> {
        let (offset, size) = (section.range().start, section.payload().len());
        if self.is_json() {
            self.close(1)?;
            let members = members! {
                "section": section.number,
                "id": section.id(),
                "kind": section.kind_name(),
                "name": section.name(),
                "offset": offset,
                "size": size,
            };
            return self.open_object(&members, "items");
        }
        let above = if self.is_first { "" } else { "\n" };
        self.is_first = false;
        let number = section.number;
        writeln!(
            self.out,
            "{above}section {number} ({section}): offset {}, size {size}",
            Dim(format_args!("{offset:#x}"))
        )
    }

    /// Prints an item.
    pub fn item(&mut self, item: Item<'_>) -> io::Result<()> {
        if self.is_json() {
            return self.object(&item.members());
        }
        match item.offset {
            Some(offset) => {
                self.offset(offset)?;
                self.out.write_all(b" ")?;
            }
            None => write!(self.out, "         ")?,
        }
        self.out.write_all(item.kind.as_bytes())?;
        if let Some(index) = item.index {
            write!(self.out, " {index}")?;
        }
        match item.title {
            Some(Title::Own(text)) => {
                write!(self.out, " {}", Bright(format_args!("{text:?}")))?;
            }
            Some(Title::Entry(Some(name))) => write!(self.out, " {name}")?,
            _ => {}
        }
        match item.content {
            Content::Text(text) if !text.is_empty() => writeln!(self.out, " {text}"),
            _ => self.out.write_all(b"\n"),
        }
    }

    // ---- bytes

    /// Prints bytes that have no further structure, and their relocations.
    pub fn bytes(
        &mut self,
        offset: usize,
        bytes: &[u8],
        patches: &mut Patches<'_>,
    ) -> io::Result<()> {
        if self.is_json() {
            let mut members = members! { "kind": "bytes" };
            members.extend(range(offset, bytes, patches));
            return self.object(&members);
        }
        self.rows(offset, bytes, patches)
    }

    /// Prints bytes as text. Rows of zeros are folded, as `xxd -a` does: the first one is printed,
    /// and `*` for two or more that follow it. The last row of all is printed, and one with relocations.
    pub fn rows(
        &mut self,
        offset: usize,
        bytes: &[u8],
        patches: &mut Patches<'_>,
    ) -> io::Result<()> {
        let (mut offset, mut bytes) = (offset, bytes);
        while !bytes.is_empty() {
            let zeros = zero_rows(offset, bytes, patches);
            let is_at_end = zeros * BYTES_OF_DATA >= bytes.len();
            let (row, _) = split(bytes, 1);
            self.row(offset, row)?;
            self.patches(patches.before(offset + row.len()))?;
            let hidden = zeros.saturating_sub(if is_at_end { 2 } else { 1 });
            let is_folded = hidden >= 2;
            if is_folded {
                self.out.write_all(b"*\n")?;
            }
            let (done, rest) = split(bytes, if is_folded { 1 + hidden } else { 1 });
            (offset, bytes) = (offset + done.len(), rest);
        }
        Ok(())
    }

    fn row(&mut self, offset: usize, row: &[u8]) -> io::Result<()> {
        let text: String = row.iter().map(|byte| shown(*byte)).collect();
        self.offset(offset)?;
        let columns = columns::<BYTES_OF_DATA>(row);
        self.out.write_all(columns.as_flattened())?;
        writeln!(self.out, "  {text}")
    }

    /// Prints relocations below what they patch.
    fn patches(&mut self, patches: &[Patch<'_>]) -> io::Result<()> {
        let out = &mut self.out;
        patches
            .iter()
            .try_for_each(|patch| writeln!(out, "           {patch}"))
    }

    /// Prints the relocations of a section that are of nothing that was listed.
    pub fn others(&mut self, patches: &mut Patches<'_>) -> io::Result<()> {
        let patches = patches.others();
        if !self.is_json() {
            return self.patches(patches);
        }
        patches.iter().try_for_each(|patch| {
            let mut members = members! { "kind": "relocation" };
            members.extend(patch.members());
            self.object(&members)
        })
    }

    // ---- code

    /// Prints the head of a function, whose lines follow.
    pub fn function(&mut self, function: &Function<'_>) -> io::Result<()> {
        let (index, offset, size) = (function.index, function.offset, function.size);
        if self.is_json() {
            self.close(2)?;
            let members = members! {
                "kind": "body",
                "index": index,
                "name": function.name,
                "type": function.ty,
                "offset": offset,
                "size": size,
            };
            self.open_object(&members, "locals")?;
            self.has_locals = true;
            return Ok(());
        }
        write!(self.out, "\nfunction {index}")?;
        if let Some(name) = function.name {
            write!(self.out, " {name}")?;
        }
        let ty = function.ty.map(|ty| format!("type {ty}, "));
        let ty = ty.unwrap_or_default();
        let offset = Dim(format_args!("{offset:#x}"));
        writeln!(self.out, ": {ty}offset {offset}, size {size}")
    }

    /// Ends the list of locals, and begins that of instructions.
    fn end_locals(&mut self) -> io::Result<()> {
        self.has_locals = false;
        self.end_list()?;
        self.open.push(false);
        self.out.write_all(b"], \"code\": [")
    }

    /// Prints a run of locals.
    pub fn locals(&mut self, locals: Locals<'_>) -> io::Result<()> {
        if self.is_json() {
            self.member()?;
            let members = members! {
                "offset": locals.offset,
                "bytes": hex(locals.bytes),
                "first": locals.first(),
                "count": locals.count,
                "type": locals.ty,
            };
            return write!(self.out, "{{{}}}", Inner(&members));
        }
        let text = format!("{} {}", locals.indices(), Text(locals.ty));
        self.text_line(locals.offset, locals.bytes, 0, "local", text)
    }

    /// Prints an instruction.
    pub fn line(&mut self, line: &Line<'_>) -> io::Result<()> {
        if !self.is_json() {
            self.text_line(
                line.offset,
                line.bytes,
                line.depth,
                line.name,
                line.operands,
            )?;
            return self.patches(line.patches);
        }
        if self.has_locals {
            self.end_locals()?;
        }
        self.member()?;
        let (offset, bytes, name) = (line.offset, hex(line.bytes), line.name);
        let operands = line.operands.values();
        write!(
            self.out,
            "{{\"offset\": {offset}, \"bytes\": \"{bytes}\", \"name\": \"{name}\", \"operands\": {operands}"
        )?;
        if !line.patches.is_empty() {
            write!(self.out, ", \"relocations\": {}", Value::list(line.patches))?;
        }
        self.out.write_all(b"}")
    }

    /// Many bytes have further lines, with bytes only.
    fn text_line(
        &mut self,
        offset: usize,
        bytes: &[u8],
        depth: usize,
        name: &str,
        operands: impl Display,
    ) -> io::Result<()> {
        let (first, more) = bytes
            .split_at_checked(BYTES_OF_CODE)
            .unwrap_or((bytes, &[]));
        self.code_bytes(offset, first)?;
        self.out.write_all(b" ")?;
        self.out.write_all(&SPACES[..2 * depth.min(DEEPEST)])?;
        writeln!(self.out, "{name}{operands}")?;
        for (i, bytes) in more.chunks(BYTES_OF_CODE).enumerate() {
            self.code_bytes(offset + (i + 1) * BYTES_OF_CODE, bytes)?;
            self.out.write_all(b"\n")?;
        }
        Ok(())
    }

    fn code_bytes(&mut self, offset: usize, bytes: &[u8]) -> io::Result<()> {
        self.offset(offset)?;
        let columns = columns::<BYTES_OF_CODE>(bytes);
        self.out.write_all(columns.as_flattened())?;
        self.out.write_all(b" |")
    }
}

/// A range of bytes in JSON: its offset, size and bytes, and their relocations.
pub fn range<'r>(offset: usize, bytes: &[u8], patches: &mut Patches<'r>) -> Members<'r> {
    let mut members = members! {
        "offset": offset,
        "size": bytes.len(),
        "bytes": hex(bytes),
    };
    let patches = patches.before(offset + bytes.len());
    if !patches.is_empty() {
        members.push(("relocations", Value::list(patches)));
    }
    members
}

/// Splits bytes after this number of rows, or at their end.
fn split(bytes: &[u8], rows: usize) -> (&[u8], &[u8]) {
    bytes.split_at(bytes.len().min(rows * BYTES_OF_DATA))
}

/// How many rows at the front are zeros without relocations.
fn zero_rows(offset: usize, bytes: &[u8], patches: &Patches<'_>) -> usize {
    let is_zero = |(i, row): &(usize, &[u8])| {
        let end = offset + i * BYTES_OF_DATA + row.len();
        row.iter().all(|byte| *byte == 0) && !patches.has_before(end)
    };
    let rows = bytes.chunks(BYTES_OF_DATA).enumerate();
    rows.take_while(is_zero).count()
}

/// The character that shows a byte beside its hexadecimal digits.
fn shown(byte: u8) -> char {
    match byte {
        b' '..=b'~' => byte.into(),
        _ => '.',
    }
}
