//! The items of a section, with their offsets.
#![forbid(unsafe_code)]

use crate::answers::{Answer, DONE, at, no_module};
use crate::block::Block;
use crate::failure::{Cause, Failure};
use crate::fields::{Fields, FieldsOf, Locals, Quoted};
use crate::read::read;
use crate::sections::sections_from;
use crate::texts::{Count, Show, Text};
use core::fmt::Display;
use dolzhytik::fallible::{
    AllocError, BranchHint, CallTarget, CodeHint, CompilationOrder, Export, Global, Imports,
    InstructionFrequency, MemoryType, Relocation, TagType, Vec,
};
use dolzhytik::reader::{
    ElementItem, GlobalItem, Instructions, LinkItem, ReadFault, Readable, Section, Segment,
    Standard, TableItem, TypeEntry,
};

/// The items of a section under way.
struct List {
    block: Block,
    count: u32,
    limit: u32,
    /// Whether items have fields beside their texts.
    has_fields: bool,
}

/// Bytes of a section, up to this offset.
#[derive(Clone, Copy)]
struct Part<'a> {
    bytes: &'a [u8],
    end: usize,
}

impl List {
    fn new(limit: u32, has_fields: bool) -> Result<Self, AllocError> {
        let mut block = Block::new(DONE)?;
        block.word(0)?;
        Ok(List {
            block,
            count: 0,
            limit,
            has_fields,
        })
    }

    /// Appends an item, unless the limit is reached: a part that begins with it, the bytes behind
    /// it, its text, and its fields if they are asked for.
    fn add(
        &mut self,
        part: Part<'_>,
        rest: &[u8],
        text: &dyn Display,
        fields: &dyn Display,
    ) -> Result<(), AllocError> {
        if self.count == self.limit {
            return Ok(());
        }
        self.count += 1;
        self.block.size(part.end - part.bytes.len())?;
        self.block.size(part.bytes.len() - rest.len())?;
        self.block.text(text)?;
        if self.has_fields {
            self.block.text(fields)?;
        }
        Ok(())
    }

    fn finish(mut self) -> Result<Vec<u8>, AllocError> {
        self.block.set_word(8, self.count as usize)?;
        self.block.finish()
    }
}

impl<'a> Part<'a> {
    /// Decodes the value at the front, and returns it with the part behind it.
    fn read<T: Readable<'a, Global, Standard>>(self) -> Result<(T, Part<'a>), ReadFault> {
        let (value, bytes) = read(self.bytes)?;
        Ok((value, Part { bytes, ..self }))
    }

    /// Decodes the size at the front, and returns that many bytes, and the part behind them.
    fn framed(self) -> Result<(Part<'a>, Part<'a>), ReadFault> {
        let (bytes, rest) = self.read::<&[u8]>()?;
        let end = rest.end - rest.bytes.len();
        Ok((Part { bytes, end }, rest))
    }

    fn at_end(self) -> Result<(), ReadFault> {
        match self.bytes {
            [] => Ok(()),
            _ => Err(ReadFault::SizeMismatch),
        }
    }
}

/// Appends the item at the front, and returns the part behind it.
fn one<'a, T: Readable<'a, Global, Standard> + Show + Fields>(
    part: Part<'a>,
    list: &mut List,
) -> Result<Part<'a>, ReadFault> {
    let (item, rest) = part.read::<T>()?;
    list.add(part, rest.bytes, &Text(&item), &FieldsOf(&item))?;
    Ok(rest)
}

/// Appends items behind their number, which are all of the part. `item` appends the one with a
/// number, and returns the part behind it.
fn counted<'a>(
    part: Part<'a>,
    mut item: impl FnMut(u32, Part<'a>) -> Result<Part<'a>, ReadFault>,
) -> Result<(), ReadFault> {
    let (count, mut rest) = part.read()?;
    for number in 0..count {
        rest = item(number, rest)?;
    }
    rest.at_end()
}

fn all<'a, T: Readable<'a, Global, Standard> + Show + Fields>(
    part: Part<'a>,
    list: &mut List,
) -> Result<(), ReadFault> {
    counted(part, |_, rest| one::<T>(rest, list))
}

/// Appends the body with this number.
fn body<'a>(number: u32, part: Part<'a>, list: &mut List) -> Result<Part<'a>, ReadFault> {
    let (framed, rest) = part.framed()?;
    let (runs, mut instructions) = Instructions::of_body(framed.bytes, Global)?;
    let locals = Count(runs.iter().map(|run| u64::from(run.0)).sum(), "local");
    let mut count = 0;
    while instructions.next()?.is_some() {
        count += 1;
    }
    let instructions = Count(count, "instruction");
    list.add(
        part,
        rest.bytes,
        &format_args!("body {number}: {locals}, {instructions}"),
        &format_args!(
            "{{\"body\":{},\"locals\":{},\"instruction_count\":{count}}}",
            framed.bytes.len(),
            Locals(&runs)
        ),
    )?;
    Ok(rest)
}

/// Appends a number, which has this name as a field: a function type index, a start function or a
/// data count.
fn index<'a>(
    part: Part<'a>,
    list: &mut List,
    [before, behind]: [&str; 2],
    field: &str,
) -> Result<Part<'a>, ReadFault> {
    let (index, rest) = part.read::<u32>()?;
    list.add(
        part,
        rest.bytes,
        &format_args!("{before}{index}{behind}"),
        &format_args!("{{\"{field}\":{index}}}"),
    )?;
    Ok(rest)
}

/// What the names of a subsection are of, and, for names of names, of what these are.
fn named(id: u8) -> [&'static str; 2] {
    match id {
        1 => ["function", ""],
        2 => ["function", "local"],
        3 => ["function", "label"],
        4 => ["type", ""],
        5 => ["table", ""],
        6 => ["memory", ""],
        7 => ["global", ""],
        8 => ["element", ""],
        9 => ["data", ""],
        10 => ["type", "field"],
        11 => ["tag", ""],
        12 => ["type", "parameter"],
        13 => ["tag", "parameter"],
        _ => ["", ""],
    }
}

/// Appends a name map, each of whose names is an item. `of` is the text before an index, and
/// `fields` are those before it.
fn name_map<'a>(
    part: Part<'a>,
    list: &mut List,
    of: impl Display,
    fields: impl Display,
) -> Result<Part<'a>, ReadFault> {
    let (count, mut rest) = part.read::<u32>()?;
    for _ in 0..count {
        let ((index, name), after) = rest.read::<(u32, &str)>()?;
        list.add(
            rest,
            after.bytes,
            &format_args!("{of} {index}: {name:?}"),
            &format_args!("{{{fields},\"index\":{index},\"name\":{}}}", Quoted(name)),
        )?;
        rest = after;
    }
    Ok(rest)
}

/// Appends a subsection whose items are not decoded.
fn other<'a>(part: Part<'a>, list: &mut List) -> Result<Part<'a>, ReadFault> {
    let (id, content) = part.read::<u8>()?;
    let (content, rest) = content.framed()?;
    let size = Count(content.bytes.len() as u64, "byte");
    list.add(
        part,
        rest.bytes,
        &format_args!("subsection {id}: {size}"),
        &format_args!("{{\"subsection\":{id}}}"),
    )?;
    Ok(rest)
}

/// Appends the names of a subsection.
fn subsection<'a>(part: Part<'a>, list: &mut List) -> Result<Part<'a>, ReadFault> {
    let (id, content) = part.read::<u8>()?;
    let (content, rest) = content.framed()?;
    match (id, named(id)) {
        (0, _) => {
            let (name, after) = content.read::<&str>()?;
            list.add(
                content,
                after.bytes,
                &format_args!("module: {name:?}"),
                &format_args!("{{\"space\":\"module\",\"name\":{}}}", Quoted(name)),
            )?;
            after.at_end()?;
        }
        (_, ["", _]) => return other(part, list),
        (_, [what, ""]) => {
            name_map(content, list, what, format_args!("\"space\":\"{what}\""))?.at_end()?;
        }
        (_, [what, inner]) => counted(content, |_, rest| {
            let (index, rest) = rest.read::<u32>()?;
            name_map(
                rest,
                list,
                format_args!("{what} {index}, {inner}"),
                format_args!("\"space\":\"{inner}\",\"of\":{index}"),
            )
        })?,
    }
    Ok(rest)
}

/// Appends items up to the end of the part.
fn to_end<'a>(
    part: Part<'a>,
    mut item: impl FnMut(Part<'a>) -> Result<Part<'a>, ReadFault>,
) -> Result<(), ReadFault> {
    let mut rest = part;
    while !rest.bytes.is_empty() {
        rest = item(rest)?;
    }
    Ok(())
}

/// Appends the items of a custom section of these names, or none.
fn custom(part: Part<'_>, list: &mut List) -> Result<(), ReadFault> {
    let (name, rest) = part.read::<&str>()?;
    match name {
        "name" => to_end(rest, |rest| subsection(rest, list)),
        "producers" => all::<(&str, Vec<(&str, &str)>)>(rest, list),
        "metadata.code.branch_hint" => all::<(u32, Vec<BranchHint>)>(rest, list),
        "metadata.code.instr_freq" => all::<(u32, Vec<CodeHint<InstructionFrequency>>)>(rest, list),
        "metadata.code.compilation_order" => {
            all::<(u32, Vec<CodeHint<CompilationOrder>>)>(rest, list)
        }
        "metadata.code.call_targets" => all::<(u32, Vec<CodeHint<Vec<CallTarget>>>)>(rest, list),
        "linking" => {
            // The version, which is 2.
            let (2, rest) = rest.read::<u32>()? else {
                return Err(ReadFault::UnknownTag);
            };
            to_end(rest, |rest| one::<LinkItem>(rest, list))
        }
        "dylink.0" => to_end(rest, |rest| other(rest, list)),
        name if name.starts_with("reloc.") => {
            let rest = index(rest, list, ["relocations of section ", ""], "section")?;
            all::<Relocation>(rest, list)
        }
        _ => Ok(()),
    }
}

/// Appends the items of a section, or none where it has none.
fn append(section: Section<'_>, list: &mut List) -> Result<(), ReadFault> {
    let part = Part {
        bytes: section.payload(),
        end: section.range().end,
    };
    match section.id() {
        0 => custom(part, list),
        1 => all::<TypeEntry>(part, list),
        2 => all::<Imports<'_>>(part, list),
        3 => counted(part, |_, rest| {
            index(rest, list, ["(func (type ", "))"], "type")
        }),
        4 => all::<TableItem>(part, list),
        5 => all::<MemoryType>(part, list),
        6 => all::<GlobalItem>(part, list),
        7 => all::<Export<'_>>(part, list),
        8 => index(part, list, ["(start ", ")"], "function")?.at_end(),
        9 => all::<ElementItem>(part, list),
        10 => counted(part, |number, rest| body(number, rest, list)),
        11 => all::<Segment<'_>>(part, list),
        12 => index(part, list, ["", " data segments"], "count")?.at_end(),
        13 => all::<TagType>(part, list),
        _ => Ok(()),
    }
}

/// The section at this index.
fn section_at(module: &[u8], index: u32) -> Result<Option<Section<'_>>, Failure<'_>> {
    let sections = sections_from(module, 1).ok_or_else(|| no_module(module, 0))?;
    let mut found = None;
    for (at, section) in sections.enumerate() {
        let section = section.map_err(|_| no_module(module, at + 1))?;
        if at == index as usize {
            found = Some(section);
        }
    }
    Ok(found)
}

/// The items of the section at this index up to the first that does not decode, and whether there
/// is such an item.
fn listed<'a>(module: &'a [u8], index: u32, mut list: List) -> Result<(List, bool), Failure<'a>> {
    let Some(section) = section_at(module, index)? else {
        return Ok((list, false));
    };
    match append(section, &mut list) {
        Ok(()) => Ok((list, false)),
        Err(ReadFault::Memory) => Err(at(module, index as usize + 1, Cause::Memory)),
        Err(_) => Ok((list, true)),
    }
}

/// The first items of the section at this index, or none where it does not decode.
pub fn items(module: &[u8], index: u32, limit: u32) -> Answer<'_> {
    let (list, is_cut) = listed(module, index, List::new(limit, false)?)?;
    let list = if is_cut {
        List::new(limit, false)?
    } else {
        list
    };
    Ok(list.finish()?)
}

/// The items of the section at this index with their fields, up to the first that does not decode.
/// Behind them is whether there is such an item.
pub fn dump(module: &[u8], index: u32, limit: u32) -> Answer<'_> {
    let (mut list, is_cut) = listed(module, index, List::new(limit, true)?)?;
    list.block.word(u32::from(is_cut))?;
    Ok(list.finish()?)
}
