//! Branch hints and compilation hints, whose offsets follow the instructions of code that changes.
use crate::context::{Space, each_import};
use crate::cursor::Cursor;
use crate::failure::{BadHint, Failure};
use crate::files::Input;
use crate::sections::Section;
use crate::shorten::choice::is_of_hints;
use crate::shorten::rewrite::Rewrite;
use dolzhytik::fallible::{
    self, BranchHint, CallTarget, CodeHint, CompilationOrder, Global, Imports, InstructionFrequency,
};
use dolzhytik::reader::{
    CodeBody, DecodeError, Instructions, Items, ReadError, Readable, Standard,
};
use std::collections::BTreeMap;
use std::collections::btree_map::RangeMut;
use std::convert::Infallible;
use std::iter;

/// For each function and offset of a hint, the offset of the same instruction in the new body, or
/// `None` if no instruction of the old body is there.
type Moved = BTreeMap<(u32, u32), Option<u32>>;

/// The numbers of a function in its section, and of a hint in the function.
type Position = (usize, usize);

/// Visits the function and the offset of each hint. The name of the section selects the kind.
fn each<E>(
    hints: &mut Items<'_>,
    visit: impl FnMut(u32, &mut u32, Position) -> Result<(), E>,
) -> Result<(), E> {
    match hints {
        Items::Hints(functions) => each_of(functions, |it| Some(&mut it.branch_func_offset), visit),
        Items::InstructionFrequencies(functions) => each_of(functions, in_body, visit),
        Items::CompilationOrders(functions) => each_of(functions, in_body, visit),
        Items::CallTargets(functions) => each_of(functions, in_body, visit),
        _ => Ok(()),
    }
}

/// The offset of a compilation hint, unless the hint is of the whole function.
fn in_body<T>(hint: &mut CodeHint<T>) -> Option<&mut u32> {
    (hint.offset != 0).then_some(&mut hint.offset)
}

fn each_of<H, E>(
    functions: &mut [(u32, fallible::Vec<H>)],
    offset: fn(&mut H) -> Option<&mut u32>,
    mut visit: impl FnMut(u32, &mut u32, Position) -> Result<(), E>,
) -> Result<(), E> {
    for (number, (function, hints)) in functions.iter_mut().enumerate() {
        for (hint_number, hint) in hints.iter_mut().enumerate() {
            if let Some(offset) = offset(hint) {
                visit(*function, offset, (number, hint_number))?;
            }
        }
    }
    Ok(())
}

/// Writes the hints with the offsets that their instructions have in the new code. Nothing
/// changes where no code does.
pub fn adjust(input: &Input, rewrites: &mut [Rewrite<'_>]) -> Result<(), Failure> {
    let is_code_changed = |it: &Rewrite<'_>| it.section.id() == 10 && it.is_changed();
    if !rewrites.iter().any(is_code_changed) {
        return Ok(());
    }
    let mut hinted = hinted(input, rewrites)?;
    let moved = moved(input, rewrites, offsets_of(&mut hinted))?;
    for (number, mut hints) in hinted {
        move_hints(input, &rewrites[number].section, &mut hints, &moved)?;
        rewrites[number].set(input, &hints)?;
    }
    Ok(())
}

/// Decodes the hints of each section that has hints, and returns them with its position.
fn hinted<'a>(input: &Input, rewrites: &[Rewrite<'a>]) -> Result<Vec<(usize, Items<'a>)>, Failure> {
    let sections = rewrites.iter().map(|it| &it.section).enumerate();
    let sections = sections.filter(|(_, section)| is_of_hints(section.name()));
    let decoded = sections.map(|(number, section)| match section.items() {
        Ok(hints) => Ok((number, hints)),
        Err(error) => Err(section.failure(input, error)),
    });
    decoded.collect()
}

/// The functions and offsets of all hints, whose instructions are not found yet.
fn offsets_of(hinted: &mut [(usize, Items<'_>)]) -> Moved {
    let mut moved = Moved::new();
    for (_, hints) in hinted {
        let Ok(()) = each(hints, |function, offset, _| {
            moved.insert((function, *offset), None);
            Ok::<_, Infallible>(())
        });
    }
    moved
}

/// Finds the instructions of the hints in all bodies, before and after.
fn moved(input: &Input, rewrites: &[Rewrite<'_>], mut moved: Moved) -> Result<Moved, Failure> {
    if moved.is_empty() {
        return Ok(moved);
    }
    let mut next = imported_functions(input, rewrites)?;
    for code in rewrites.iter().filter(|it| it.section.id() == 10) {
        let found = find_in_bodies(code, &mut next, &mut moved);
        found.map_err(|error| code.section.failure(input, error))?;
    }
    Ok(moved)
}

/// How many functions are imported, which is the index of the first body.
fn imported_functions(input: &Input, rewrites: &[Rewrite<'_>]) -> Result<u32, Failure> {
    let imports = rewrites.iter().filter(|it| it.section.id() == 2);
    imports
        .map(|Rewrite { section, .. }| {
            functions_in(section).map_err(|error| section.failure(input, error))
        })
        .try_fold(0u32, |sum, count| Ok(sum.saturating_add(count?)))
}

/// How many functions an import section imports.
fn functions_in(section: &Section<'_>) -> Result<u32, ReadError> {
    let mut count = 0;
    section.cursor().each(|_, imports: Imports<'_>| {
        each_import(&imports, |import| {
            count += u32::from(Space::of(import.ty) == Space::Function);
        });
        Ok(())
    })?;
    Ok(count)
}

/// Finds the hinted instructions in the bodies of a code section, the first of which is that of the
/// function `next`.
fn find_in_bodies(code: &Rewrite<'_>, next: &mut u32, moved: &mut Moved) -> Result<(), ReadError> {
    let mut after = Cursor::new(code.payload(), code.section.range().start);
    after.read::<u32>()?;
    for body in code.section.bodies()? {
        let (before, after) = (body?, after.read()?);
        let hinted = moved.range_mut((*next, 0)..=(*next, u32::MAX));
        *next = next.saturating_add(1);
        find_in_body(hinted, &before, after).map_err(|error| before.locate(error))?;
    }
    Ok(())
}

/// Finds the hinted instructions of a body, in the order of their offsets.
fn find_in_body(
    mut hinted: RangeMut<'_, (u32, u32), Option<u32>>,
    before: &CodeBody<'_>,
    after: &[u8],
) -> Result<(), DecodeError> {
    let Some(first) = hinted.next() else {
        return Ok(());
    };
    let (_, mut before) = Instructions::of_standard_body(before.bytes(), Global)?;
    let (_, mut after) = Instructions::of_standard_body(after, Global)?;
    for ((_, offset), found) in iter::once(first).chain(hinted) {
        *found = same_instruction(*offset as usize, &mut before, &mut after)?;
    }
    Ok(())
}

/// Visits both bodies up to the instruction at the offset in the first, and returns its offset in
/// the second: the n-th instruction of the one is the n-th of the other.
fn same_instruction(
    offset: usize,
    before: &mut Instructions<'_, Global, Standard>,
    after: &mut Instructions<'_, Global, Standard>,
) -> Result<Option<u32>, DecodeError> {
    while before.offset() < offset && before.next()?.is_some() {
        after.next()?;
    }
    let is_there = before.offset() == offset && !before.rest().is_empty();
    // The size of a body has 32 bits.
    Ok(is_there.then(|| after.offset() as u32))
}

/// Moves each hint of a section with its instruction.
fn move_hints(
    input: &Input,
    section: &Section<'_>,
    hints: &mut Items<'_>,
    moved: &Moved,
) -> Result<(), Failure> {
    let place = match hints {
        Items::InstructionFrequencies(_) => offset_of::<CodeHint<InstructionFrequency>>,
        Items::CompilationOrders(_) => offset_of::<CodeHint<CompilationOrder>>,
        Items::CallTargets(_) => offset_of::<CodeHint<fallible::Vec<CallTarget>>>,
        _ => offset_of::<BranchHint>,
    };
    each(hints, |function, offset, position| {
        let found = moved.get(&(function, *offset)).copied().flatten();
        let at = *offset;
        *offset = found.ok_or_else(|| {
            no_instruction(input, section, place(section, position), function, at)
        })?;
        Ok(())
    })
}

/// The error for a hint at this offset in the file.
fn no_instruction(
    input: &Input,
    section: &Section<'_>,
    offset: Result<usize, ReadError>,
    function: u32,
    at: u32,
) -> Failure {
    match offset {
        Err(error) => section.failure(input, error),
        Ok(offset) => Failure::Hint(BadHint {
            input: input.clone(),
            number: section.number,
            section: section.title().to_string(),
            offset,
            function,
            at,
        }),
    }
}

/// Returns the offset of a hint in the file, which the decoded items do not have.
fn offset_of<'a, H: Readable<'a, Global, Standard>>(
    section: &Section<'a>,
    (function, hint): Position,
) -> Result<usize, ReadError> {
    let mut cursor = section.cursor();
    cursor.read::<&str>()?;
    cursor.read::<u32>()?;
    (0..function).try_for_each(|_| {
        let of_function = cursor.read::<(u32, fallible::Vec<H>)>();
        of_function.map(drop)
    })?;
    // The index of the function, and the number of its hints.
    cursor.read::<(u32, u32)>()?;
    (0..hint).try_for_each(|_| cursor.read::<H>().map(drop))?;
    Ok(cursor.offset())
}
