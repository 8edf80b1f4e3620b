//! The indices of sections that custom sections of object files hold.
use crate::cursor::Cursor;
use crate::failure::Failure;
use crate::files::Input;
use crate::sections::Section;
use dolzhytik::reader::{DylinkItem, Items, LinkItem, ReadError, Symbol};

/// The kind of a section in a COMDAT group.
const COMDAT_SECTION: u8 = 5;

/// Returns the indices of the sections that relocations are of, or that are symbols. Other sections
/// hold none.
pub fn section_indices(section: &Section<'_>) -> Result<Vec<u32>, ReadError> {
    match section.name() {
        Some("linking") => section_symbols(section),
        Some(_) if is_of_relocations(section) => relocated(section.cursor()).map(|it| vec![it]),
        _ => Ok(Vec::new()),
    }
}

/// Whether the section has relocations.
pub fn is_of_relocations(section: &Section<'_>) -> bool {
    section
        .name()
        .is_some_and(|name| name.starts_with("reloc."))
}

/// Returns the index of the section that the relocations of a section are of, if it has any.
pub fn target(section: &Section<'_>) -> Option<usize> {
    let index = is_of_relocations(section).then(|| relocated(section.cursor()));
    Some(index?.ok()? as usize)
}

/// Whether the section has a subsection of an unknown id, which may hold any indices and offsets.
pub fn has_unknown_subsection(section: &Section<'_>) -> bool {
    if !matches!(section.name(), Some("linking" | "dylink.0")) {
        return false;
    }
    match section.items() {
        Ok(Items::Linking(items)) => items.iter().any(|it| matches!(it, LinkItem::Other { .. })),
        Ok(Items::Dylink(items)) => items
            .iter()
            .any(|it| matches!(it, DylinkItem::Other { .. })),
        _ => false,
    }
}

/// Returns the highest index that the section holds, if it holds any. Indices that do not decode,
/// or that are in an unknown subsection, may be any.
pub fn highest_index(section: &Section<'_>) -> Option<usize> {
    if has_unknown_subsection(section) {
        return Some(usize::MAX);
    }
    let indices = section_indices(section).and_then(|mut indices| {
        indices.extend(grouped_sections(section)?);
        Ok(indices)
    });
    match indices {
        Ok(indices) => indices.into_iter().max().map(|index| index as usize),
        Err(_) => Some(usize::MAX),
    }
}

/// The index of the section that relocations are of.
fn relocated(mut cursor: Cursor<'_>) -> Result<u32, ReadError> {
    cursor.read::<&str>()?;
    cursor.read()
}

/// The indices in the subsections of a linking section. One of another version does not decode.
fn in_linking(
    linking: &Section<'_>,
    indices: fn(&LinkItem<'_>) -> Vec<u32>,
) -> Result<Vec<u32>, ReadError> {
    Ok(match linking.items()? {
        Items::Linking(items) => items.iter().flat_map(indices).collect(),
        _ => Vec::new(),
    })
}

/// The indices of the sections that are symbols.
fn section_symbols(linking: &Section<'_>) -> Result<Vec<u32>, ReadError> {
    in_linking(linking, |item| match item {
        LinkItem::Symbols(symbols) => (symbols.iter())
            .filter_map(|symbol| match symbol {
                Symbol::Section { section, .. } => Some(*section),
                _ => None,
            })
            .collect(),
        _ => Vec::new(),
    })
}

/// The indices of the sections that are members of COMDAT groups.
fn grouped_sections(section: &Section<'_>) -> Result<Vec<u32>, ReadError> {
    if section.name() != Some("linking") {
        return Ok(Vec::new());
    }
    in_linking(section, |item| match item {
        LinkItem::Comdats(groups) => (groups.iter().flat_map(|group| &group.symbols))
            .filter(|member| member.kind == COMDAT_SECTION)
            .map(|member| member.index)
            .collect(),
        _ => Vec::new(),
    })
}

/// Fails if a section that stays refers to sections or offsets that are gone or elsewhere, without
/// the removed sections.
pub fn check_removal(
    input: &Input,
    sections: &[Section<'_>],
    removed: &[bool],
) -> Result<(), Failure> {
    let Some(first) = removed.iter().position(|removed| *removed) else {
        return Ok(());
    };
    let mut stay = sections
        .iter()
        .zip(removed)
        .filter(|(_, removed)| !**removed);
    match stay.find(|(section, _)| breaks(section, sections, first)) {
        None => Ok(()),
        Some((section, _)) => Err(Failure::References(section.named(input))),
    }
}

/// Whether the section refers to the first removed section, or to what is after it. The offsets of
/// source maps count from the first byte of the module, those of DWARF and of relocations do not.
fn breaks(section: &Section<'_>, sections: &[Section<'_>], first: usize) -> bool {
    if section.name() == Some("sourceMappingURL") {
        return moves_code(sections, first);
    }
    highest_index(section).is_some_and(|highest| highest >= first)
}

/// Whether code is after the first removed section.
pub fn moves_code(sections: &[Section<'_>], first: usize) -> bool {
    sections[first..].iter().any(|it| it.id() == 10)
}
