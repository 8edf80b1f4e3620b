//! Decodes sections of every kind by the library's decoders, in the grammar of a type parameter.

use dolzhytik::fallible::{
    BranchHint, CallTarget, CodeHint, CompilationOrder, Export, FeaturePrefix, Global, Imports,
    InstructionFrequency, MemoryType, Relocation, TagType, Vec,
};
use dolzhytik::reader::{
    self, Body, CoreFrame, DecodeError, DylinkItem, ElementItem, GlobalItem, LinkItem, NameItem,
    ReadFault, Readable, Segment, TableItem, TypeEntry,
};
use std::fmt::Debug;

/// A function and its hints of these values.
type Hints<T> = (u32, Vec<CodeHint<T>>);

/// A value that the library decodes at the front, as text, and the remaining bytes.
type Decoded<'a> = Result<(String, &'a [u8]), DecodeError>;

fn wrong(rest: &[u8]) -> DecodeError {
    ReadFault::UnknownTag.at(rest)
}

fn value<'a, T: Readable<'a, Global, G>, G: reader::Grammar>(
    bytes: &'a [u8],
) -> Result<(T, &'a [u8]), DecodeError> {
    T::read(bytes, Global)
}

fn one<'a, T: Readable<'a, Global, G> + Debug, G: reader::Grammar>(bytes: &'a [u8]) -> Decoded<'a> {
    let (value, rest) = value::<T, G>(bytes)?;
    Ok((format!("{value:?} "), rest))
}

/// Decodes items after their number.
fn counted<'a, G: reader::Grammar>(
    bytes: &'a [u8],
    item: fn(&'a [u8]) -> Decoded<'a>,
) -> Decoded<'a> {
    let (count, mut rest) = value::<u32, G>(bytes)?;
    let mut text = String::new();
    for _ in 0..count {
        let (item, after) = item(rest)?;
        text.push_str(&item);
        rest = after;
    }
    Ok((text, rest))
}

/// Decodes items up to the end.
fn to_end<'a>(mut rest: &'a [u8], item: fn(&'a [u8]) -> Decoded<'a>) -> Decoded<'a> {
    let mut text = String::new();
    while !rest.is_empty() {
        let (item, after) = item(rest)?;
        text.push_str(&item);
        rest = after;
    }
    Ok((text, rest))
}

/// Decodes a vector as the library does.
fn vector<'a, T: Readable<'a, Global, G> + Debug, G: reader::Grammar>(
    bytes: &'a [u8],
) -> Decoded<'a> {
    let (items, rest) = value::<Vec<T, Global>, G>(bytes)?;
    Ok((format!("{:?}", &items[..]), rest))
}

/// Decodes a value after the byte 00.
fn marked<'a, T: Readable<'a, Global, G> + Debug, G: reader::Grammar>(
    bytes: &'a [u8],
) -> Decoded<'a> {
    match bytes {
        [0x00, rest @ ..] => one::<T, G>(rest),
        _ => Err(wrong(bytes)),
    }
}

/// Skips the name of a custom section.
fn behind<'a, G: reader::Grammar>(bytes: &'a [u8], name: &str) -> Result<&'a [u8], DecodeError> {
    let (found, rest) = value::<&str, G>(bytes)?;
    if found == name {
        Ok(rest)
    } else {
        Err(wrong(bytes))
    }
}

type Producers<'a> = (&'a str, Vec<(&'a str, &'a str)>);
type Instance = (u32, (Vec<u32>, Vec<u32>));

fn linking<G: reader::Grammar>(bytes: &[u8]) -> Decoded<'_> {
    match value::<u32, G>(bytes)? {
        (2, rest) => to_end(rest, one::<LinkItem<'_>, G>),
        _ => Err(wrong(bytes)),
    }
}

fn relocations<G: reader::Grammar>(bytes: &[u8]) -> Decoded<'_> {
    let (name, rest) = value::<&str, G>(bytes)?;
    if !name.starts_with("reloc.") {
        return Err(wrong(bytes));
    }
    let (section, rest) = one::<u32, G>(rest)?;
    let (relocations, rest) = vector::<Relocation, G>(rest)?;
    Ok((format!("{name:?} {section}{relocations}"), rest))
}

fn stack<G: reader::Grammar>(bytes: &[u8]) -> Decoded<'_> {
    let (thread, rest) = marked::<&str, G>(bytes)?;
    let (frames, rest) = vector::<CoreFrame, G>(rest)?;
    Ok((thread + &frames, rest))
}

/// Decodes the payload of a section.
fn payload<'a, G: reader::Grammar>(bytes: &'a [u8], kind: &str) -> Decoded<'a> {
    let behind = |name| behind::<G>(bytes, name);
    match kind {
        "Types" => vector::<TypeEntry, G>(bytes),
        "Imports" => vector::<Imports<'_>, G>(bytes),
        "Functions" => vector::<u32, G>(bytes),
        "Tables" => vector::<TableItem, G>(bytes),
        "Memories" => vector::<MemoryType, G>(bytes),
        "Globals" => vector::<GlobalItem, G>(bytes),
        "Exports" => vector::<Export<'_>, G>(bytes),
        "DataCount" | "Start" => one::<u32, G>(bytes),
        "Elements" => vector::<ElementItem, G>(bytes),
        "Bodies" => vector::<Body, G>(bytes),
        "Segments" => vector::<Segment<'_>, G>(bytes),
        "Tags" => vector::<TagType, G>(bytes),
        "Names" => to_end(behind("name")?, one::<NameItem<'_>, G>),
        "Linking" => linking::<G>(behind("linking")?),
        "Producers" => vector::<Producers<'_>, G>(behind("producers")?),
        "Hints" => vector::<(u32, Vec<BranchHint>), G>(behind("metadata.code.branch_hint")?),
        "InstructionFrequencies" => {
            vector::<Hints<InstructionFrequency>, G>(behind("metadata.code.instr_freq")?)
        }
        "CompilationOrders" => {
            vector::<Hints<CompilationOrder>, G>(behind("metadata.code.compilation_order")?)
        }
        "CallTargets" => vector::<Hints<Vec<CallTarget>>, G>(behind("metadata.code.call_targets")?),
        "Core" => marked::<&str, G>(behind("core")?),
        "CoreModules" => counted::<G>(behind("coremodules")?, marked::<&str, G>),
        "CoreInstances" => counted::<G>(behind("coreinstances")?, marked::<Instance, G>),
        "CoreStack" => stack::<G>(behind("corestack")?),
        "Custom" => {
            let (name, data) = value::<&str, G>(bytes)?;
            Ok((format!("{name:?} {data:?}"), &[]))
        }
        "Raw" => Ok((format!("{bytes:?}"), &[])),
        "Relocations" => relocations::<G>(bytes),
        "Dylink" => to_end(behind("dylink.0")?, one::<DylinkItem<'_>, G>),
        "SourceMappingUrl" => one::<&str, G>(behind("sourceMappingURL")?),
        "ExternalDebugInfo" => one::<&str, G>(behind("external_debug_info")?),
        "BuildId" => one::<&[u8], G>(behind("build_id")?),
        "TargetFeatures" => vector::<(FeaturePrefix, &str), G>(behind("target_features")?),
        _ => panic!("no decoder of {kind}"),
    }
}

/// Decodes a section after its id. Returns its items as text, and its length in bytes.
pub fn by_library<G: reader::Grammar>(
    bytes: &[u8],
    kind: &str,
) -> Result<(String, usize), DecodeError> {
    let (framed, behind) = value::<&[u8], G>(bytes)?;
    let (text, rest) = payload::<G>(framed, kind)?;
    if rest.is_empty() {
        return Ok((text, bytes.len() - behind.len()));
    }
    Err(ReadFault::SizeMismatch.at(rest))
}
