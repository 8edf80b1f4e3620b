// Written by tools/to-rust from crates/read_back/src/remapped.rt: change that.
// Modules in which each function has the next index, as for an imported function before all others.

use dolzhytik::fallible::Vec;
use dolzhytik::fallible::Allocator;
use core::convert::Infallible;
use dolzhytik::fallible::Op;
use dolzhytik::reader::{Items, Offsets, Section};
use dolzhytik::reader::remap::{IndexSpace, Remap, RemapError, remap_items, remap_module, remap_section, spaces_of};

/// Gives each function the next index.
#[derive(Clone, Copy, Debug)]
pub struct NextFunction;

/// There is no next index.
#[derive(Clone, Copy, PartialEq, Eq, Debug)]
pub struct Last;

/// # Defined
///
/// ```text
/// mapped = { λ _ space n. next_function space n }
/// rejects = { λ _ space n _. IsLast space n }
/// ```
impl Remap for NextFunction {
    type Error = Last;

    fn index(&self, space: IndexSpace, index: u32) -> Result<u32, Last> {
        match space {
            IndexSpace::Functions => {
                if index == u32::MAX {
                    Err(Last)
                } else {
                    Ok(index + 1)
                }
            }
            _ => Ok(index),
        }
    }
}

/// Returns a module in which each function has the next index, without the custom sections that
/// hold offsets.
///
/// # Proved
///
/// ```text
/// ensures { IfOk result (λ new. RemapsModule next_function LeaveOut module.now new.items) }
/// ```
pub fn with_room<A: Allocator + Copy>(
    module: &[u8],
    alloc: A,
) -> Result<Vec<u8, A>, RemapError<Last>> {
    remap_module(module, alloc, &NextFunction, Offsets::LeaveOut)
}

/// Exchanges two functions.
#[derive(Clone, Copy, Debug)]
struct Exchange(u32, u32);

/// # Defined
///
/// ```text
/// mapped = { λ x space n. exchanged x.0 x.1 space n }
/// rejects = { λ _ _ _ _. ⊥ }
/// ```
impl Remap for Exchange {
    type Error = Infallible;

    fn index(&self, space: IndexSpace, index: u32) -> Result<u32, Infallible> {
        if space != IndexSpace::Functions {
            Ok(index)
        } else if index == self.0 {
            Ok(self.1)
        } else if index == self.1 {
            Ok(self.0)
        } else {
            Ok(index)
        }
    }
}

/// Returns a module in which each use of one function is one of another, and the reverse, without
/// the custom sections that hold offsets. If its sections decode, there is no error but `Memory`.
///
/// # Asks
///
/// ```text
/// requires { IsMappable LeaveOut module.now }
/// ```
///
/// # Proved
///
/// ```text
/// ensures ok { IfOk result (λ new. RemapsModule (exchanged first second) LeaveOut module.now new.items) }
/// ensures memory { IfErr result (λ e. e ≡ Refused Memory) }
/// ```
pub fn with_exchanged<A: Allocator + Copy>(
    module: &[u8],
    first: u32,
    second: u32,
    alloc: A,
) -> Result<Vec<u8, A>, RemapError<Infallible>> {
    remap_module(module, alloc, &Exchange(first, second), Offsets::LeaveOut)
}

/// Returns the payload of a section in which each function has the next index.
///
/// # Proved
///
/// ```text
/// ensures { IfOk result (λ payload. IsRemapped section.now.section payload.items) }
/// ```
pub fn payload_with_room<A: Allocator + Copy>(
    section: &Section<'_, A>,
    alloc: A,
) -> Result<Vec<u8, A>, RemapError<Last>> {
    let mut payload = Vec::new(alloc);
    remap_section(section, alloc, &NextFunction, &mut payload)?;
    Ok(payload)
}

/// Returns the items of a start section of the next function.
///
/// # Proved
///
/// ```text
/// ensures { IfOk result (λ items. contents_of items ≡ Start (next index)) }
/// ```
pub fn next_start<'a, A: Allocator + Copy>(
    index: u32,
    alloc: A,
) -> Result<Items<'a, A>, RemapError<Last>> {
    let mut items = Items::Start(index);
    remap_items(&mut items, alloc, &NextFunction)?;
    Ok(items)
}

/// Returns the index spaces of `table.copy`: those of both of its tables.
///
/// # Proved
///
/// ```text
/// ensures { result ≡ (Some spaces.Tables, Some spaces.Tables) }
/// ```
pub fn spaces_of_table_copy() -> (Option<IndexSpace>, Option<IndexSpace>) {
    spaces_of(Op::Prefixed(0xFC, 14))
}

/// Returns `true` if offsets of the section would become wrong.
///
/// # Proved
///
/// ```text
/// ensures { result ≡ contains_offsets section.now.section.name }
/// ```
pub fn loses_offsets<A: Allocator + Copy>(section: &Section<'_, A>) -> bool {
    section.has_offsets()
}
