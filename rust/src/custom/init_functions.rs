// Written by tools/to-rust from crates/wasm_custom/src/init_functions.rt: change that.
// The init functions of a linking section: their builder, their reader and their minimizer.

use crate::vec::Sink;
use crate::custom::lists::{CountedList, ListKind};
use crate::alloc::{Allocator, Global};
use crate::base::{DecodeError, Grammar, Layout, Pieces, Readable, Result, Shorten, Store};

/// The init functions of a module, in the order in which they are added. They are encoded as
/// subsection 6 of a linking section.
///
/// ```
/// # fn example() -> Result<(), Box<dyn std::error::Error>> {
/// # use dolzhytik::{fallible::*, reader::*};
/// use dolzhytik::fallible::{Global, InitFunctions};
///
/// let mut functions = InitFunctions::new(Global);
/// functions.function(65535, 0)?;
/// # Ok(())
/// # }
/// # example().unwrap();
/// ```
pub type InitFunctions<A = Global> = CountedList<InitMembers, Pieces<A>>;

/// The kind of the members of a list of init functions.
///
/// # Examples
///
/// ```
/// use dolzhytik::fallible::{Global, InitFunctions, InitMembers, ListKind};
///
/// let list = InitFunctions::new(Global);
/// assert_eq!((list.len(), InitMembers::subsection()), (0, Some(6)));
/// ```
#[derive(Clone, Copy, Debug)]
pub struct InitMembers;

/// # Defined
///
/// ```text
/// Member = { InitModel }
/// member_encoding = { init_encoding }
/// is_member = { IsInit }
/// subsection = { Some 6 }
/// ```
///
/// Definitions: [`init_encoding`](crate::definitions::custom::init_functions::init_encoding), [`IsInit`](crate::definitions::custom::init_functions::IsInit). [How to read clauses](crate::definitions).
impl ListKind for InitMembers {
    fn subsection() -> Option<u8> {
        Some(6)
    }
}

impl<S: Store> CountedList<InitMembers, S> {
    /// Adds the function of this symbol. Functions of a lower priority are called first.
    ///
    /// # Errors
    ///
    /// Returns [`TooLong`](crate::fallible::Refused::TooLong) if the builder has 4294967295
    /// entries, and [`Memory`](crate::fallible::Refused::Memory) if an allocation fails. The
    /// builder is then unchanged.
    ///
    /// # Proved
    ///
    /// The builder gains one entry with this encoding, or the call returns an error and changes nothing. A full builder, with 2^32 - 1 entries, returns `TooLong`.
    ///
    /// ```text
    /// ensures { AddsTo S.model
    ///     (unsigned_encoding priority ++ unsigned_encoding symbol) ⊤ self.old self.new result
    ///     }
    /// ```
    ///
    /// Definitions: [`AddsTo`](crate::definitions::base::calls::AddsTo), [`unsigned_encoding`](crate::definitions::base::numbers::unsigned_encoding). [How to read clauses](crate::definitions).
    pub fn function(&mut self, priority: u32, symbol: u32) -> Result<()> {
        self.add_record(&(priority, symbol))
    }
}

/// A function that the linked module calls when it starts.
///
/// It is an item of [`LinkItem::InitFunctions`](crate::reader::LinkItem::InitFunctions).
///
/// # Examples
///
/// ```
/// use dolzhytik::fallible::{Global, InitFunction};
/// use dolzhytik::reader::{Readable, Standard};
///
/// // The priority 10, the symbol 3.
/// let (function, _) =
///     <InitFunction as Readable<Global, Standard>>::read(&[10, 3], Global)?;
/// assert_eq!((function.priority, function.symbol), (10, 3));
/// # Ok::<(), dolzhytik::reader::DecodeError>(())
/// ```
#[derive(Clone, Copy, Debug)]
pub struct InitFunction {
    /// Functions of a lower priority are called first.
    pub priority: u32,
    /// The index of the function's symbol in the symbol table.
    pub symbol: u32,
}

/// # Defined
///
/// ```text
/// Value = { InitModel }
/// format = { init_function }
/// view = { λ function. function }
/// ```
///
/// Definitions: [`init_function`](crate::definitions::custom::init_functions::init_function). [How to read clauses](crate::definitions).
impl Layout for InitFunction {
    fn laws() {}
}

/// # Defined
///
/// ```text
/// may_allocate = { ⊥ }
/// ```
///
/// [How to read clauses](crate::definitions).
impl<'a, A: Allocator + Copy, G: Grammar> Readable<'a, A, G> for InitFunction {
    fn read(bytes: &'a [u8], alloc: A) -> Result<(InitFunction, &'a [u8]), DecodeError> {
        let ((priority, symbol), rest) = <(u32, u32) as Readable<'a, A, G>>::read(bytes, alloc)?;
        Ok((InitFunction { priority, symbol }, rest))
    }
}

/// # Defined
///
/// ```text
/// grammars = { both_grammars }
/// ```
///
/// Definitions: [`both_grammars`](crate::definitions::base::minimal::Grammars). [How to read clauses](crate::definitions).
impl Shorten for InitFunction {
    fn write_minimal<B: Sink>(&self, sink: &mut B) -> Result<()> {
        self.priority.write_minimal(sink)?;
        self.symbol.write_minimal(sink)
    }
}
