// Written by tools/to-rust from crates/wasm_sections/src/global.rt: change that.
// The global section: its builder and its reader.

use crate::vec::Sink;
use crate::sections::counted_section::{CountedSection, ItemKind};
use crate::sections::flags::where_set;
use crate::alloc::{Allocator, Global};
use crate::base::{DecodeError, Encode, Grammar, Kind, Layout, Lent, Pieces, ReadFault, Readable, Result, SectionId, Shorten, Store, ValType};
use crate::code::{ConstExpr, Expression};

/// The global section: the globals that a module defines.
///
/// ```
/// # fn example() -> Result<(), Box<dyn std::error::Error>> {
/// # use dolzhytik::{fallible::*, reader::*};
/// use dolzhytik::fallible::{
///     ConstExpr, Global, GlobalSection, GlobalType, Module, ValType,
/// };
///
/// let mut module = Module::new(Global)?;
/// let mut globals = GlobalSection::new(Global);
/// let global_type = GlobalType { val_type: ValType::I32, mutable: false, shared: false };
/// globals.global(global_type, &ConstExpr::i32_const(Global, 42)?)?;
/// module.section(&globals)?;
/// # Ok(())
/// # }
/// # example().unwrap();
/// ```
pub type GlobalSection<A = Global> = CountedSection<GlobalItems, Pieces<A>>;

/// The kind of a global section's items: types of globals, each with an initializer expression.
///
/// # Examples
///
/// ```
/// use dolzhytik::fallible::{Global, GlobalItems, GlobalSection, ItemKind};
///
/// let section = GlobalSection::new(Global);
/// assert_eq!((section.len(), GlobalItems::id()), (0, 6));
/// ```
#[derive(Clone, Copy, Debug)]
pub struct GlobalItems;

/// The type of a global, which [`GlobalSection::global`](crate::GlobalSection::global) takes,
/// and [`EntityType::Global`](crate::EntityType::Global) for an imported one.
///
/// Core specification, Types, Global Types.
///
/// `shared` is of the shared-everything threads proposal.
///
/// # Examples
///
/// ```
/// use dolzhytik::{Encode, GlobalType, ValType};
///
/// let mut bytes = Vec::new();
/// GlobalType { val_type: ValType::I64, mutable: true, shared: false }.encode(&mut bytes);
/// // i64: 7E. Flags: 1 for mutable.
/// assert_eq!(bytes, [0x7E, 1]);
/// ```
#[derive(Clone, Copy, PartialEq, Eq, Hash, Debug)]
pub struct GlobalType {
    /// The type of the value.
    pub val_type: ValType,
    /// Whether it can be set.
    pub mutable: bool,
    /// Whether threads share it.
    pub shared: bool,
}

impl GlobalType {
    /// Returns the flags: a bit for each attribute that is set.
    #[inline]
    pub(crate) fn flags(&self) -> u8 {
        where_set(self.mutable, 0x01) + where_set(self.shared, 0x02)
    }
}

/// Encodes the type of the value, and the flags.
///
/// # Defined
///
/// ```text
/// encoding = { global_encoding }
/// encodable = { λ _. ⊤ }
/// ```
///
/// Definitions: [`global_encoding`](crate::definitions::sections::globals::global_encoding). [How to read clauses](crate::definitions).
impl Encode for GlobalType {
    #[inline]
    fn encode<A: Sink>(&self, sink: &mut A) -> Result<()> {
        (self.val_type, self.flags()).encode(sink)
    }
}

/// # Defined
///
/// ```text
/// Record = { GivenGlobal }
/// Item = { GlobalModel }
/// kind = { global_items }
/// ```
///
/// Definitions: [`GivenGlobal`](crate::definitions::sections::globals::GivenGlobal), [`GlobalModel`](crate::definitions::sections::globals::GlobalItem), [`global_items`](crate::definitions::sections::globals::global_items). [How to read clauses](crate::definitions).
impl Kind for GlobalItems {
    fn laws() {}
}

/// # Defined
///
/// ```text
/// section_id = { number_of ids.Global }
/// ```
///
/// Definitions: [`number_of`](crate::definitions::base::section_id::number_of). [How to read clauses](crate::definitions).
impl ItemKind for GlobalItems {
    fn id() -> u8 {
        SectionId::Global.into()
    }
}

impl<S: Store> CountedSection<GlobalItems, S> {
    /// Adds a global of this type, initialized by the expression.
    ///
    /// # Errors
    ///
    /// Returns [`TooLong`](crate::fallible::Refused::TooLong) if the builder has 4294967295
    /// entries, and [`Memory`](crate::fallible::Refused::Memory) if an allocation fails. The
    /// builder is then unchanged.
    ///
    /// # Proved
    ///
    /// The builder gains one entry with this encoding, or the call returns an error and changes nothing. A full builder, with 2^32 - 1 entries, returns `TooLong`.
    ///
    /// ```text
    /// ensures { AddsTo S.model
    ///     (global_encoding global_type ++ expression_encoding init.now) ⊤ self.old self.new
    ///     result }
    /// ```
    ///
    /// Definitions: [`AddsTo`](crate::definitions::base::calls::AddsTo), [`global_encoding`](crate::definitions::sections::globals::global_encoding), [`expression_encoding`](crate::definitions::code::expressions::expression_encoding). [How to read clauses](crate::definitions).
    pub fn global<B: Allocator>(
        &mut self,
        global_type: GlobalType,
        init: &ConstExpr<B>,
    ) -> Result<()> {
        self.add_record(&(global_type, Lent(init)))
    }

    /// Adds a global that is already encoded. The call does not check that it is one.
    ///
    /// # Errors
    ///
    /// Returns [`TooLong`](crate::fallible::Refused::TooLong) if the builder has 4294967295
    /// entries, and [`Memory`](crate::fallible::Refused::Memory) if an allocation fails. The
    /// builder is then unchanged.
    ///
    /// # Proved
    ///
    /// The builder gains one entry with this encoding, or the call returns an error and changes nothing. A full builder, with 2^32 - 1 entries, returns `TooLong`.
    ///
    /// ```text
    /// ensures { AddsTo S.model global.now ⊤ self.old self.new result }
    /// ```
    ///
    /// Definitions: [`AddsTo`](crate::definitions::base::calls::AddsTo). [How to read clauses](crate::definitions).
    pub fn raw(&mut self, global: &[u8]) -> Result<()> {
        self.add_piece(global)
    }
}

/// The flags of a global.
#[derive(Clone, Copy, Debug)]
struct GlobalFlags {
    mutable: bool,
    shared: bool,
}

/// # Defined
///
/// ```text
/// Value = { GlobalBits }
/// format = { coded global_code }
/// view = { global_flags_view }
/// ```
///
/// Definitions: [`GlobalBits`](crate::definitions::sections::globals::GlobalFlags), [`coded`](crate::definitions::base::formats::coded), [`global_code`](crate::definitions::sections::globals::global_code), [`global_flags_view`](crate::definitions::sections::globals::global_flags_view). [How to read clauses](crate::definitions).
impl Layout for GlobalFlags {
    fn laws() {}
}

/// # Defined
///
/// ```text
/// may_allocate = { ⊥ }
/// ```
///
/// [How to read clauses](crate::definitions).
impl<'a, A: Allocator + Copy, G: Grammar> Readable<'a, A, G> for GlobalFlags {
    fn read(bytes: &'a [u8], alloc: A) -> Result<(GlobalFlags, &'a [u8]), DecodeError> {
        let (byte, rest) = <u8 as Readable<'a, A, G>>::read(bytes, alloc)?;
        if byte >= 0x04 {
            return Err(ReadFault::UnknownTag.just_before(rest));
        }
        let flags = GlobalFlags {
            mutable: byte % 2 == 1,
            shared: byte / 2 % 2 == 1,
        };
        Ok((flags, rest))
    }
}

/// # Defined
///
/// ```text
/// Value = { TypeModel }
/// format = { global_type }
/// view = { λ global. global }
/// ```
///
/// Definitions: [`global_type`](crate::definitions::sections::globals::global_type). [How to read clauses](crate::definitions).
impl Layout for GlobalType {
    fn laws() {}
}

/// # Defined
///
/// ```text
/// may_allocate = { ⊥ }
/// ```
///
/// [How to read clauses](crate::definitions).
impl<'a, A: Allocator + Copy, G: Grammar> Readable<'a, A, G> for GlobalType {
    fn read(bytes: &'a [u8], alloc: A) -> Result<(GlobalType, &'a [u8]), DecodeError> {
        let ((val_type, flags), rest) = <(ValType, GlobalFlags) as Readable<'a, A, G>>::read(
            bytes, alloc,
        )?;
        let global_type = GlobalType {
            val_type,
            mutable: flags.mutable,
            shared: flags.shared,
        };
        Ok((global_type, rest))
    }
}

/// A decoded global: its type, and its initializer expression.
///
/// [`Items::Globals`](crate::reader::Items::Globals) has them.
///
/// # Examples
///
/// ```
/// use dolzhytik::fallible::{Global, ValType};
/// use dolzhytik::reader::{GlobalItem, Padded, Readable};
///
/// // i64 (7E), mutable (01). i64.const 7, end.
/// let bytes = [0x7E, 1, 0x42, 7, 0x0B];
/// let (global, _) = <GlobalItem as Readable<Global, Padded>>::read(&bytes, Global)?;
/// assert_eq!(
///     (global.global_type.val_type, global.global_type.mutable),
///     (ValType::I64, true)
/// );
/// # Ok::<(), dolzhytik::reader::DecodeError>(())
/// ```
#[derive(Debug)]
pub struct GlobalItem<A: Allocator = Global> {
    /// The type.
    pub global_type: GlobalType,
    /// The constant expression of the initial value.
    pub init: Expression<A>,
}

/// # Defined
///
/// ```text
/// Value = { GlobalModel }
/// format = { global_item }
/// view = { global_view }
/// ```
///
/// Definitions: [`GlobalModel`](crate::definitions::sections::globals::GlobalItem), [`global_item`](crate::definitions::sections::globals::global_item), [`global_view`](crate::definitions::sections::globals::global_view). [How to read clauses](crate::definitions).
impl<A: Allocator> Layout for GlobalItem<A> {
    fn laws() {}
}

impl<'a, A: Allocator + Copy, G: Grammar> Readable<'a, A, G> for GlobalItem<A> {
    fn read(bytes: &'a [u8], alloc: A) -> Result<(GlobalItem<A>, &'a [u8]), DecodeError> {
        let ((global_type, init), rest) = <(GlobalType, Expression<A>) as Readable<'a, A, G>>::read(
            bytes, alloc,
        )?;
        Ok((GlobalItem { global_type, init }, rest))
    }
}

/// # Defined
///
/// ```text
/// grammars = { builders_alone }
/// ```
///
/// Definitions: [`builders_alone`](crate::definitions::base::minimal::Grammars). [How to read clauses](crate::definitions).
impl<A: Allocator> Shorten for GlobalItem<A> {
    fn write_minimal<B: Sink>(&self, sink: &mut B) -> Result<()> {
        self.global_type.encode(sink)?;
        self.init.write_minimal(sink)
    }
}
