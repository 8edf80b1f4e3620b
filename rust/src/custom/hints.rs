// Written by tools/to-rust from crates/wasm_custom/src/hints.rt: change that.
// The branch hint section: its builder, its reader and its minimizer.

use crate::vec::{Sink, Vec};
use crate::custom::counted::{DecodesItems, ItemsAs, append_counted, read_counted};
use crate::custom::entries::{CustomEntries, CustomKind};
use crate::custom::marked::read_marked;
use crate::alloc::{Allocator, Global};
use crate::base::{DecodeError, Encode, Grammar, Kind, Layout, Pieces, ReadFault, Readable, Result, Shorten, Store, vec_of};

/// The branch hint section: which branches are likely to be taken, as a list of hints for each
/// function. It belongs before the code section.
///
/// ```
/// # fn example() -> Result<(), Box<dyn std::error::Error>> {
/// # use dolzhytik::{fallible::*, reader::*};
/// use dolzhytik::fallible::{
///     BlockType, BranchHint, BranchHints, Function, Global, Instruction,
/// };
///
/// let mut function = Function::new(Global, [])?;
/// function.instruction(&Instruction::I32Const(1))?;
/// let offset = function.byte_len() as u32;
/// function.instruction(&Instruction::If(BlockType::Empty))?;
/// let mut hints = BranchHints::new(Global);
/// hints.function_hints(0, [BranchHint { branch_func_offset: offset, branch_hint_value: 1 }])?;
/// # Ok(())
/// # }
/// # example().unwrap();
/// ```
pub type BranchHints<A = Global> = CustomEntries<HintItems, Pieces<A>>;

/// The kind of a branch hint section's items: the hints of one function each.
///
/// # Examples
///
/// ```
/// use dolzhytik::fallible::{BranchHints, CustomKind, Global, HintItems};
///
/// let section = BranchHints::new(Global);
/// assert_eq!((section.len(), HintItems::name()), (0, "metadata.code.branch_hint"));
/// ```
#[derive(Clone, Copy, Debug)]
pub struct HintItems;

/// A branch hint, which [`BranchHints::function_hints`](crate::BranchHints::function_hints)
/// takes: the offset of a branch and its likely direction.
///
/// The branch hinting proposal defines it. `branch_func_offset` is the offset of the branch in
/// its body, as [`Function::byte_len`](crate::Function::byte_len) returns it, and
/// `branch_hint_value` is 1 for a likely branch and 0 for an unlikely one.
///
/// # Examples
///
/// ```
/// use dolzhytik::{BranchHint, BranchHints};
///
/// let mut hints = BranchHints::new();
/// hints.function_hints(7, [BranchHint { branch_func_offset: 3, branch_hint_value: 1 }]);
/// assert_eq!(hints.len(), 1);
/// ```
#[derive(Clone, Copy, Debug)]
pub struct BranchHint {
    /// The offset of the branch instruction in the raw body of its function, in bytes.
    pub branch_func_offset: u32,
    /// 1 if the branch is likely to be taken, and 0 if it is not. Any value below 128 decodes.
    pub branch_hint_value: u32,
}

/// Encodes the offset, the size 01 of the value, and the value.
///
/// # Defined
///
/// ```text
/// encoding = { hint_encoding }
/// encodable = { λ _. ⊤ }
/// ```
///
/// Definitions: [`hint_encoding`](crate::definitions::custom::hints::hint_encoding). [How to read clauses](crate::definitions).
impl Encode for BranchHint {
    fn encode<A: Sink>(&self, sink: &mut A) -> Result<()> {
        (self.branch_func_offset, 0x01u8, self.branch_hint_value).encode(sink)
    }
}

/// # Defined
///
/// ```text
/// Record = { Hints }
/// Item = { Hints }
/// kind = { hint_items }
/// ```
///
/// Definitions: [`Hints`](crate::definitions::custom::hints::Hints), [`hint_items`](crate::definitions::custom::hints::hint_items). [How to read clauses](crate::definitions).
impl Kind for HintItems {
    fn laws() {}
}

/// # Defined
///
/// ```text
/// name = { hints_name }
/// front = { [] }
/// front_format = { fixed [] (tt {0}) }
/// counted = { true }
/// ```
///
/// Definitions: [`hints_name`](crate::definitions::custom::hints::hints_name), [`fixed`](crate::definitions::base::formats::fixed). [How to read clauses](crate::definitions).
impl CustomKind for HintItems {
    fn name() -> &'static str {
        "metadata.code.branch_hint"
    }

    fn front() -> &'static [u8] {
        &[]
    }

    fn counted() -> bool {
        true
    }

    fn layout_laws() {}
}

impl<S: Store> CustomEntries<HintItems, S> {
    /// Adds the hints of a function.
    ///
    /// If there are more than 4294967295 hints, the call returns `TooLong` and requests none of
    /// them, as tests show.
    ///
    /// # Errors
    ///
    /// Returns [`TooLong`](crate::fallible::Refused::TooLong) if the builder has 4294967295
    /// entries, or if a count or length would pass 4294967295, and
    /// [`Memory`](crate::fallible::Refused::Memory) if an allocation fails. The builder is then
    /// unchanged.
    ///
    /// # Asks
    ///
    /// The iterator ends, and yields as many items as it reports. [What happens otherwise](crate::fallible#what-is-asked).
    ///
    /// ```text
    /// requires { HasKnownLength H.into_iter_gives H.IntoIter.can_next H.IntoIter.next_gives
    ///     H.IntoIter.remaining hints }
    /// ```
    ///
    /// Definitions: [`HasKnownLength`](crate::definitions::base::iterators::HasKnownLength). [How to read clauses](crate::definitions).
    ///
    /// # Proved
    ///
    /// The builder gains one entry of the items that the iterator yields, or the call returns an error and changes nothing. It returns `TooLong` if there are too many items, and never if all items fit and items and entries are few enough.
    ///
    /// ```text
    /// ensures { AddsList S.model H.into_iter_gives H.IntoIter.next_gives H.IntoIter.remaining
    ///     hints (λ _. ⊤) (λ items. unsigned_encoding func ++ vec_encoding hint_encoding items)
    ///     self.old self.new result }
    /// ```
    ///
    /// Definitions: [`AddsList`](crate::definitions::custom::adding::AddsList), [`unsigned_encoding`](crate::definitions::base::numbers::unsigned_encoding), [`vec_encoding`](crate::definitions::base::encodings::vec_encoding), [`hint_encoding`](crate::definitions::custom::hints::hint_encoding). [How to read clauses](crate::definitions).
    pub fn function_hints<H: IntoIterator<Item = BranchHint>>(
        &mut self,
        func: u32,
        hints: H,
    ) -> Result<()>
    where
        H::IntoIter: ExactSizeIterator,
    {
        let hints = vec_of(hints)?;
        self.add_once((func, hints))
    }
}

/// The value of a hint, in one byte.
#[derive(Clone, Copy, Debug)]
pub(crate) struct HintValue(pub u8);

/// # Defined
///
/// ```text
/// Value = { ℕ }
/// format = { such (λ b. b < 128) byte }
/// view = { λ value. value.0 }
/// ```
///
/// Definitions: [`such`](crate::definitions::base::formats::such), [`byte`](crate::definitions::base::formats::byte). [How to read clauses](crate::definitions).
impl Layout for HintValue {
    fn laws() {}
}

/// # Defined
///
/// ```text
/// may_allocate = { ⊥ }
/// ```
///
/// [How to read clauses](crate::definitions).
impl<'a, A: Allocator + Copy, G: Grammar> Readable<'a, A, G> for HintValue {
    fn read(bytes: &'a [u8], alloc: A) -> Result<(HintValue, &'a [u8]), DecodeError> {
        let (value, rest) = <u8 as Readable<'a, A, G>>::read(bytes, alloc)?;
        if value >= 128 {
            return Err(ReadFault::TooLarge.just_before(rest));
        }
        Ok((HintValue(value), rest))
    }
}

/// # Defined
///
/// ```text
/// Value = { HintModel }
/// format = { hint }
/// view = { λ hint. hint }
/// ```
///
/// Definitions: [`hint`](crate::definitions::custom::hints::hint). [How to read clauses](crate::definitions).
impl Layout for BranchHint {
    fn laws() {}
}

/// # Defined
///
/// ```text
/// may_allocate = { ⊥ }
/// ```
///
/// [How to read clauses](crate::definitions).
impl<'a, A: Allocator + Copy, G: Grammar> Readable<'a, A, G> for BranchHint {
    fn read(bytes: &'a [u8], alloc: A) -> Result<(BranchHint, &'a [u8]), DecodeError> {
        let (branch_func_offset, rest) = <u32 as Readable<'a, A, G>>::read(bytes, alloc)?;
        let (HintValue(value), rest) = read_marked::<'a, HintValue, A, G>(0x01, rest, alloc)?;
        let hint = BranchHint {
            branch_func_offset,
            branch_hint_value: u32::from(value),
        };
        Ok((hint, rest))
    }
}

/// # Defined
///
/// ```text
/// Said = { Hints }
/// format = { hints }
/// view = { hints_view }
/// ```
///
/// Definitions: [`Hints`](crate::definitions::custom::hints::Hints), [`hints`](crate::definitions::custom::hints::hints), [`hints_view`](crate::definitions::custom::hints::hints_view). [How to read clauses](crate::definitions).
impl<A: Allocator> ItemsAs<(u32, Vec<BranchHint, A>)> for HintItems {
    fn unique() {}

    fn append_item<B: Sink>(
        item: &(u32, Vec<BranchHint, A>),
        sink: &mut B,
    ) -> Result<()> {
        let (func, of_branches) = item;
        func.write_minimal(sink)?;
        of_branches.as_slice().encode(sink)
    }
}

impl<'a, A: Allocator + Copy, G: Grammar> DecodesItems<'a, (u32, Vec<BranchHint, A>), A, G>
    for HintItems {
    fn read_item(
        bytes: &'a [u8],
        alloc: A,
    ) -> Result<((u32, Vec<BranchHint, A>), &'a [u8]), DecodeError> {
        <(u32, Vec<BranchHint, A>) as Readable<'a, A, G>>::read(bytes, alloc)
    }
}

/// Decodes the payload of a branch hint section, in the grammar `G`: for each function its index,
/// and the hints of its branches.
///
/// # Errors
///
/// Every error except `Memory` means that the bytes are not such a payload.
///
/// # Examples
///
/// ```
/// use dolzhytik::fallible::{Global, read_hints};
/// use dolzhytik::reader::Padded;
///
/// // The name; one function, 7, of one hint: offset 3, one byte, likely.
/// let payload = b"\x19metadata.code.branch_hint\x01\x07\x01\x03\x01\x01";
/// let functions = read_hints::<Global, Padded>(payload, Global)?;
/// let (function, hints) = &functions[0];
/// assert_eq!(
///     (*function, hints[0].branch_func_offset, hints[0].branch_hint_value),
///     (7, 3, 1)
/// );
/// # Ok::<(), dolzhytik::reader::DecodeError>(())
/// ```
///
/// # Proved
///
/// After `Ok`: `found`, the bytes as a whole encode the value. After an error: `none`, the bytes as a whole are no such encoding, unless the cause is `Memory`.
///
/// ```text
/// ensures found { IfOk result
///     (λ x. hints_payload (padded_of G.grammar) bytes.now (map hints_view x.items)) }
/// ensures none { IfErr result
///     (λ e. e.cause ≢ Memory → RejectsWhole hints_payload (padded_of G.grammar) bytes.now)
///     }
/// ```
///
/// Definitions: [`hints_payload`](crate::definitions::custom::hints::hints_payload), [`padded_of`](crate::definitions::base::numbers::padded_of), [`hints_view`](crate::definitions::custom::hints::hints_view), [`RejectsWhole`](crate::definitions::base::continuing::RejectsWhole). [How to read clauses](crate::definitions).
pub fn read_hints<'a, A: Allocator + Copy, G: Grammar>(
    bytes: &'a [u8],
    alloc: A,
) -> Result<Vec<(u32, Vec<BranchHint, A>), A>, DecodeError> {
    read_counted::<'a, HintItems, (u32, Vec<BranchHint, A>), A, G>(bytes, alloc)
}

/// Appends the minimal encoding of the payload of a section of these hints. On an error, the sink
/// is unchanged.
///
/// # Errors
///
/// Returns [`TooLong`](crate::fallible::Refused::TooLong) if a count or length would pass
/// 4294967295, and [`Memory`](crate::fallible::Refused::Memory) if an allocation fails. The
/// bytes of the sink are then unchanged.
///
/// # Examples
///
/// ```
/// use dolzhytik::fallible::{Global, append_hints};
///
/// let mut payload = vec![];
/// append_hints::<Global, _>(&[], &mut payload)?;
/// // The name, no functions.
/// assert_eq!(payload, *b"\x19metadata.code.branch_hint\0");
/// # Ok::<(), dolzhytik::fallible::Refused>(())
/// ```
///
/// # Proved
///
/// After `Ok`: `ok`, the sink gains the encoding that is minimal in both grammars. After an error: `err`, the bytes of the sink are unchanged. In any case: `too_long`, a value that has an encoding never gives `TooLong`.
///
/// ```text
/// ensures ok { OnOk result
///     (AppendsMinimal both_grammars hints_payload
///         (map hints_view functions.now) sink.old.items sink.new.items) }
/// ensures err { OnErr result (sink.new.items ≡ sink.old.items) }
/// ensures too_long { HasEncoding both_grammars hints_payload
///     (map hints_view functions.now) → result ≢ Err TooLong }
/// ```
///
/// Definitions: [`AppendsMinimal`](crate::definitions::base::minimal::AppendsMinimal), [`both_grammars`](crate::definitions::base::minimal::Grammars), [`hints_payload`](crate::definitions::custom::hints::hints_payload), [`hints_view`](crate::definitions::custom::hints::hints_view), [`HasEncoding`](crate::definitions::base::minimal::HasEncoding). [How to read clauses](crate::definitions).
pub fn append_hints<A: Allocator, B: Sink>(
    functions: &[(u32, Vec<BranchHint, A>)],
    sink: &mut B,
) -> Result<()> {
    append_counted::<HintItems, (u32, Vec<BranchHint, A>), _>(functions, sink)
}
