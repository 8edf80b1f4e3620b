// Written by tools/to-rust from crates/wasm_custom/src/minimize.rt: change that.
// Minimizes payloads of custom sections. No item is kept.

use crate::vec::Sink;
use crate::custom::call_targets::walk_call_targets;
use crate::custom::compilation_orders::walk_orders;
use crate::custom::core_walks::{walk_instances, walk_modules, walk_stack};
use crate::custom::dylink_walks::walk_dylink;
use crate::custom::instruction_frequencies::walk_frequencies;
use crate::custom::item_walks::{walk_features, walk_hints, walk_producers, walk_relocations};
use crate::custom::link_walks::walk_links;
use crate::custom::name_walks::walk_names;
use crate::alloc::Allocator;
use crate::base::{DecodeError, Grammar};

/// Appends the minimal encoding, in the grammar `G`, of the payload of a name section. After an
/// error, part of it may follow the old bytes of the sink.
///
/// # Errors
///
/// Every error except `Memory` means that the bytes are not such a payload.
///
/// # Examples
///
/// ```
/// use dolzhytik::fallible::{Global, minimize_names};
/// use dolzhytik::reader::Standard;
///
/// // The size of the subsection, which holds the name of the module, has two bytes.
/// let payload = b"\x04name\x00\x82\x00\x01m";
/// let mut minimal = vec![];
/// minimize_names::<_, Standard, _>(payload, Global, &mut minimal)?;
/// assert_eq!(minimal, *b"\x04name\x00\x02\x01m");
/// # Ok::<(), dolzhytik::reader::DecodeError>(())
/// ```
///
/// # Proved
///
/// - After `Ok`, `found`: The bytes as a whole decode to a value in this grammar, and the call appends the minimal encoding of the value in this grammar.
/// - After an error, `none`: the bytes as a whole are no such encoding, unless the cause is `Memory`.
/// - `front`: The new bytes begin with the old ones.
///
/// ```text
/// ensures found { OnOk result
///     (MinimizesWhole G.grammar name_payload bytes.now sink.old.items sink.new.items) }
/// ensures none { IfErr result
///     (λ e. e.cause ≢ Memory → RejectsWhole name_payload (padded_of G.grammar) bytes.now)
///     }
/// ensures front { IsFrontOf sink.old.items sink.new.items }
/// ```
///
/// Definitions: [`MinimizesWhole`](crate::definitions::base::minimal::MinimizesWhole), [`name_payload`](crate::definitions::custom::names::name_payload), [`RejectsWhole`](crate::definitions::base::continuing::RejectsWhole), [`padded_of`](crate::definitions::base::numbers::padded_of), [`IsFrontOf`](crate::definitions::base::minimal::IsFrontOf). [How to read clauses](crate::definitions).
pub fn minimize_names<'a, A: Allocator + Copy, G: Grammar, B: Sink>(
    bytes: &'a [u8],
    alloc: A,
    sink: &mut B,
) -> Result<(), DecodeError> {
    walk_names::<A, G, _>(bytes, alloc, sink)
}

/// Appends the minimal encoding, in the grammar `G`, of the payload of a linking section. After an
/// error, part of it may follow the old bytes of the sink.
///
/// # Errors
///
/// Every error except `Memory` means that the bytes are not such a payload.
///
/// # Examples
///
/// ```
/// use dolzhytik::fallible::{Global, minimize_links};
/// use dolzhytik::reader::Standard;
///
/// // The version has two bytes, and one init function follows: of priority 1, symbol 0.
/// let payload = b"\x07linking\x82\x00\x06\x03\x01\x01\x00";
/// let mut minimal = vec![];
/// minimize_links::<_, Standard, _>(payload, Global, &mut minimal)?;
/// assert_eq!(minimal, *b"\x07linking\x02\x06\x03\x01\x01\x00");
/// # Ok::<(), dolzhytik::reader::DecodeError>(())
/// ```
///
/// # Proved
///
/// - After `Ok`, `found`: The bytes as a whole decode to a value in this grammar, and the call appends the minimal encoding of the value in this grammar.
/// - After an error, `none`: the bytes as a whole are no such encoding, unless the cause is `Memory`.
/// - `front`: The new bytes begin with the old ones.
///
/// ```text
/// ensures found { OnOk result
///     (MinimizesWhole G.grammar linking_payload bytes.now sink.old.items sink.new.items) }
/// ensures none { IfErr result
///     (λ e. e.cause ≢ Memory → RejectsWhole linking_payload
///         (padded_of G.grammar) bytes.now) }
/// ensures front { IsFrontOf sink.old.items sink.new.items }
/// ```
///
/// Definitions: [`MinimizesWhole`](crate::definitions::base::minimal::MinimizesWhole), [`linking_payload`](crate::definitions::custom::linking::linking_payload), [`RejectsWhole`](crate::definitions::base::continuing::RejectsWhole), [`padded_of`](crate::definitions::base::numbers::padded_of), [`IsFrontOf`](crate::definitions::base::minimal::IsFrontOf). [How to read clauses](crate::definitions).
pub fn minimize_links<'a, A: Allocator + Copy, G: Grammar, B: Sink>(
    bytes: &'a [u8],
    alloc: A,
    sink: &mut B,
) -> Result<(), DecodeError> {
    walk_links::<A, G, _>(bytes, alloc, sink)
}

/// Appends the minimal encoding, in the grammar `G`, of the payload of a dynamic library's section.
/// After an error, part of it may follow the old bytes of the sink.
///
/// # Errors
///
/// Every error except `Memory` means that the bytes are not such a payload.
///
/// # Examples
///
/// ```
/// use dolzhytik::fallible::{Global, minimize_dylink};
/// use dolzhytik::reader::Standard;
///
/// // The size of the subsection and the number of libraries have two bytes each.
/// let payload = b"\x08dylink.0\x02\x8a\x00\x81\x00\x07libm.so";
/// let mut minimal = vec![];
/// minimize_dylink::<_, Standard, _>(payload, Global, &mut minimal)?;
/// assert_eq!(minimal, *b"\x08dylink.0\x02\x09\x01\x07libm.so");
/// # Ok::<(), dolzhytik::reader::DecodeError>(())
/// ```
///
/// # Proved
///
/// - After `Ok`, `found`: The bytes as a whole decode to a value in this grammar, and the call appends the minimal encoding of the value in this grammar.
/// - After an error, `none`: the bytes as a whole are no such encoding, unless the cause is `Memory`.
/// - `front`: The new bytes begin with the old ones.
///
/// ```text
/// ensures found { OnOk result
///     (MinimizesWhole G.grammar dylink_payload bytes.now sink.old.items sink.new.items) }
/// ensures none { IfErr result
///     (λ e. e.cause ≢ Memory → RejectsWhole dylink_payload
///         (padded_of G.grammar) bytes.now) }
/// ensures front { IsFrontOf sink.old.items sink.new.items }
/// ```
///
/// Definitions: [`MinimizesWhole`](crate::definitions::base::minimal::MinimizesWhole), [`dylink_payload`](crate::definitions::custom::dylink::dylink_payload), [`RejectsWhole`](crate::definitions::base::continuing::RejectsWhole), [`padded_of`](crate::definitions::base::numbers::padded_of), [`IsFrontOf`](crate::definitions::base::minimal::IsFrontOf). [How to read clauses](crate::definitions).
pub fn minimize_dylink<'a, A: Allocator + Copy, G: Grammar, B: Sink>(
    bytes: &'a [u8],
    alloc: A,
    sink: &mut B,
) -> Result<(), DecodeError> {
    walk_dylink::<A, G, _>(bytes, alloc, sink)
}

/// Appends the minimal encoding, in the grammar `G`, of the payload of a producers section. After
/// an error, part of it may follow the old bytes of the sink.
///
/// # Errors
///
/// Every error except `Memory` means that the bytes are not such a payload.
///
/// # Examples
///
/// ```
/// use dolzhytik::fallible::{Global, minimize_producers};
/// use dolzhytik::reader::Standard;
///
/// // The number of fields has two bytes.
/// let payload = b"\x09producers\x81\x00\x03sdk\x01\x01e\x011";
/// let mut minimal = vec![];
/// minimize_producers::<_, Standard, _>(payload, Global, &mut minimal)?;
/// assert_eq!(minimal, *b"\x09producers\x01\x03sdk\x01\x01e\x011");
/// # Ok::<(), dolzhytik::reader::DecodeError>(())
/// ```
///
/// # Proved
///
/// - After `Ok`, `found`: The bytes as a whole decode to a value in this grammar, and the call appends the minimal encoding of the value in this grammar.
/// - After an error, `none`: the bytes as a whole are no such encoding, unless the cause is `Memory`.
/// - `front`: The new bytes begin with the old ones.
///
/// ```text
/// ensures found { OnOk result
///     (MinimizesWhole G.grammar producers_payload bytes.now sink.old.items sink.new.items)
///     }
/// ensures none { IfErr result
///     (λ e. e.cause ≢ Memory → RejectsWhole producers_payload
///         (padded_of G.grammar) bytes.now) }
/// ensures front { IsFrontOf sink.old.items sink.new.items }
/// ```
///
/// Definitions: [`MinimizesWhole`](crate::definitions::base::minimal::MinimizesWhole), [`producers_payload`](crate::definitions::custom::producers::producers_payload), [`RejectsWhole`](crate::definitions::base::continuing::RejectsWhole), [`padded_of`](crate::definitions::base::numbers::padded_of), [`IsFrontOf`](crate::definitions::base::minimal::IsFrontOf). [How to read clauses](crate::definitions).
pub fn minimize_producers<'a, A: Allocator + Copy, G: Grammar, B: Sink>(
    bytes: &'a [u8],
    alloc: A,
    sink: &mut B,
) -> Result<(), DecodeError> {
    walk_producers::<A, G, _>(bytes, alloc, sink)
}

/// Appends the minimal encoding, in the grammar `G`, of the payload of a target features section.
/// After an error, part of it may follow the old bytes of the sink.
///
/// # Errors
///
/// Every error except `Memory` means that the bytes are not such a payload.
///
/// # Examples
///
/// ```
/// use dolzhytik::fallible::{Global, minimize_features};
/// use dolzhytik::reader::Standard;
///
/// // The number of features has two bytes.
/// let payload = b"\x0ftarget_features\x81\x00+\x07atomics";
/// let mut minimal = vec![];
/// minimize_features::<_, Standard, _>(payload, Global, &mut minimal)?;
/// assert_eq!(minimal, *b"\x0ftarget_features\x01+\x07atomics");
/// # Ok::<(), dolzhytik::reader::DecodeError>(())
/// ```
///
/// # Proved
///
/// - After `Ok`, `found`: The bytes as a whole decode to a value in this grammar, and the call appends the minimal encoding of the value in this grammar.
/// - After an error, `none`: the bytes as a whole are no such encoding, unless the cause is `Memory`.
/// - `front`: The new bytes begin with the old ones.
///
/// ```text
/// ensures found { OnOk result
///     (MinimizesWhole G.grammar features_payload bytes.now sink.old.items sink.new.items)
///     }
/// ensures none { IfErr result
///     (λ e. e.cause ≢ Memory → RejectsWhole features_payload
///         (padded_of G.grammar) bytes.now) }
/// ensures front { IsFrontOf sink.old.items sink.new.items }
/// ```
///
/// Definitions: [`MinimizesWhole`](crate::definitions::base::minimal::MinimizesWhole), [`features_payload`](crate::definitions::custom::target_features::features_payload), [`RejectsWhole`](crate::definitions::base::continuing::RejectsWhole), [`padded_of`](crate::definitions::base::numbers::padded_of), [`IsFrontOf`](crate::definitions::base::minimal::IsFrontOf). [How to read clauses](crate::definitions).
pub fn minimize_features<'a, A: Allocator + Copy, G: Grammar, B: Sink>(
    bytes: &'a [u8],
    alloc: A,
    sink: &mut B,
) -> Result<(), DecodeError> {
    walk_features::<A, G, _>(bytes, alloc, sink)
}

/// Appends the minimal encoding, in the grammar `G`, of the payload of a branch hint section. After
/// an error, part of it may follow the old bytes of the sink.
///
/// # Errors
///
/// Every error except `Memory` means that the bytes are not such a payload.
///
/// # Examples
///
/// ```
/// use dolzhytik::fallible::{Global, minimize_hints};
/// use dolzhytik::reader::Standard;
///
/// // The index of the function has two bytes. Its one hint is for the branch at offset 5.
/// let payload = b"\x19metadata.code.branch_hint\x01\x80\x00\x01\x05\x01\x01";
/// let mut minimal = vec![];
/// minimize_hints::<_, Standard, _>(payload, Global, &mut minimal)?;
/// assert_eq!(minimal, *b"\x19metadata.code.branch_hint\x01\x00\x01\x05\x01\x01");
/// # Ok::<(), dolzhytik::reader::DecodeError>(())
/// ```
///
/// # Proved
///
/// - After `Ok`, `found`: The bytes as a whole decode to a value in this grammar, and the call appends the minimal encoding of the value in this grammar.
/// - After an error, `none`: the bytes as a whole are no such encoding, unless the cause is `Memory`.
/// - `front`: The new bytes begin with the old ones.
///
/// ```text
/// ensures found { OnOk result
///     (MinimizesWhole G.grammar hints_payload bytes.now sink.old.items sink.new.items) }
/// ensures none { IfErr result
///     (λ e. e.cause ≢ Memory → RejectsWhole hints_payload (padded_of G.grammar) bytes.now)
///     }
/// ensures front { IsFrontOf sink.old.items sink.new.items }
/// ```
///
/// Definitions: [`MinimizesWhole`](crate::definitions::base::minimal::MinimizesWhole), [`hints_payload`](crate::definitions::custom::hints::hints_payload), [`RejectsWhole`](crate::definitions::base::continuing::RejectsWhole), [`padded_of`](crate::definitions::base::numbers::padded_of), [`IsFrontOf`](crate::definitions::base::minimal::IsFrontOf). [How to read clauses](crate::definitions).
pub fn minimize_hints<'a, A: Allocator + Copy, G: Grammar, B: Sink>(
    bytes: &'a [u8],
    alloc: A,
    sink: &mut B,
) -> Result<(), DecodeError> {
    walk_hints::<A, G, _>(bytes, alloc, sink)
}

/// Appends the minimal encoding, in the grammar `G`, of the payload of an instruction frequency
/// section. After an error, part of it may follow the old bytes of the sink.
///
/// # Errors
///
/// Every error except `Memory` means that the bytes are not such a payload.
///
/// # Examples
///
/// ```
/// use dolzhytik::fallible::{Global, minimize_frequencies};
/// use dolzhytik::reader::Standard;
///
/// // The size of the one hint has two bytes: offset 5, frequency 32.
/// let payload = b"\x18metadata.code.instr_freq\x01\x00\x01\x05\x81\x00\x20";
/// let mut minimal = vec![];
/// minimize_frequencies::<_, Standard, _>(payload, Global, &mut minimal)?;
/// assert_eq!(minimal, *b"\x18metadata.code.instr_freq\x01\x00\x01\x05\x01\x20");
/// # Ok::<(), dolzhytik::reader::DecodeError>(())
/// ```
///
/// # Proved
///
/// - After `Ok`, `found`: The bytes as a whole decode to a value in this grammar, and the call appends the minimal encoding of the value in this grammar.
/// - After an error, `none`: the bytes as a whole are no such encoding, unless the cause is `Memory`.
/// - `front`: The new bytes begin with the old ones.
///
/// ```text
/// ensures found { OnOk result
///     (MinimizesWhole G.grammar frequencies_payload bytes.now sink.old.items
///         sink.new.items) }
/// ensures none { IfErr result
///     (λ e. e.cause ≢ Memory → RejectsWhole frequencies_payload
///         (padded_of G.grammar) bytes.now) }
/// ensures front { IsFrontOf sink.old.items sink.new.items }
/// ```
///
/// Definitions: [`MinimizesWhole`](crate::definitions::base::minimal::MinimizesWhole), [`frequencies_payload`](crate::definitions::custom::code_metadata::frequencies_payload), [`RejectsWhole`](crate::definitions::base::continuing::RejectsWhole), [`padded_of`](crate::definitions::base::numbers::padded_of), [`IsFrontOf`](crate::definitions::base::minimal::IsFrontOf). [How to read clauses](crate::definitions).
pub fn minimize_frequencies<'a, A: Allocator + Copy, G: Grammar, B: Sink>(
    bytes: &'a [u8],
    alloc: A,
    sink: &mut B,
) -> Result<(), DecodeError> {
    walk_frequencies::<A, G, _>(bytes, alloc, sink)
}

/// Appends the minimal encoding, in the grammar `G`, of the payload of a compilation order section.
/// After an error, part of it may follow the old bytes of the sink.
///
/// # Errors
///
/// Every error except `Memory` means that the bytes are not such a payload.
///
/// # Examples
///
/// ```
/// use dolzhytik::fallible::{Global, minimize_orders};
/// use dolzhytik::reader::Standard;
///
/// // The order of function 0, at offset 0, has two bytes.
/// let payload = b"\x1fmetadata.code.compilation_order\x01\x00\x01\x00\x02\x83\x00";
/// let mut minimal = vec![];
/// minimize_orders::<_, Standard, _>(payload, Global, &mut minimal)?;
/// assert_eq!(minimal, *b"\x1fmetadata.code.compilation_order\x01\x00\x01\x00\x01\x03");
/// # Ok::<(), dolzhytik::reader::DecodeError>(())
/// ```
///
/// # Proved
///
/// - After `Ok`, `found`: The bytes as a whole decode to a value in this grammar, and the call appends the minimal encoding of the value in this grammar.
/// - After an error, `none`: the bytes as a whole are no such encoding, unless the cause is `Memory`.
/// - `front`: The new bytes begin with the old ones.
///
/// ```text
/// ensures found { OnOk result
///     (MinimizesWhole G.grammar orders_payload bytes.now sink.old.items sink.new.items) }
/// ensures none { IfErr result
///     (λ e. e.cause ≢ Memory → RejectsWhole orders_payload
///         (padded_of G.grammar) bytes.now) }
/// ensures front { IsFrontOf sink.old.items sink.new.items }
/// ```
///
/// Definitions: [`MinimizesWhole`](crate::definitions::base::minimal::MinimizesWhole), [`orders_payload`](crate::definitions::custom::code_metadata::orders_payload), [`RejectsWhole`](crate::definitions::base::continuing::RejectsWhole), [`padded_of`](crate::definitions::base::numbers::padded_of), [`IsFrontOf`](crate::definitions::base::minimal::IsFrontOf). [How to read clauses](crate::definitions).
pub fn minimize_orders<'a, A: Allocator + Copy, G: Grammar, B: Sink>(
    bytes: &'a [u8],
    alloc: A,
    sink: &mut B,
) -> Result<(), DecodeError> {
    walk_orders::<A, G, _>(bytes, alloc, sink)
}

/// Appends the minimal encoding, in the grammar `G`, of the payload of a call target section. After
/// an error, part of it may follow the old bytes of the sink.
///
/// # Errors
///
/// Every error except `Memory` means that the bytes are not such a payload.
///
/// # Examples
///
/// ```
/// use dolzhytik::fallible::{Global, minimize_call_targets};
/// use dolzhytik::reader::Standard;
///
/// // The call at offset 5 has one target, function 7, whose index has two bytes.
/// let payload = b"\x1ametadata.code.call_targets\x01\x00\x01\x05\x03\x87\x00\x5a";
/// let mut minimal = vec![];
/// minimize_call_targets::<_, Standard, _>(payload, Global, &mut minimal)?;
/// assert_eq!(minimal, *b"\x1ametadata.code.call_targets\x01\x00\x01\x05\x02\x07\x5a");
/// # Ok::<(), dolzhytik::reader::DecodeError>(())
/// ```
///
/// # Proved
///
/// - After `Ok`, `found`: The bytes as a whole decode to a value in this grammar, and the call appends the minimal encoding of the value in this grammar.
/// - After an error, `none`: the bytes as a whole are no such encoding, unless the cause is `Memory`.
/// - `front`: The new bytes begin with the old ones.
///
/// ```text
/// ensures found { OnOk result
///     (MinimizesWhole G.grammar call_targets_payload bytes.now sink.old.items
///         sink.new.items) }
/// ensures none { IfErr result
///     (λ e. e.cause ≢ Memory → RejectsWhole call_targets_payload
///         (padded_of G.grammar) bytes.now) }
/// ensures front { IsFrontOf sink.old.items sink.new.items }
/// ```
///
/// Definitions: [`MinimizesWhole`](crate::definitions::base::minimal::MinimizesWhole), [`call_targets_payload`](crate::definitions::custom::code_metadata::call_targets_payload), [`RejectsWhole`](crate::definitions::base::continuing::RejectsWhole), [`padded_of`](crate::definitions::base::numbers::padded_of), [`IsFrontOf`](crate::definitions::base::minimal::IsFrontOf). [How to read clauses](crate::definitions).
pub fn minimize_call_targets<'a, A: Allocator + Copy, G: Grammar, B: Sink>(
    bytes: &'a [u8],
    alloc: A,
    sink: &mut B,
) -> Result<(), DecodeError> {
    walk_call_targets::<A, G, _>(bytes, alloc, sink)
}

/// Appends the minimal encoding, in the grammar `G`, of the payload of a relocation section. After
/// an error, part of it may follow the old bytes of the sink. The offsets of the relocations stay
/// as they are, even if the section that they refer to is minimized too.
///
/// # Errors
///
/// Every error except `Memory` means that the bytes are not such a payload.
///
/// # Examples
///
/// ```
/// use dolzhytik::fallible::{Global, minimize_relocations};
/// use dolzhytik::reader::Standard;
///
/// // The index of the relocated section, 3, has two bytes.
/// let payload = b"\x0areloc.CODE\x83\x00\x01\x00\x04\x00";
/// let mut minimal = vec![];
/// minimize_relocations::<_, Standard, _>(payload, Global, &mut minimal)?;
/// assert_eq!(minimal, *b"\x0areloc.CODE\x03\x01\x00\x04\x00");
/// # Ok::<(), dolzhytik::reader::DecodeError>(())
/// ```
///
/// # Proved
///
/// - After `Ok`, `found`: The bytes as a whole decode to a value in this grammar, and the call appends the minimal encoding of the value in this grammar.
/// - After an error, `none`: the bytes as a whole are no such encoding, unless the cause is `Memory`.
/// - `front`: The new bytes begin with the old ones.
///
/// ```text
/// ensures found { OnOk result
///     (MinimizesWhole G.grammar relocations_payload bytes.now sink.old.items
///         sink.new.items) }
/// ensures none { IfErr result
///     (λ e. e.cause ≢ Memory → RejectsWhole relocations_payload
///         (padded_of G.grammar) bytes.now) }
/// ensures front { IsFrontOf sink.old.items sink.new.items }
/// ```
///
/// Definitions: [`MinimizesWhole`](crate::definitions::base::minimal::MinimizesWhole), [`relocations_payload`](crate::definitions::custom::relocations::relocations_payload), [`RejectsWhole`](crate::definitions::base::continuing::RejectsWhole), [`padded_of`](crate::definitions::base::numbers::padded_of), [`IsFrontOf`](crate::definitions::base::minimal::IsFrontOf). [How to read clauses](crate::definitions).
pub fn minimize_relocations<'a, A: Allocator + Copy, G: Grammar, B: Sink>(
    bytes: &'a [u8],
    alloc: A,
    sink: &mut B,
) -> Result<(), DecodeError> {
    walk_relocations::<A, G, _>(bytes, alloc, sink)
}

/// Appends the minimal encoding, in the grammar `G`, of the payload of a core dump's modules
/// section. After an error, part of it may follow the old bytes of the sink.
///
/// # Errors
///
/// Every error except `Memory` means that the bytes are not such a payload.
///
/// # Examples
///
/// ```
/// use dolzhytik::fallible::{Global, minimize_modules};
/// use dolzhytik::reader::Standard;
///
/// // The number of modules has two bytes.
/// let payload = b"\x0bcoremodules\x81\x00\x00\x01m";
/// let mut minimal = vec![];
/// minimize_modules::<_, Standard, _>(payload, Global, &mut minimal)?;
/// assert_eq!(minimal, *b"\x0bcoremodules\x01\x00\x01m");
/// # Ok::<(), dolzhytik::reader::DecodeError>(())
/// ```
///
/// # Proved
///
/// - After `Ok`, `found`: The bytes as a whole decode to a value in this grammar, and the call appends the minimal encoding of the value in this grammar.
/// - After an error, `none`: the bytes as a whole are no such encoding, unless the cause is `Memory`.
/// - `front`: The new bytes begin with the old ones.
///
/// ```text
/// ensures found { OnOk result
///     (MinimizesWhole G.grammar modules_payload bytes.now sink.old.items sink.new.items) }
/// ensures none { IfErr result
///     (λ e. e.cause ≢ Memory → RejectsWhole modules_payload
///         (padded_of G.grammar) bytes.now) }
/// ensures front { IsFrontOf sink.old.items sink.new.items }
/// ```
///
/// Definitions: [`MinimizesWhole`](crate::definitions::base::minimal::MinimizesWhole), [`modules_payload`](crate::definitions::custom::core_dumps::modules_payload), [`RejectsWhole`](crate::definitions::base::continuing::RejectsWhole), [`padded_of`](crate::definitions::base::numbers::padded_of), [`IsFrontOf`](crate::definitions::base::minimal::IsFrontOf). [How to read clauses](crate::definitions).
pub fn minimize_modules<'a, A: Allocator + Copy, G: Grammar, B: Sink>(
    bytes: &'a [u8],
    alloc: A,
    sink: &mut B,
) -> Result<(), DecodeError> {
    walk_modules::<A, G, _>(bytes, alloc, sink)
}

/// Appends the minimal encoding, in the grammar `G`, of the payload of a core dump's instances
/// section. After an error, part of it may follow the old bytes of the sink.
///
/// # Errors
///
/// Every error except `Memory` means that the bytes are not such a payload.
///
/// # Examples
///
/// ```
/// use dolzhytik::fallible::{Global, minimize_instances};
/// use dolzhytik::reader::Standard;
///
/// // The index of the module has two bytes. The instance has memory 0, and no globals.
/// let payload = b"\x0dcoreinstances\x01\x00\x80\x00\x01\x00\x00";
/// let mut minimal = vec![];
/// minimize_instances::<_, Standard, _>(payload, Global, &mut minimal)?;
/// assert_eq!(minimal, *b"\x0dcoreinstances\x01\x00\x00\x01\x00\x00");
/// # Ok::<(), dolzhytik::reader::DecodeError>(())
/// ```
///
/// # Proved
///
/// - After `Ok`, `found`: The bytes as a whole decode to a value in this grammar, and the call appends the minimal encoding of the value in this grammar.
/// - After an error, `none`: the bytes as a whole are no such encoding, unless the cause is `Memory`.
/// - `front`: The new bytes begin with the old ones.
///
/// ```text
/// ensures found { OnOk result
///     (MinimizesWhole G.grammar instances_payload bytes.now sink.old.items sink.new.items)
///     }
/// ensures none { IfErr result
///     (λ e. e.cause ≢ Memory → RejectsWhole instances_payload
///         (padded_of G.grammar) bytes.now) }
/// ensures front { IsFrontOf sink.old.items sink.new.items }
/// ```
///
/// Definitions: [`MinimizesWhole`](crate::definitions::base::minimal::MinimizesWhole), [`instances_payload`](crate::definitions::custom::core_dumps::instances_payload), [`RejectsWhole`](crate::definitions::base::continuing::RejectsWhole), [`padded_of`](crate::definitions::base::numbers::padded_of), [`IsFrontOf`](crate::definitions::base::minimal::IsFrontOf). [How to read clauses](crate::definitions).
pub fn minimize_instances<'a, A: Allocator + Copy, G: Grammar, B: Sink>(
    bytes: &'a [u8],
    alloc: A,
    sink: &mut B,
) -> Result<(), DecodeError> {
    walk_instances::<A, G, _>(bytes, alloc, sink)
}

/// Appends the minimal encoding, in the grammar `G`, of the payload of a core dump's stack section.
/// After an error, part of it may follow the old bytes of the sink.
///
/// # Errors
///
/// Every error except `Memory` means that the bytes are not such a payload.
///
/// # Examples
///
/// ```
/// use dolzhytik::fallible::{Global, minimize_stack};
/// use dolzhytik::reader::Standard;
///
/// // The offset in the function of the one frame, 5, has two bytes. The frame has one local.
/// let payload = b"\x09corestack\x00\x01t\x01\x00\x00\x01\x85\x00\x01\x7f\x07\x00";
/// let mut minimal = vec![];
/// minimize_stack::<_, Standard, _>(payload, Global, &mut minimal)?;
/// assert_eq!(minimal, *b"\x09corestack\x00\x01t\x01\x00\x00\x01\x05\x01\x7f\x07\x00");
/// # Ok::<(), dolzhytik::reader::DecodeError>(())
/// ```
///
/// # Proved
///
/// - After `Ok`, `found`: The bytes as a whole decode to a value in this grammar, and the call appends the minimal encoding of the value in this grammar.
/// - After an error, `none`: the bytes as a whole are no such encoding, unless the cause is `Memory`.
/// - `front`: The new bytes begin with the old ones.
///
/// ```text
/// ensures found { OnOk result
///     (MinimizesWhole G.grammar stack_payload bytes.now sink.old.items sink.new.items) }
/// ensures none { IfErr result
///     (λ e. e.cause ≢ Memory → RejectsWhole stack_payload (padded_of G.grammar) bytes.now)
///     }
/// ensures front { IsFrontOf sink.old.items sink.new.items }
/// ```
///
/// Definitions: [`MinimizesWhole`](crate::definitions::base::minimal::MinimizesWhole), [`stack_payload`](crate::definitions::custom::core_stacks::stack_payload), [`RejectsWhole`](crate::definitions::base::continuing::RejectsWhole), [`padded_of`](crate::definitions::base::numbers::padded_of), [`IsFrontOf`](crate::definitions::base::minimal::IsFrontOf). [How to read clauses](crate::definitions).
pub fn minimize_stack<'a, A: Allocator + Copy, G: Grammar, B: Sink>(
    bytes: &'a [u8],
    alloc: A,
    sink: &mut B,
) -> Result<(), DecodeError> {
    walk_stack::<A, G, _>(bytes, alloc, sink)
}
