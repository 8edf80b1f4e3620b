// Written by tools/to-rust from crates/wasm_custom/src/checks.rt: change that.
// Checks that payloads of custom sections decode. No item is kept.

use crate::custom::call_targets::walk_call_targets;
use crate::custom::compilation_orders::walk_orders;
use crate::custom::core_walks::{walk_instances, walk_modules, walk_stack};
use crate::custom::dylink_walks::walk_dylink;
use crate::custom::instruction_frequencies::walk_frequencies;
use crate::custom::item_walks::{walk_features, walk_hints, walk_producers, walk_relocations};
use crate::custom::link_walks::walk_links;
use crate::custom::name_walks::walk_names;
use crate::alloc::Allocator;
use crate::base::{DecodeError, Discard, Grammar};

/// Checks that the bytes are the payload of a name section, in the grammar `G`. No item is kept.
///
/// # Errors
///
/// An error means that the bytes are not such a payload.
///
/// # Examples
///
/// ```
/// use dolzhytik::fallible::{Global, check_names};
/// use dolzhytik::reader::Standard;
///
/// // The name of the module is "m".
/// let payload = b"\x04name\x00\x02\x01m";
/// check_names::<_, Standard>(payload, Global)?;
/// // Without its last byte, it is no such payload.
/// assert!(check_names::<_, Standard>(&payload[..payload.len() - 1], Global).is_err());
/// # Ok::<(), dolzhytik::reader::DecodeError>(())
/// ```
///
/// # Proved
///
/// After `Ok`: `found`, the bytes as a whole are such an encoding. After an error: `none`, the bytes as a whole are no such encoding, unless the cause is `Memory`.
///
/// ```text
/// ensures found { OnOk result
///     ((x : List NameModel) × name_payload (padded_of G.grammar) bytes.now x) }
/// ensures none { IfErr result
///     (λ e. e.cause ≢ Memory → RejectsWhole name_payload (padded_of G.grammar) bytes.now)
///     }
/// ensures no_memory { IfErr result (λ e. e.cause ≢ Memory) }
/// ```
///
/// Definitions: [`NameModel`](crate::definitions::custom::names::NameItem), [`name_payload`](crate::definitions::custom::names::name_payload), [`padded_of`](crate::definitions::base::numbers::padded_of), [`RejectsWhole`](crate::definitions::base::continuing::RejectsWhole). [How to read clauses](crate::definitions).
pub fn check_names<'a, A: Allocator + Copy, G: Grammar>(
    bytes: &'a [u8],
    alloc: A,
) -> Result<(), DecodeError> {
    walk_names::<A, G, _>(bytes, alloc, &mut Discard)
}

/// Checks that the bytes are the payload of a linking section, in the grammar `G`. No item is kept.
///
/// # Errors
///
/// An error means that the bytes are not such a payload.
///
/// # Examples
///
/// ```
/// use dolzhytik::fallible::{Global, check_links};
/// use dolzhytik::reader::Standard;
///
/// // Version 2, and one init function of priority 1, symbol 0.
/// let payload = b"\x07linking\x02\x06\x03\x01\x01\x00";
/// check_links::<_, Standard>(payload, Global)?;
/// // Without its last byte, it is no such payload.
/// assert!(check_links::<_, Standard>(&payload[..payload.len() - 1], Global).is_err());
/// # Ok::<(), dolzhytik::reader::DecodeError>(())
/// ```
///
/// # Proved
///
/// After `Ok`: `found`, the bytes as a whole are such an encoding. After an error: `none`, the bytes as a whole are no such encoding, unless the cause is `Memory`.
///
/// ```text
/// ensures found { OnOk result
///     ((x : List LinkModel) × linking_payload (padded_of G.grammar) bytes.now x) }
/// ensures none { IfErr result
///     (λ e. e.cause ≢ Memory → RejectsWhole linking_payload
///         (padded_of G.grammar) bytes.now) }
/// ensures no_memory { IfErr result (λ e. e.cause ≢ Memory) }
/// ```
///
/// Definitions: [`LinkModel`](crate::definitions::custom::linking::LinkItem), [`linking_payload`](crate::definitions::custom::linking::linking_payload), [`padded_of`](crate::definitions::base::numbers::padded_of), [`RejectsWhole`](crate::definitions::base::continuing::RejectsWhole). [How to read clauses](crate::definitions).
pub fn check_links<'a, A: Allocator + Copy, G: Grammar>(
    bytes: &'a [u8],
    alloc: A,
) -> Result<(), DecodeError> {
    walk_links::<A, G, _>(bytes, alloc, &mut Discard)
}

/// Checks that the bytes are the payload of a dynamic library's section, in the grammar `G`. No
/// item is kept.
///
/// # Errors
///
/// An error means that the bytes are not such a payload.
///
/// # Examples
///
/// ```
/// use dolzhytik::fallible::{Global, check_dylink};
/// use dolzhytik::reader::Standard;
///
/// // One library is needed.
/// let payload = b"\x08dylink.0\x02\x09\x01\x07libm.so";
/// check_dylink::<_, Standard>(payload, Global)?;
/// // Without its last byte, it is no such payload.
/// assert!(check_dylink::<_, Standard>(&payload[..payload.len() - 1], Global).is_err());
/// # Ok::<(), dolzhytik::reader::DecodeError>(())
/// ```
///
/// # Proved
///
/// After `Ok`: `found`, the bytes as a whole are such an encoding. After an error: `none`, the bytes as a whole are no such encoding, unless the cause is `Memory`.
///
/// ```text
/// ensures found { OnOk result
///     ((x : List DylinkModel) × dylink_payload (padded_of G.grammar) bytes.now x) }
/// ensures none { IfErr result
///     (λ e. e.cause ≢ Memory → RejectsWhole dylink_payload
///         (padded_of G.grammar) bytes.now) }
/// ensures no_memory { IfErr result (λ e. e.cause ≢ Memory) }
/// ```
///
/// Definitions: [`DylinkModel`](crate::definitions::custom::dylink::DylinkItem), [`dylink_payload`](crate::definitions::custom::dylink::dylink_payload), [`padded_of`](crate::definitions::base::numbers::padded_of), [`RejectsWhole`](crate::definitions::base::continuing::RejectsWhole). [How to read clauses](crate::definitions).
pub fn check_dylink<'a, A: Allocator + Copy, G: Grammar>(
    bytes: &'a [u8],
    alloc: A,
) -> Result<(), DecodeError> {
    walk_dylink::<A, G, _>(bytes, alloc, &mut Discard)
}

/// Checks that the bytes are the payload of a producers section, in the grammar `G`. No item is
/// kept.
///
/// # Errors
///
/// An error means that the bytes are not such a payload.
///
/// # Examples
///
/// ```
/// use dolzhytik::fallible::{Global, check_producers};
/// use dolzhytik::reader::Standard;
///
/// // One field, "sdk", with one value: name "e", version "1".
/// let payload = b"\x09producers\x01\x03sdk\x01\x01e\x011";
/// check_producers::<_, Standard>(payload, Global)?;
/// // Without its last byte, it is no such payload.
/// assert!(check_producers::<_, Standard>(&payload[..payload.len() - 1], Global).is_err());
/// # Ok::<(), dolzhytik::reader::DecodeError>(())
/// ```
///
/// # Proved
///
/// After `Ok`: `found`, the bytes as a whole are such an encoding. After an error: `none`, the bytes as a whole are no such encoding, unless the cause is `Memory`.
///
/// ```text
/// ensures found { OnOk result
///     ((x : List Field) × producers_payload (padded_of G.grammar) bytes.now x) }
/// ensures none { IfErr result
///     (λ e. e.cause ≢ Memory → RejectsWhole producers_payload
///         (padded_of G.grammar) bytes.now) }
/// ensures no_memory { IfErr result (λ e. e.cause ≢ Memory) }
/// ```
///
/// Definitions: [`Field`](crate::definitions::custom::producers::Field), [`producers_payload`](crate::definitions::custom::producers::producers_payload), [`padded_of`](crate::definitions::base::numbers::padded_of), [`RejectsWhole`](crate::definitions::base::continuing::RejectsWhole). [How to read clauses](crate::definitions).
pub fn check_producers<'a, A: Allocator + Copy, G: Grammar>(
    bytes: &'a [u8],
    alloc: A,
) -> Result<(), DecodeError> {
    walk_producers::<A, G, _>(bytes, alloc, &mut Discard)
}

/// Checks that the bytes are the payload of a target features section, in the grammar `G`. No item
/// is kept.
///
/// # Errors
///
/// An error means that the bytes are not such a payload.
///
/// # Examples
///
/// ```
/// use dolzhytik::fallible::{Global, check_features};
/// use dolzhytik::reader::Standard;
///
/// // One feature, which is used.
/// let payload = b"\x0ftarget_features\x01+\x07atomics";
/// check_features::<_, Standard>(payload, Global)?;
/// // Without its last byte, it is no such payload.
/// assert!(check_features::<_, Standard>(&payload[..payload.len() - 1], Global).is_err());
/// # Ok::<(), dolzhytik::reader::DecodeError>(())
/// ```
///
/// # Proved
///
/// After `Ok`: `found`, the bytes as a whole are such an encoding. After an error: `none`, the bytes as a whole are no such encoding, unless the cause is `Memory`.
///
/// ```text
/// ensures found { OnOk result
///     ((x : List Feature) × features_payload (padded_of G.grammar) bytes.now x) }
/// ensures none { IfErr result
///     (λ e. e.cause ≢ Memory → RejectsWhole features_payload
///         (padded_of G.grammar) bytes.now) }
/// ensures no_memory { IfErr result (λ e. e.cause ≢ Memory) }
/// ```
///
/// Definitions: [`Feature`](crate::definitions::custom::target_features::Feature), [`features_payload`](crate::definitions::custom::target_features::features_payload), [`padded_of`](crate::definitions::base::numbers::padded_of), [`RejectsWhole`](crate::definitions::base::continuing::RejectsWhole). [How to read clauses](crate::definitions).
pub fn check_features<'a, A: Allocator + Copy, G: Grammar>(
    bytes: &'a [u8],
    alloc: A,
) -> Result<(), DecodeError> {
    walk_features::<A, G, _>(bytes, alloc, &mut Discard)
}

/// Checks that the bytes are the payload of a branch hint section, in the grammar `G`. No item is
/// kept.
///
/// # Errors
///
/// An error means that the bytes are not such a payload.
///
/// # Examples
///
/// ```
/// use dolzhytik::fallible::{Global, check_hints};
/// use dolzhytik::reader::Standard;
///
/// // Function 0 has one hint, for the branch at offset 5.
/// let payload = b"\x19metadata.code.branch_hint\x01\x00\x01\x05\x01\x01";
/// check_hints::<_, Standard>(payload, Global)?;
/// // Without its last byte, it is no such payload.
/// assert!(check_hints::<_, Standard>(&payload[..payload.len() - 1], Global).is_err());
/// # Ok::<(), dolzhytik::reader::DecodeError>(())
/// ```
///
/// # Proved
///
/// After `Ok`: `found`, the bytes as a whole are such an encoding. After an error: `none`, the bytes as a whole are no such encoding, unless the cause is `Memory`.
///
/// ```text
/// ensures found { OnOk result
///     ((x : List Hints) × hints_payload (padded_of G.grammar) bytes.now x) }
/// ensures none { IfErr result
///     (λ e. e.cause ≢ Memory → RejectsWhole hints_payload (padded_of G.grammar) bytes.now)
///     }
/// ensures no_memory { IfErr result (λ e. e.cause ≢ Memory) }
/// ```
///
/// Definitions: [`Hints`](crate::definitions::custom::hints::Hints), [`hints_payload`](crate::definitions::custom::hints::hints_payload), [`padded_of`](crate::definitions::base::numbers::padded_of), [`RejectsWhole`](crate::definitions::base::continuing::RejectsWhole). [How to read clauses](crate::definitions).
pub fn check_hints<'a, A: Allocator + Copy, G: Grammar>(
    bytes: &'a [u8],
    alloc: A,
) -> Result<(), DecodeError> {
    walk_hints::<A, G, _>(bytes, alloc, &mut Discard)
}

/// Checks that the bytes are the payload of an instruction frequency section, in the grammar `G`.
/// No item is kept.
///
/// # Errors
///
/// An error means that the bytes are not such a payload.
///
/// # Examples
///
/// ```
/// use dolzhytik::fallible::{Global, check_frequencies};
/// use dolzhytik::reader::Standard;
///
/// // Function 0 has one hint.
/// let payload = b"\x18metadata.code.instr_freq\x01\x00\x01\x05\x01\x20";
/// check_frequencies::<_, Standard>(payload, Global)?;
/// // The last byte is missing.
/// assert!(check_frequencies::<_, Standard>(&payload[..payload.len() - 1], Global).is_err());
/// # Ok::<(), dolzhytik::reader::DecodeError>(())
/// ```
///
/// # Proved
///
/// After `Ok`: `found`, the bytes as a whole are such an encoding. After an error: `none`, the bytes as a whole are no such encoding, unless the cause is `Memory`.
///
/// ```text
/// ensures found { OnOk result
///     ((x : List Frequencies) × frequencies_payload (padded_of G.grammar) bytes.now x) }
/// ensures none { IfErr result
///     (λ e. e.cause ≢ Memory → RejectsWhole frequencies_payload
///         (padded_of G.grammar) bytes.now) }
/// ensures no_memory { IfErr result (λ e. e.cause ≢ Memory) }
/// ```
///
/// Definitions: [`Frequencies`](crate::definitions::custom::code_metadata::Frequencies), [`frequencies_payload`](crate::definitions::custom::code_metadata::frequencies_payload), [`padded_of`](crate::definitions::base::numbers::padded_of), [`RejectsWhole`](crate::definitions::base::continuing::RejectsWhole). [How to read clauses](crate::definitions).
pub fn check_frequencies<'a, A: Allocator + Copy, G: Grammar>(
    bytes: &'a [u8],
    alloc: A,
) -> Result<(), DecodeError> {
    walk_frequencies::<A, G, _>(bytes, alloc, &mut Discard)
}

/// Checks that the bytes are the payload of a compilation order section, in the grammar `G`. No
/// item is kept.
///
/// # Errors
///
/// An error means that the bytes are not such a payload.
///
/// # Examples
///
/// ```
/// use dolzhytik::fallible::{Global, check_orders};
/// use dolzhytik::reader::Standard;
///
/// // Function 0 has one hint.
/// let payload = b"\x1fmetadata.code.compilation_order\x01\x00\x01\x00\x01\x03";
/// check_orders::<_, Standard>(payload, Global)?;
/// // The last byte is missing.
/// assert!(check_orders::<_, Standard>(&payload[..payload.len() - 1], Global).is_err());
/// # Ok::<(), dolzhytik::reader::DecodeError>(())
/// ```
///
/// # Proved
///
/// After `Ok`: `found`, the bytes as a whole are such an encoding. After an error: `none`, the bytes as a whole are no such encoding, unless the cause is `Memory`.
///
/// ```text
/// ensures found { OnOk result
///     ((x : List Orders) × orders_payload (padded_of G.grammar) bytes.now x) }
/// ensures none { IfErr result
///     (λ e. e.cause ≢ Memory → RejectsWhole orders_payload
///         (padded_of G.grammar) bytes.now) }
/// ensures no_memory { IfErr result (λ e. e.cause ≢ Memory) }
/// ```
///
/// Definitions: [`Orders`](crate::definitions::custom::code_metadata::Orders), [`orders_payload`](crate::definitions::custom::code_metadata::orders_payload), [`padded_of`](crate::definitions::base::numbers::padded_of), [`RejectsWhole`](crate::definitions::base::continuing::RejectsWhole). [How to read clauses](crate::definitions).
pub fn check_orders<'a, A: Allocator + Copy, G: Grammar>(
    bytes: &'a [u8],
    alloc: A,
) -> Result<(), DecodeError> {
    walk_orders::<A, G, _>(bytes, alloc, &mut Discard)
}

/// Checks that the bytes are the payload of a call target section, in the grammar `G`. No item is
/// kept.
///
/// # Errors
///
/// An error means that the bytes are not such a payload.
///
/// # Examples
///
/// ```
/// use dolzhytik::fallible::{Global, check_call_targets};
/// use dolzhytik::reader::Standard;
///
/// // Function 0 has one hint.
/// let payload = b"\x1ametadata.code.call_targets\x01\x00\x01\x05\x02\x07\x5a";
/// check_call_targets::<_, Standard>(payload, Global)?;
/// // The last byte is missing.
/// assert!(check_call_targets::<_, Standard>(&payload[..payload.len() - 1], Global).is_err());
/// # Ok::<(), dolzhytik::reader::DecodeError>(())
/// ```
///
/// # Proved
///
/// After `Ok`: `found`, the bytes as a whole are such an encoding. After an error: `none`, the bytes as a whole are no such encoding, unless the cause is `Memory`.
///
/// ```text
/// ensures found { OnOk result
///     ((x : List HintedTargets) × call_targets_payload (padded_of G.grammar) bytes.now x)
///     }
/// ensures none { IfErr result
///     (λ e. e.cause ≢ Memory → RejectsWhole call_targets_payload
///         (padded_of G.grammar) bytes.now) }
/// ensures no_memory { IfErr result (λ e. e.cause ≢ Memory) }
/// ```
///
/// Definitions: [`HintedTargets`](crate::definitions::custom::code_metadata::HintedTargets), [`call_targets_payload`](crate::definitions::custom::code_metadata::call_targets_payload), [`padded_of`](crate::definitions::base::numbers::padded_of), [`RejectsWhole`](crate::definitions::base::continuing::RejectsWhole). [How to read clauses](crate::definitions).
pub fn check_call_targets<'a, A: Allocator + Copy, G: Grammar>(
    bytes: &'a [u8],
    alloc: A,
) -> Result<(), DecodeError> {
    walk_call_targets::<A, G, _>(bytes, alloc, &mut Discard)
}

/// Checks that the bytes are the payload of a relocation section, in the grammar `G`. No item is
/// kept.
///
/// # Errors
///
/// An error means that the bytes are not such a payload.
///
/// # Examples
///
/// ```
/// use dolzhytik::fallible::{Global, check_relocations};
/// use dolzhytik::reader::Standard;
///
/// // One relocation of the section at index 3.
/// let payload = b"\x0areloc.CODE\x03\x01\x00\x04\x00";
/// check_relocations::<_, Standard>(payload, Global)?;
/// // Without its last byte, it is no such payload.
/// assert!(check_relocations::<_, Standard>(&payload[..payload.len() - 1], Global).is_err());
/// # Ok::<(), dolzhytik::reader::DecodeError>(())
/// ```
///
/// # Proved
///
/// After `Ok`: `found`, the bytes as a whole are such an encoding. After an error: `none`, the bytes as a whole are no such encoding, unless the cause is `Memory`.
///
/// ```text
/// ensures found { OnOk result
///     ((x : Relocations) × relocations_payload (padded_of G.grammar) bytes.now x) }
/// ensures none { IfErr result
///     (λ e. e.cause ≢ Memory → RejectsWhole relocations_payload
///         (padded_of G.grammar) bytes.now) }
/// ensures no_memory { IfErr result (λ e. e.cause ≢ Memory) }
/// ```
///
/// Definitions: [`Relocations`](crate::definitions::custom::relocations::Relocations), [`relocations_payload`](crate::definitions::custom::relocations::relocations_payload), [`padded_of`](crate::definitions::base::numbers::padded_of), [`RejectsWhole`](crate::definitions::base::continuing::RejectsWhole). [How to read clauses](crate::definitions).
pub fn check_relocations<'a, A: Allocator + Copy, G: Grammar>(
    bytes: &'a [u8],
    alloc: A,
) -> Result<(), DecodeError> {
    walk_relocations::<A, G, _>(bytes, alloc, &mut Discard)
}

/// Checks that the bytes are the payload of a core dump's modules section, in the grammar `G`. No
/// item is kept.
///
/// # Errors
///
/// An error means that the bytes are not such a payload.
///
/// # Examples
///
/// ```
/// use dolzhytik::fallible::{Global, check_modules};
/// use dolzhytik::reader::Standard;
///
/// // One module, "m".
/// let payload = b"\x0bcoremodules\x01\x00\x01m";
/// check_modules::<_, Standard>(payload, Global)?;
/// // Without its last byte, it is no such payload.
/// assert!(check_modules::<_, Standard>(&payload[..payload.len() - 1], Global).is_err());
/// # Ok::<(), dolzhytik::reader::DecodeError>(())
/// ```
///
/// # Proved
///
/// After `Ok`: `found`, the bytes as a whole are such an encoding. After an error: `none`, the bytes as a whole are no such encoding, unless the cause is `Memory`.
///
/// ```text
/// ensures found { OnOk result
///     ((x : List (List ℕ)) × modules_payload (padded_of G.grammar) bytes.now x) }
/// ensures none { IfErr result
///     (λ e. e.cause ≢ Memory → RejectsWhole modules_payload
///         (padded_of G.grammar) bytes.now) }
/// ensures no_memory { IfErr result (λ e. e.cause ≢ Memory) }
/// ```
///
/// Definitions: [`modules_payload`](crate::definitions::custom::core_dumps::modules_payload), [`padded_of`](crate::definitions::base::numbers::padded_of), [`RejectsWhole`](crate::definitions::base::continuing::RejectsWhole). [How to read clauses](crate::definitions).
pub fn check_modules<'a, A: Allocator + Copy, G: Grammar>(
    bytes: &'a [u8],
    alloc: A,
) -> Result<(), DecodeError> {
    walk_modules::<A, G, _>(bytes, alloc, &mut Discard)
}

/// Checks that the bytes are the payload of a core dump's instances section, in the grammar `G`. No
/// item is kept.
///
/// # Errors
///
/// An error means that the bytes are not such a payload.
///
/// # Examples
///
/// ```
/// use dolzhytik::fallible::{Global, check_instances};
/// use dolzhytik::reader::Standard;
///
/// // One instance of module 0, with memory 0 and no globals.
/// let payload = b"\x0dcoreinstances\x01\x00\x00\x01\x00\x00";
/// check_instances::<_, Standard>(payload, Global)?;
/// // Without its last byte, it is no such payload.
/// assert!(check_instances::<_, Standard>(&payload[..payload.len() - 1], Global).is_err());
/// # Ok::<(), dolzhytik::reader::DecodeError>(())
/// ```
///
/// # Proved
///
/// After `Ok`: `found`, the bytes as a whole are such an encoding. After an error: `none`, the bytes as a whole are no such encoding, unless the cause is `Memory`.
///
/// ```text
/// ensures found { OnOk result
///     ((x : List Instance) × instances_payload (padded_of G.grammar) bytes.now x) }
/// ensures none { IfErr result
///     (λ e. e.cause ≢ Memory → RejectsWhole instances_payload
///         (padded_of G.grammar) bytes.now) }
/// ensures no_memory { IfErr result (λ e. e.cause ≢ Memory) }
/// ```
///
/// Definitions: [`Instance`](crate::definitions::custom::core_dumps::Instance), [`instances_payload`](crate::definitions::custom::core_dumps::instances_payload), [`padded_of`](crate::definitions::base::numbers::padded_of), [`RejectsWhole`](crate::definitions::base::continuing::RejectsWhole). [How to read clauses](crate::definitions).
pub fn check_instances<'a, A: Allocator + Copy, G: Grammar>(
    bytes: &'a [u8],
    alloc: A,
) -> Result<(), DecodeError> {
    walk_instances::<A, G, _>(bytes, alloc, &mut Discard)
}

/// Checks that the bytes are the payload of a core dump's stack section, in the grammar `G`. No
/// item is kept.
///
/// # Errors
///
/// An error means that the bytes are not such a payload.
///
/// # Examples
///
/// ```
/// use dolzhytik::fallible::{Global, check_stack};
/// use dolzhytik::reader::Standard;
///
/// // The stack of thread "t": one frame with one local.
/// let payload = b"\x09corestack\x00\x01t\x01\x00\x00\x01\x05\x01\x7f\x07\x00";
/// check_stack::<_, Standard>(payload, Global)?;
/// // Without its last byte, it is no such payload.
/// assert!(check_stack::<_, Standard>(&payload[..payload.len() - 1], Global).is_err());
/// # Ok::<(), dolzhytik::reader::DecodeError>(())
/// ```
///
/// # Proved
///
/// After `Ok`: `found`, the bytes as a whole are such an encoding. After an error: `none`, the bytes as a whole are no such encoding, unless the cause is `Memory`.
///
/// ```text
/// ensures found { OnOk result
///     ((x : List ℕ × List StackFrame) × stack_payload (padded_of G.grammar) bytes.now x) }
/// ensures none { IfErr result
///     (λ e. e.cause ≢ Memory → RejectsWhole stack_payload (padded_of G.grammar) bytes.now)
///     }
/// ensures no_memory { IfErr result (λ e. e.cause ≢ Memory) }
/// ```
///
/// Definitions: [`StackFrame`](crate::definitions::custom::core_stacks::StackFrame), [`stack_payload`](crate::definitions::custom::core_stacks::stack_payload), [`padded_of`](crate::definitions::base::numbers::padded_of), [`RejectsWhole`](crate::definitions::base::continuing::RejectsWhole). [How to read clauses](crate::definitions).
pub fn check_stack<'a, A: Allocator + Copy, G: Grammar>(
    bytes: &'a [u8],
    alloc: A,
) -> Result<(), DecodeError> {
    walk_stack::<A, G, _>(bytes, alloc, &mut Discard)
}
