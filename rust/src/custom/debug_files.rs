// Written by tools/to-rust from crates/wasm_custom/src/debug_files.rt: change that.
// Custom sections that refer to debug information elsewhere: a source map, a file of DWARF, and the
// identity of the build.

use crate::vec::Sink;
use crate::custom::single::{append_single, encode_single, read_single, walk_single};
use crate::alloc::Allocator;
use crate::base::{DecodeError, Effect, Encode, Grammar, Result, Section, SectionId};

/// The `sourceMappingURL` section: the URL of the source map of a module.
///
/// ```
/// # fn example() -> Result<(), Box<dyn std::error::Error>> {
/// # use dolzhytik::{fallible::*, reader::*};
/// use dolzhytik::fallible::{Global, Module, SourceMappingUrl};
///
/// let mut module = Module::new(Global)?;
/// module.section(&SourceMappingUrl("a.wasm.map"))?;
/// # Ok(())
/// # }
/// # example().unwrap();
/// ```
///
/// [`Items::SourceMappingUrl`](crate::reader::Items::SourceMappingUrl) has the URL of a decoded
/// section.
///
/// # Examples
///
/// ```
/// use dolzhytik::fallible::{Encode, SourceMappingUrl};
///
/// let mut bytes = vec![];
/// SourceMappingUrl("a.map").encode(&mut bytes)?;
/// // Size 23: a name of 16 bytes, and the URL, of 5.
/// assert_eq!(bytes, *b"\x17\x10sourceMappingURL\x05a.map");
/// # Ok::<(), dolzhytik::fallible::Refused>(())
/// ```
#[derive(Clone, Copy, Debug)]
pub struct SourceMappingUrl<'a>(pub &'a str);

/// Encodes the size prefix, the name of the section, and the URL.
///
/// # Defined
///
/// ```text
/// encoding = { λ s. named_encoding source_map_name (size_prefixed_encoding s.0.now) }
/// encodable = { λ s. IsEncodableNamed source_map_name (size_prefixed_encoding s.0.now) }
/// decoding = { λ s. DecodesBack source_map_section (SaysText s.0.now)
///     (named_encoding source_map_name (size_prefixed_encoding s.0.now)) }
/// ```
///
/// Definitions: [`named_encoding`](crate::definitions::custom::customs::named_encoding), [`source_map_name`](crate::definitions::custom::debug_files::source_map_name), [`size_prefixed_encoding`](crate::definitions::base::encodings::size_prefixed_encoding), [`IsEncodableNamed`](crate::definitions::custom::customs::IsEncodableNamed), [`DecodesBack`](crate::definitions::base::calls::DecodesBack), [`source_map_section`](crate::definitions::custom::debug_files::source_map_section), [`SaysText`](crate::definitions::custom::debug_files::SaysText). [How to read clauses](crate::definitions).
impl Encode for SourceMappingUrl<'_> {
    fn encode<A: Sink>(&self, sink: &mut A) -> Result<()> {
        encode_single(sink, "sourceMappingURL", self.0.as_bytes())
    }
}

/// # Defined
///
/// ```text
/// id_of = { λ _. number_of ids.Custom }
/// Items = { List ℕ }
/// format = { source_map_section }
/// says = { λ s. SaysText s.0.now }
/// payload = { λ s. NamedPayload source_map_name (size_prefixed_encoding s.0.now) }
/// sized = { λ s bytes encodable pays. named_sized source_map_name
///     (size_prefixed_encoding s.0.now) bytes encodable pays }
/// decodes_back = { λ s promised. promised }
/// ```
///
/// Definitions: [`number_of`](crate::definitions::base::section_id::number_of), [`source_map_section`](crate::definitions::custom::debug_files::source_map_section), [`SaysText`](crate::definitions::custom::debug_files::SaysText), [`NamedPayload`](crate::definitions::custom::customs::NamedPayload), [`source_map_name`](crate::definitions::custom::debug_files::source_map_name), [`size_prefixed_encoding`](crate::definitions::base::encodings::size_prefixed_encoding), [`named_sized`](crate::definitions::custom::customs::named_sized). [How to read clauses](crate::definitions).
impl Section for SourceMappingUrl<'_> {
    fn id(&self) -> u8 {
        SectionId::Custom.into()
    }
}

/// Decodes the payload of the section of a source map, in the grammar `G`: its URL.
///
/// # Errors
///
/// An error means that the bytes are not such a payload.
///
/// # Examples
///
/// ```
/// use dolzhytik::fallible::{Global, read_source_map};
/// use dolzhytik::reader::Padded;
///
/// let payload = b"\x10sourceMappingURL\x05a.map";
/// assert_eq!(read_source_map::<Global, Padded>(payload, Global)?, "a.map");
/// # Ok::<(), dolzhytik::reader::DecodeError>(())
/// ```
///
/// # Proved
///
/// After `Ok`: `found`, the bytes as a whole encode the value. After an error: `none`, the bytes as a whole are no such encoding, unless the cause is `Memory`.
///
/// ```text
/// ensures found { IfOk result
///     (λ x. source_map_payload (padded_of G.grammar) bytes.now x.now) }
/// ensures none { IfErr result
///     (λ e. e.cause ≢ Memory → RejectsWhole source_map_payload
///         (padded_of G.grammar) bytes.now) }
/// ensures no_memory { IfErr result (λ e. e.cause ≢ Memory) }
/// ```
///
/// Definitions: [`source_map_payload`](crate::definitions::custom::debug_files::source_map_payload), [`padded_of`](crate::definitions::base::numbers::padded_of), [`RejectsWhole`](crate::definitions::base::continuing::RejectsWhole). [How to read clauses](crate::definitions).
pub fn read_source_map<'a, A: Allocator + Copy, G: Grammar>(
    bytes: &'a [u8],
    alloc: A,
) -> Result<&'a str, DecodeError> {
    read_single::<&'a str, A, G>("sourceMappingURL", bytes, alloc)
}

/// Walks over the payload of the section of a source map, in the grammar `G`.
///
/// # Errors
///
/// Every error except `Memory` means that the bytes are not such a payload.
///
/// # Proved
///
/// After `Ok`: `found`, the bytes as a whole are an encoding, and the effect takes the minimal one. After an error: `none`, the bytes as a whole are no such encoding, unless the cause is `Memory`; `no_memory`, the cause is `Memory` only with an effect whose calls may fail. In any case: `front`, the effect keeps what it took before.
///
/// ```text
/// ensures found { OnOk result
///     (WalksWhole E.seen G.grammar source_map_payload bytes.now effect.old effect.new) }
/// ensures none { IfErr result
///     (λ e. e.cause ≢ Memory → RejectsWhole source_map_payload
///         (padded_of G.grammar) bytes.now) }
/// ensures no_memory { IfErr result (λ e. e.cause ≡ Memory → E.may_fail) }
/// ensures front { Keeps E.seen effect.old effect.new }
/// ```
///
/// Definitions: [`WalksWhole`](crate::definitions::base::walks::WalksWhole), [`source_map_payload`](crate::definitions::custom::debug_files::source_map_payload), [`RejectsWhole`](crate::definitions::base::continuing::RejectsWhole), [`padded_of`](crate::definitions::base::numbers::padded_of), [`Keeps`](crate::definitions::base::walks::Keeps). [How to read clauses](crate::definitions).
pub fn walk_source_map<'a, A: Allocator + Copy, G: Grammar, E: Effect>(
    bytes: &'a [u8],
    alloc: A,
    effect: &mut E,
) -> Result<(), DecodeError> {
    walk_single::<&'a str, A, G, _>("sourceMappingURL", bytes, alloc, effect)
}

/// Appends the minimal encoding of the payload of the section of this source map. On an error, the
/// sink is unchanged.
///
/// # Errors
///
/// Returns [`TooLong`](crate::fallible::Refused::TooLong) if a count or length would pass
/// 4294967295, and [`Memory`](crate::fallible::Refused::Memory) if an allocation fails. The
/// bytes of the sink are then unchanged.
///
/// # Examples
///
/// ```
/// use dolzhytik::fallible::append_source_map;
///
/// let mut payload = vec![];
/// append_source_map("a.map", &mut payload)?;
/// assert_eq!(payload, *b"\x10sourceMappingURL\x05a.map");
/// # Ok::<(), dolzhytik::fallible::Refused>(())
/// ```
///
/// # Proved
///
/// After `Ok`: `ok`, the sink gains the encoding that is minimal in both grammars. After an error: `err`, the bytes of the sink are unchanged. In any case: `too_long`, a value that has an encoding never gives `TooLong`.
///
/// ```text
/// ensures ok { OnOk result
///     (AppendsMinimal both_grammars source_map_payload url.now sink.old.items
///         sink.new.items) }
/// ensures err { OnErr result (sink.new.items ≡ sink.old.items) }
/// ensures too_long { HasEncoding both_grammars source_map_payload url.now
///     → result ≢ Err TooLong }
/// ```
///
/// Definitions: [`AppendsMinimal`](crate::definitions::base::minimal::AppendsMinimal), [`both_grammars`](crate::definitions::base::minimal::Grammars), [`source_map_payload`](crate::definitions::custom::debug_files::source_map_payload), [`HasEncoding`](crate::definitions::base::minimal::HasEncoding). [How to read clauses](crate::definitions).
pub fn append_source_map<B: Sink>(url: &str, sink: &mut B) -> Result<()> {
    append_single("sourceMappingURL", &url, sink)
}

/// The `external_debug_info` section: the path of a file that has the debug information of a
/// module.
///
/// ```
/// # fn example() -> Result<(), Box<dyn std::error::Error>> {
/// # use dolzhytik::{fallible::*, reader::*};
/// use dolzhytik::fallible::{ExternalDebugInfo, Global, Module};
///
/// let mut module = Module::new(Global)?;
/// module.section(&ExternalDebugInfo("a.debug.wasm"))?;
/// # Ok(())
/// # }
/// # example().unwrap();
/// ```
///
/// [`Items::ExternalDebugInfo`](crate::reader::Items::ExternalDebugInfo) has the path of a
/// decoded section.
///
/// # Examples
///
/// ```
/// use dolzhytik::fallible::{Encode, ExternalDebugInfo};
///
/// let mut bytes = vec![];
/// ExternalDebugInfo("d").encode(&mut bytes)?;
/// // Size 22: a name of 19 bytes, and the path, of 1.
/// assert_eq!(bytes, *b"\x16\x13external_debug_info\x01d");
/// # Ok::<(), dolzhytik::fallible::Refused>(())
/// ```
#[derive(Clone, Copy, Debug)]
pub struct ExternalDebugInfo<'a>(pub &'a str);

/// Encodes the size prefix, the name of the section, and the path.
///
/// # Defined
///
/// ```text
/// encoding = { λ s. named_encoding debug_file_name (size_prefixed_encoding s.0.now) }
/// encodable = { λ s. IsEncodableNamed debug_file_name (size_prefixed_encoding s.0.now) }
/// decoding = { λ s. DecodesBack debug_file_section (SaysText s.0.now)
///     (named_encoding debug_file_name (size_prefixed_encoding s.0.now)) }
/// ```
///
/// Definitions: [`named_encoding`](crate::definitions::custom::customs::named_encoding), [`debug_file_name`](crate::definitions::custom::debug_files::debug_file_name), [`size_prefixed_encoding`](crate::definitions::base::encodings::size_prefixed_encoding), [`IsEncodableNamed`](crate::definitions::custom::customs::IsEncodableNamed), [`DecodesBack`](crate::definitions::base::calls::DecodesBack), [`debug_file_section`](crate::definitions::custom::debug_files::debug_file_section), [`SaysText`](crate::definitions::custom::debug_files::SaysText). [How to read clauses](crate::definitions).
impl Encode for ExternalDebugInfo<'_> {
    fn encode<A: Sink>(&self, sink: &mut A) -> Result<()> {
        encode_single(sink, "external_debug_info", self.0.as_bytes())
    }
}

/// # Defined
///
/// ```text
/// id_of = { λ _. number_of ids.Custom }
/// Items = { List ℕ }
/// format = { debug_file_section }
/// says = { λ s. SaysText s.0.now }
/// payload = { λ s. NamedPayload debug_file_name (size_prefixed_encoding s.0.now) }
/// sized = { λ s bytes encodable pays. named_sized debug_file_name
///     (size_prefixed_encoding s.0.now) bytes encodable pays }
/// decodes_back = { λ s promised. promised }
/// ```
///
/// Definitions: [`number_of`](crate::definitions::base::section_id::number_of), [`debug_file_section`](crate::definitions::custom::debug_files::debug_file_section), [`SaysText`](crate::definitions::custom::debug_files::SaysText), [`NamedPayload`](crate::definitions::custom::customs::NamedPayload), [`debug_file_name`](crate::definitions::custom::debug_files::debug_file_name), [`size_prefixed_encoding`](crate::definitions::base::encodings::size_prefixed_encoding), [`named_sized`](crate::definitions::custom::customs::named_sized). [How to read clauses](crate::definitions).
impl Section for ExternalDebugInfo<'_> {
    fn id(&self) -> u8 {
        SectionId::Custom.into()
    }
}

/// Decodes the payload of the section of a file of debug information, in the grammar `G`: its path.
///
/// # Errors
///
/// An error means that the bytes are not such a payload.
///
/// # Examples
///
/// ```
/// use dolzhytik::fallible::{Global, read_debug_file};
/// use dolzhytik::reader::Padded;
///
/// let payload = b"\x13external_debug_info\x01d";
/// assert_eq!(read_debug_file::<Global, Padded>(payload, Global)?, "d");
/// # Ok::<(), dolzhytik::reader::DecodeError>(())
/// ```
///
/// # Proved
///
/// After `Ok`: `found`, the bytes as a whole encode the value. After an error: `none`, the bytes as a whole are no such encoding, unless the cause is `Memory`.
///
/// ```text
/// ensures found { IfOk result
///     (λ x. debug_file_payload (padded_of G.grammar) bytes.now x.now) }
/// ensures none { IfErr result
///     (λ e. e.cause ≢ Memory → RejectsWhole debug_file_payload
///         (padded_of G.grammar) bytes.now) }
/// ensures no_memory { IfErr result (λ e. e.cause ≢ Memory) }
/// ```
///
/// Definitions: [`debug_file_payload`](crate::definitions::custom::debug_files::debug_file_payload), [`padded_of`](crate::definitions::base::numbers::padded_of), [`RejectsWhole`](crate::definitions::base::continuing::RejectsWhole). [How to read clauses](crate::definitions).
pub fn read_debug_file<'a, A: Allocator + Copy, G: Grammar>(
    bytes: &'a [u8],
    alloc: A,
) -> Result<&'a str, DecodeError> {
    read_single::<&'a str, A, G>("external_debug_info", bytes, alloc)
}

/// Walks over the payload of the section of an external file of debug information, in the grammar `G`.
///
/// # Errors
///
/// Every error except `Memory` means that the bytes are not such a payload.
///
/// # Proved
///
/// After `Ok`: `found`, the bytes as a whole are an encoding, and the effect takes the minimal one. After an error: `none`, the bytes as a whole are no such encoding, unless the cause is `Memory`; `no_memory`, the cause is `Memory` only with an effect whose calls may fail. In any case: `front`, the effect keeps what it took before.
///
/// ```text
/// ensures found { OnOk result
///     (WalksWhole E.seen G.grammar debug_file_payload bytes.now effect.old effect.new) }
/// ensures none { IfErr result
///     (λ e. e.cause ≢ Memory → RejectsWhole debug_file_payload
///         (padded_of G.grammar) bytes.now) }
/// ensures no_memory { IfErr result (λ e. e.cause ≡ Memory → E.may_fail) }
/// ensures front { Keeps E.seen effect.old effect.new }
/// ```
///
/// Definitions: [`WalksWhole`](crate::definitions::base::walks::WalksWhole), [`debug_file_payload`](crate::definitions::custom::debug_files::debug_file_payload), [`RejectsWhole`](crate::definitions::base::continuing::RejectsWhole), [`padded_of`](crate::definitions::base::numbers::padded_of), [`Keeps`](crate::definitions::base::walks::Keeps). [How to read clauses](crate::definitions).
pub fn walk_debug_file<'a, A: Allocator + Copy, G: Grammar, E: Effect>(
    bytes: &'a [u8],
    alloc: A,
    effect: &mut E,
) -> Result<(), DecodeError> {
    walk_single::<&'a str, A, G, _>("external_debug_info", bytes, alloc, effect)
}

/// Appends the minimal encoding of the payload of the section of this file of debug information. On
/// an error, the sink is unchanged.
///
/// # Errors
///
/// Returns [`TooLong`](crate::fallible::Refused::TooLong) if a count or length would pass
/// 4294967295, and [`Memory`](crate::fallible::Refused::Memory) if an allocation fails. The
/// bytes of the sink are then unchanged.
///
/// # Examples
///
/// ```
/// use dolzhytik::fallible::append_debug_file;
///
/// let mut payload = vec![];
/// append_debug_file("d", &mut payload)?;
/// assert_eq!(payload, *b"\x13external_debug_info\x01d");
/// # Ok::<(), dolzhytik::fallible::Refused>(())
/// ```
///
/// # Proved
///
/// After `Ok`: `ok`, the sink gains the encoding that is minimal in both grammars. After an error: `err`, the bytes of the sink are unchanged. In any case: `too_long`, a value that has an encoding never gives `TooLong`.
///
/// ```text
/// ensures ok { OnOk result
///     (AppendsMinimal both_grammars debug_file_payload path.now sink.old.items
///         sink.new.items) }
/// ensures err { OnErr result (sink.new.items ≡ sink.old.items) }
/// ensures too_long { HasEncoding both_grammars debug_file_payload path.now
///     → result ≢ Err TooLong }
/// ```
///
/// Definitions: [`AppendsMinimal`](crate::definitions::base::minimal::AppendsMinimal), [`both_grammars`](crate::definitions::base::minimal::Grammars), [`debug_file_payload`](crate::definitions::custom::debug_files::debug_file_payload), [`HasEncoding`](crate::definitions::base::minimal::HasEncoding). [How to read clauses](crate::definitions).
pub fn append_debug_file<B: Sink>(path: &str, sink: &mut B) -> Result<()> {
    append_single("external_debug_info", &path, sink)
}

/// The `build_id` section: bytes that identify the build. A file of debug information of the same
/// build has them too.
///
/// ```
/// # fn example() -> Result<(), Box<dyn std::error::Error>> {
/// # use dolzhytik::{fallible::*, reader::*};
/// use dolzhytik::fallible::{BuildId, Global, Module};
///
/// let mut module = Module::new(Global)?;
/// module.section(&BuildId(&[0x12, 0x34]))?;
/// # Ok(())
/// # }
/// # example().unwrap();
/// ```
///
/// [`Items::BuildId`](crate::reader::Items::BuildId) has the bytes of a decoded section. A
/// module of the root takes the encoding as a [`RawCustomSection`](crate::RawCustomSection).
///
/// # Examples
///
/// ```
/// use dolzhytik::fallible::{BuildId, Encode};
/// use dolzhytik::{Module, RawCustomSection};
///
/// let mut bytes = vec![];
/// BuildId(&[0x12, 0x34]).encode(&mut bytes)?;
/// // Size 12: a name of 8 bytes, and two bytes with their size.
/// assert_eq!(bytes, *b"\x0C\x08build_id\x02\x12\x34");
///
/// let mut module = Module::new();
/// module.section(&RawCustomSection(&bytes));
/// assert_eq!(module.as_slice()[8..], *b"\0\x0C\x08build_id\x02\x12\x34");
/// # Ok::<(), dolzhytik::fallible::Refused>(())
/// ```
#[derive(Clone, Copy, Debug)]
pub struct BuildId<'a>(pub &'a [u8]);

/// Encodes the size prefix, the name of the section, and the bytes with their size prefix.
///
/// # Defined
///
/// ```text
/// encoding = { λ s. named_encoding build_id_name (size_prefixed_encoding s.0.now) }
/// encodable = { λ s. IsEncodableNamed build_id_name (size_prefixed_encoding s.0.now) }
/// decoding = { λ s. DecodesBack build_id_section (λ said. said ≡ s.0.now)
///     (named_encoding build_id_name (size_prefixed_encoding s.0.now)) }
/// ```
///
/// Definitions: [`named_encoding`](crate::definitions::custom::customs::named_encoding), [`build_id_name`](crate::definitions::custom::debug_files::build_id_name), [`size_prefixed_encoding`](crate::definitions::base::encodings::size_prefixed_encoding), [`IsEncodableNamed`](crate::definitions::custom::customs::IsEncodableNamed), [`DecodesBack`](crate::definitions::base::calls::DecodesBack), [`build_id_section`](crate::definitions::custom::debug_files::build_id_section). [How to read clauses](crate::definitions).
impl Encode for BuildId<'_> {
    fn encode<A: Sink>(&self, sink: &mut A) -> Result<()> {
        encode_single(sink, "build_id", self.0)
    }
}

/// # Defined
///
/// ```text
/// id_of = { λ _. number_of ids.Custom }
/// Items = { List ℕ }
/// format = { build_id_section }
/// says = { λ s. λ said. said ≡ s.0.now }
/// payload = { λ s. NamedPayload build_id_name (size_prefixed_encoding s.0.now) }
/// sized = { λ s bytes encodable pays. named_sized build_id_name
///     (size_prefixed_encoding s.0.now) bytes encodable pays }
/// decodes_back = { λ s promised. promised }
/// ```
///
/// Definitions: [`number_of`](crate::definitions::base::section_id::number_of), [`build_id_section`](crate::definitions::custom::debug_files::build_id_section), [`NamedPayload`](crate::definitions::custom::customs::NamedPayload), [`build_id_name`](crate::definitions::custom::debug_files::build_id_name), [`size_prefixed_encoding`](crate::definitions::base::encodings::size_prefixed_encoding), [`named_sized`](crate::definitions::custom::customs::named_sized). [How to read clauses](crate::definitions).
impl Section for BuildId<'_> {
    fn id(&self) -> u8 {
        SectionId::Custom.into()
    }
}

/// Decodes the payload of the section of a build's identity, in the grammar `G`: its bytes.
///
/// # Errors
///
/// An error means that the bytes are not such a payload.
///
/// # Examples
///
/// ```
/// use dolzhytik::fallible::{Global, read_build_id};
/// use dolzhytik::reader::Padded;
///
/// let payload = b"\x08build_id\x02\x12\x34";
/// assert_eq!(read_build_id::<Global, Padded>(payload, Global)?, [0x12, 0x34]);
/// # Ok::<(), dolzhytik::reader::DecodeError>(())
/// ```
///
/// # Proved
///
/// After `Ok`: `found`, the bytes as a whole encode the value. After an error: `none`, the bytes as a whole are no such encoding, unless the cause is `Memory`.
///
/// ```text
/// ensures found { IfOk result
///     (λ x. build_id_payload (padded_of G.grammar) bytes.now x.now) }
/// ensures none { IfErr result
///     (λ e. e.cause ≢ Memory → RejectsWhole build_id_payload
///         (padded_of G.grammar) bytes.now) }
/// ensures no_memory { IfErr result (λ e. e.cause ≢ Memory) }
/// ```
///
/// Definitions: [`build_id_payload`](crate::definitions::custom::debug_files::build_id_payload), [`padded_of`](crate::definitions::base::numbers::padded_of), [`RejectsWhole`](crate::definitions::base::continuing::RejectsWhole). [How to read clauses](crate::definitions).
pub fn read_build_id<'a, A: Allocator + Copy, G: Grammar>(
    bytes: &'a [u8],
    alloc: A,
) -> Result<&'a [u8], DecodeError> {
    read_single::<&'a [u8], A, G>("build_id", bytes, alloc)
}

/// Walks over the payload of the section of a build's identity, in the grammar `G`.
///
/// # Errors
///
/// Every error except `Memory` means that the bytes are not such a payload.
///
/// # Proved
///
/// After `Ok`: `found`, the bytes as a whole are an encoding, and the effect takes the minimal one. After an error: `none`, the bytes as a whole are no such encoding, unless the cause is `Memory`; `no_memory`, the cause is `Memory` only with an effect whose calls may fail. In any case: `front`, the effect keeps what it took before.
///
/// ```text
/// ensures found { OnOk result
///     (WalksWhole E.seen G.grammar build_id_payload bytes.now effect.old effect.new) }
/// ensures none { IfErr result
///     (λ e. e.cause ≢ Memory → RejectsWhole build_id_payload
///         (padded_of G.grammar) bytes.now) }
/// ensures no_memory { IfErr result (λ e. e.cause ≡ Memory → E.may_fail) }
/// ensures front { Keeps E.seen effect.old effect.new }
/// ```
///
/// Definitions: [`WalksWhole`](crate::definitions::base::walks::WalksWhole), [`build_id_payload`](crate::definitions::custom::debug_files::build_id_payload), [`RejectsWhole`](crate::definitions::base::continuing::RejectsWhole), [`padded_of`](crate::definitions::base::numbers::padded_of), [`Keeps`](crate::definitions::base::walks::Keeps). [How to read clauses](crate::definitions).
pub fn walk_build_id<'a, A: Allocator + Copy, G: Grammar, E: Effect>(
    bytes: &'a [u8],
    alloc: A,
    effect: &mut E,
) -> Result<(), DecodeError> {
    walk_single::<&'a [u8], A, G, _>("build_id", bytes, alloc, effect)
}

/// Appends the minimal encoding of the payload of the section of these bytes. On an error, the sink
/// is unchanged.
///
/// # Errors
///
/// Returns [`TooLong`](crate::fallible::Refused::TooLong) if a count or length would pass
/// 4294967295, and [`Memory`](crate::fallible::Refused::Memory) if an allocation fails. The
/// bytes of the sink are then unchanged.
///
/// # Examples
///
/// ```
/// use dolzhytik::fallible::append_build_id;
///
/// let mut payload = vec![];
/// append_build_id(&[0x12, 0x34], &mut payload)?;
/// assert_eq!(payload, *b"\x08build_id\x02\x12\x34");
/// # Ok::<(), dolzhytik::fallible::Refused>(())
/// ```
///
/// # Proved
///
/// After `Ok`: `ok`, the sink gains the encoding that is minimal in both grammars. After an error: `err`, the bytes of the sink are unchanged. In any case: `too_long`, a value that has an encoding never gives `TooLong`.
///
/// ```text
/// ensures ok { OnOk result
///     (AppendsMinimal both_grammars build_id_payload bytes.now sink.old.items
///         sink.new.items) }
/// ensures err { OnErr result (sink.new.items ≡ sink.old.items) }
/// ensures too_long { HasEncoding both_grammars build_id_payload bytes.now
///     → result ≢ Err TooLong }
/// ```
///
/// Definitions: [`AppendsMinimal`](crate::definitions::base::minimal::AppendsMinimal), [`both_grammars`](crate::definitions::base::minimal::Grammars), [`build_id_payload`](crate::definitions::custom::debug_files::build_id_payload), [`HasEncoding`](crate::definitions::base::minimal::HasEncoding). [How to read clauses](crate::definitions).
pub fn append_build_id<B: Sink>(bytes: &[u8], sink: &mut B) -> Result<()> {
    append_single("build_id", &bytes, sink)
}
