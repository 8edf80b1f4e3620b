// Written by tools/to-rust from crates/wasm_custom/src/target_features.rt: change that.
// The target features section: its builder, its reader and its minimizer.

use crate::vec::{Sink, Vec};
use crate::custom::counted::{DecodesItems, ItemsAs, append_counted, read_counted};
use crate::custom::entries::{CustomEntries, CustomKind};
use crate::alloc::{Allocator, Global};
use crate::base::{DecodeError, Encode, Grammar, Kind, Layout, Pieces, ReadFault, Readable, Result, Shorten, Store};

/// The target features section: the features that an object file uses, and those that it must not
/// be linked with.
///
/// ```
/// # fn example() -> Result<(), Box<dyn std::error::Error>> {
/// # use dolzhytik::{fallible::*, reader::*};
/// use dolzhytik::fallible::{FeaturePrefix, Global, Module, TargetFeaturesSection};
///
/// let mut module = Module::new(Global)?;
/// let mut features = TargetFeaturesSection::new(Global);
/// features.feature(FeaturePrefix::Used, "bulk-memory")?;
/// module.section(&features)?;
/// # Ok(())
/// # }
/// # example().unwrap();
/// ```
///
/// The tool conventions define it in
/// [Linking](https://github.com/WebAssembly/tool-conventions/blob/main/Linking.md#target-features-section).
/// [`Items::TargetFeatures`](crate::reader::Items::TargetFeatures) has the features of a
/// decoded section. A module of the root takes the encoding as a
/// [`RawCustomSection`](crate::RawCustomSection).
pub type TargetFeaturesSection<A = Global> = CustomEntries<FeatureItems, Pieces<A>>;

/// The kind of a target features section's items: features.
///
/// # Examples
///
/// ```
/// use dolzhytik::fallible::{CustomKind, FeatureItems, Global, TargetFeaturesSection};
///
/// let section = TargetFeaturesSection::new(Global);
/// assert_eq!((section.len(), FeatureItems::name()), (0, "target_features"));
/// ```
#[derive(Clone, Copy, Debug)]
pub struct FeatureItems;

/// The policy of an object file for a feature, which a linker enforces.
///
/// [`TargetFeaturesSection::feature`](crate::fallible::TargetFeaturesSection::feature) takes
/// it.
///
/// # Examples
///
/// ```
/// use dolzhytik::fallible::{Encode, FeaturePrefix};
///
/// let mut bytes = vec![];
/// FeaturePrefix::Used.encode(&mut bytes)?;
/// FeaturePrefix::Disallowed.encode(&mut bytes)?;
/// assert_eq!(bytes, *b"+-");
/// # Ok::<(), dolzhytik::fallible::Refused>(())
/// ```
#[derive(Clone, Copy, PartialEq, Eq, Hash, Debug)]
#[non_exhaustive]
pub enum FeaturePrefix {
    /// `+`: the object uses the feature, and the linked module must allow it.
    Used = 0x2B,
    /// `-`: the object does not use the feature, and the linked module must not use it.
    Disallowed = 0x2D,
    /// `=`: the object uses the feature, and all other objects must use it too. Older tools write
    /// it.
    Required = 0x3D,
}

/// Encodes the prefix as one byte.
///
/// # Defined
///
/// ```text
/// encoding = { λ prefix. prefix_code prefix ∷ [] }
/// encodable = { λ _. ⊤ }
/// ```
///
/// Definitions: [`prefix_code`](crate::definitions::custom::target_features::prefix_code). [How to read clauses](crate::definitions).
impl Encode for FeaturePrefix {
    fn encode<A: Sink>(&self, sink: &mut A) -> Result<()> {
        (*self as u8).encode(sink)
    }
}

/// # Defined
///
/// ```text
/// Record = { Feature }
/// Item = { Feature }
/// kind = { feature_items }
/// ```
///
/// Definitions: [`Feature`](crate::definitions::custom::target_features::Feature), [`feature_items`](crate::definitions::custom::target_features::feature_items). [How to read clauses](crate::definitions).
impl Kind for FeatureItems {
    fn laws() {}
}

/// # Defined
///
/// ```text
/// name = { features_name }
/// front = { [] }
/// front_format = { fixed [] (tt {0}) }
/// counted = { true }
/// ```
///
/// Definitions: [`features_name`](crate::definitions::custom::target_features::features_name), [`fixed`](crate::definitions::base::formats::fixed). [How to read clauses](crate::definitions).
impl CustomKind for FeatureItems {
    fn name() -> &'static str {
        "target_features"
    }

    fn front() -> &'static [u8] {
        &[]
    }

    fn counted() -> bool {
        true
    }

    fn layout_laws() {}
}

impl<S: Store> CustomEntries<FeatureItems, S> {
    /// Adds a feature, such as `atomics` or `bulk-memory`.
    ///
    /// # Errors
    ///
    /// Returns [`TooLong`](crate::fallible::Refused::TooLong) if the builder has 4294967295
    /// entries, or if a count or length would pass 4294967295, and
    /// [`Memory`](crate::fallible::Refused::Memory) if an allocation fails. The builder is then
    /// unchanged.
    ///
    /// # Examples
    ///
    /// ```
    /// use dolzhytik::fallible::{
    ///     Encode, FeaturePrefix, Global, TargetFeaturesSection,
    /// };
    ///
    /// let mut features = TargetFeaturesSection::new(Global);
    /// features.feature(FeaturePrefix::Used, "simd128")?;
    /// let mut bytes = vec![];
    /// features.encode(&mut bytes)?;
    /// // Size 26: a name of 15 bytes; one feature, "+", a name of 7.
    /// assert_eq!(bytes, *b"\x1A\x0Ftarget_features\x01+\x07simd128");
    /// # Ok::<(), dolzhytik::fallible::Refused>(())
    /// ```
    ///
    /// # Proved
    ///
    /// The builder gains one entry with this encoding, or the call returns an error and changes nothing. A full builder, with 2^32 - 1 entries, returns `TooLong`.
    ///
    /// ```text
    /// ensures { AddsTo S.model (prefix_code prefix ∷ [] ++ size_prefixed_encoding name.now)
    ///     (⊤ × HasEncodableSize name.now) self.old self.new result }
    /// ```
    ///
    /// Definitions: [`AddsTo`](crate::definitions::base::calls::AddsTo), [`prefix_code`](crate::definitions::custom::target_features::prefix_code), [`size_prefixed_encoding`](crate::definitions::base::encodings::size_prefixed_encoding), [`HasEncodableSize`](crate::definitions::base::encodings::HasEncodableSize). [How to read clauses](crate::definitions).
    pub fn feature(&mut self, prefix: FeaturePrefix, name: &str) -> Result<()> {
        self.add_record(&(prefix, name))
    }
}

/// # Defined
///
/// ```text
/// Value = { Prefix }
/// format = { coded prefix_code }
/// view = { λ prefix. prefix }
/// ```
///
/// Definitions: [`coded`](crate::definitions::base::formats::coded), [`prefix_code`](crate::definitions::custom::target_features::prefix_code). [How to read clauses](crate::definitions).
impl Layout for FeaturePrefix {
    fn laws() {}
}

/// # Defined
///
/// ```text
/// may_allocate = { ⊥ }
/// ```
///
/// [How to read clauses](crate::definitions).
impl<'a, A: Allocator + Copy, G: Grammar> Readable<'a, A, G> for FeaturePrefix {
    fn read(bytes: &'a [u8], alloc: A) -> Result<(FeaturePrefix, &'a [u8]), DecodeError> {
        let (code, rest) = <u8 as Readable<'a, A, G>>::read(bytes, alloc)?;
        match code {
            0x2B => Ok((FeaturePrefix::Used, rest)),
            0x2D => Ok((FeaturePrefix::Disallowed, rest)),
            0x3D => Ok((FeaturePrefix::Required, rest)),
            _ => Err(ReadFault::UnknownTag.just_before(rest)),
        }
    }
}

/// # Defined
///
/// ```text
/// grammars = { both_grammars }
/// ```
///
/// Definitions: [`both_grammars`](crate::definitions::base::minimal::Grammars). [How to read clauses](crate::definitions).
impl Shorten for FeaturePrefix {
    fn write_minimal<B: Sink>(&self, sink: &mut B) -> Result<()> {
        self.encode(sink)
    }
}

/// # Defined
///
/// ```text
/// Said = { Feature }
/// format = { feature }
/// view = { feature_view }
/// ```
///
/// Definitions: [`Feature`](crate::definitions::custom::target_features::Feature), [`feature`](crate::definitions::custom::target_features::feature), [`feature_view`](crate::definitions::custom::target_features::feature_view). [How to read clauses](crate::definitions).
impl<'a> ItemsAs<(FeaturePrefix, &'a str)> for FeatureItems {
    /// # Proved
    ///
    /// A format whose encodings determine their own end is unambiguous in every mode, with encodings as `HasEncodings` states.
    ///
    /// ```text
    /// ensures { Unambiguous feature }
    /// ```
    ///
    /// Definitions: [`Unambiguous`](crate::definitions::base::decoding::Unambiguous), [`feature`](crate::definitions::custom::target_features::feature). [How to read clauses](crate::definitions).
    fn unique() {}

    fn append_item<B: Sink>(
        item: &(FeaturePrefix, &'a str),
        sink: &mut B,
    ) -> Result<()> {
        item.write_minimal(sink)
    }
}

impl<'a, A: Allocator + Copy, G: Grammar> DecodesItems<'a, (FeaturePrefix, &'a str), A, G>
    for FeatureItems {
    fn read_item(
        bytes: &'a [u8],
        alloc: A,
    ) -> Result<((FeaturePrefix, &'a str), &'a [u8]), DecodeError> {
        <(FeaturePrefix, &'a str) as Readable<'a, A, G>>::read(bytes, alloc)
    }
}

/// Decodes the payload of a target features section, in the grammar `G`: its features, each a
/// prefix and a name.
///
/// # Errors
///
/// Every error except `Memory` means that the bytes are not such a payload.
///
/// # Examples
///
/// ```
/// use dolzhytik::fallible::{FeaturePrefix, Global, read_features};
/// use dolzhytik::reader::Padded;
///
/// // "target_features"; one feature: used (+), "simd128".
/// let payload = b"\x0Ftarget_features\x01+\x07simd128";
/// let features = read_features::<Global, Padded>(payload, Global)?;
/// assert!(matches!(features[..], [(FeaturePrefix::Used, "simd128")]));
/// # Ok::<(), dolzhytik::reader::DecodeError>(())
/// ```
///
/// # Proved
///
/// After `Ok`: `found`, the bytes as a whole encode the value. After an error: `none`, the bytes as a whole are no such encoding, unless the cause is `Memory`.
///
/// ```text
/// ensures found { IfOk result
///     (λ x. features_payload (padded_of G.grammar) bytes.now (map feature_view x.items)) }
/// ensures none { IfErr result
///     (λ e. e.cause ≢ Memory → RejectsWhole features_payload
///         (padded_of G.grammar) bytes.now) }
/// ```
///
/// Definitions: [`features_payload`](crate::definitions::custom::target_features::features_payload), [`padded_of`](crate::definitions::base::numbers::padded_of), [`feature_view`](crate::definitions::custom::target_features::feature_view), [`RejectsWhole`](crate::definitions::base::continuing::RejectsWhole). [How to read clauses](crate::definitions).
pub fn read_features<'a, A: Allocator + Copy, G: Grammar>(
    bytes: &'a [u8],
    alloc: A,
) -> Result<Vec<(FeaturePrefix, &'a str), A>, DecodeError> {
    read_counted::<'a, FeatureItems, (FeaturePrefix, &'a str), A, G>(bytes, alloc)
}

/// Appends the minimal encoding of the payload of a target features section of these features. On
/// an error, the sink is unchanged.
///
/// # Errors
///
/// Returns [`TooLong`](crate::fallible::Refused::TooLong) if a count or length would pass
/// 4294967295, and [`Memory`](crate::fallible::Refused::Memory) if an allocation fails. The
/// bytes of the sink are then unchanged.
///
/// # Examples
///
/// ```
/// use dolzhytik::fallible::{FeaturePrefix, append_features};
///
/// let mut payload = vec![];
/// append_features(&[(FeaturePrefix::Used, "simd128")], &mut payload)?;
/// assert_eq!(payload, *b"\x0Ftarget_features\x01+\x07simd128");
/// # Ok::<(), dolzhytik::fallible::Refused>(())
/// ```
///
/// # Proved
///
/// After `Ok`: `ok`, the sink gains the encoding that is minimal in both grammars. After an error: `err`, the bytes of the sink are unchanged. In any case: `too_long`, a value that has an encoding never gives `TooLong`.
///
/// ```text
/// ensures ok { OnOk result
///     (AppendsMinimal both_grammars features_payload
///         (map feature_view features.now) sink.old.items sink.new.items) }
/// ensures err { OnErr result (sink.new.items ≡ sink.old.items) }
/// ensures too_long { HasEncoding both_grammars features_payload
///     (map feature_view features.now) → result ≢ Err TooLong }
/// ```
///
/// Definitions: [`AppendsMinimal`](crate::definitions::base::minimal::AppendsMinimal), [`both_grammars`](crate::definitions::base::minimal::Grammars), [`features_payload`](crate::definitions::custom::target_features::features_payload), [`feature_view`](crate::definitions::custom::target_features::feature_view), [`HasEncoding`](crate::definitions::base::minimal::HasEncoding). [How to read clauses](crate::definitions).
pub fn append_features<'a, B: Sink>(
    features: &[(FeaturePrefix, &'a str)],
    sink: &mut B,
) -> Result<()> {
    append_counted::<FeatureItems, (FeaturePrefix, &'a str), _>(features, sink)
}
