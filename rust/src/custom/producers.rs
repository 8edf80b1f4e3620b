// Written by tools/to-rust from crates/wasm_custom/src/producers.rt: change that.
// The producers section: its builder, its reader and its minimizer.

use crate::vec::{Sink, Vec};
use crate::custom::counted::{DecodesItems, ItemsAs, append_counted, read_counted};
use crate::custom::entries::{CustomEntries, CustomKind};
use crate::custom::lists::{CountedList, ListKind};
use crate::alloc::{Allocator, Global};
use crate::base::{DecodeError, Grammar, Kind, Lent, Pieces, Readable, Result, Shorten, Store};

/// The values of a producers field: the tools that produced the module, and their versions.
///
/// [`ProducersSection`](crate::fallible::ProducersSection) takes it.
///
/// # Examples
///
/// ```
/// use dolzhytik::fallible::{Encode, Global, ProducersField};
///
/// let mut languages = ProducersField::new(Global);
/// languages.value("C", "99")?;
/// let mut bytes = vec![];
/// languages.encode(&mut bytes)?;
/// // One value: "C", "99".
/// assert_eq!(bytes, *b"\x01\x01C\x0299");
/// # Ok::<(), dolzhytik::fallible::Refused>(())
/// ```
pub type ProducersField<A = Global> = CountedList<ValueMembers, Pieces<A>>;

/// The kind of a field's members: a name, and its version.
///
/// # Examples
///
/// ```
/// use dolzhytik::fallible::{Global, ListKind, ProducersField, ValueMembers};
///
/// let list = ProducersField::new(Global);
/// assert_eq!((list.len(), ValueMembers::subsection()), (0, None));
/// ```
#[derive(Clone, Copy, Debug)]
pub struct ValueMembers;

/// # Defined
///
/// ```text
/// Member = { Producer }
/// member_encoding = { producer_encoding }
/// is_member = { IsProducer }
/// subsection = { None }
/// ```
///
/// Definitions: [`Producer`](crate::definitions::custom::producers::Producer), [`producer_encoding`](crate::definitions::custom::producers::producer_encoding), [`IsProducer`](crate::definitions::custom::producers::IsProducer). [How to read clauses](crate::definitions).
impl ListKind for ValueMembers {
    fn subsection() -> Option<u8> {
        None
    }
}

impl<S: Store> CountedList<ValueMembers, S> {
    /// Adds a value.
    ///
    /// # Errors
    ///
    /// Returns [`TooLong`](crate::fallible::Refused::TooLong) if the builder has 4294967295
    /// entries, or if a count or length would pass 4294967295, and
    /// [`Memory`](crate::fallible::Refused::Memory) if an allocation fails. The builder is then
    /// unchanged.
    ///
    /// # Proved
    ///
    /// The builder gains one entry with this encoding, or the call returns an error and changes nothing. A full builder, with 2^32 - 1 entries, returns `TooLong`.
    ///
    /// ```text
    /// ensures { AddsTo S.model
    ///     (size_prefixed_encoding name.now ++ size_prefixed_encoding version.now)
    ///     (HasEncodableSize name.now × HasEncodableSize version.now) self.old self.new result
    ///     }
    /// ```
    ///
    /// Definitions: [`AddsTo`](crate::definitions::base::calls::AddsTo), [`size_prefixed_encoding`](crate::definitions::base::encodings::size_prefixed_encoding), [`HasEncodableSize`](crate::definitions::base::encodings::HasEncodableSize). [How to read clauses](crate::definitions).
    pub fn value(&mut self, name: &str, version: &str) -> Result<()> {
        self.add_record(&(name, version))
    }
}

/// The producers section: the languages and tools that produced the module.
///
/// ```
/// # fn example() -> Result<(), Box<dyn std::error::Error>> {
/// # use dolzhytik::{fallible::*, reader::*};
/// use dolzhytik::fallible::{Global, Module, ProducersField, ProducersSection};
///
/// let mut module = Module::new(Global)?;
/// let mut field = ProducersField::new(Global);
/// field.value("clang", "14.0.4")?;
/// let mut producers = ProducersSection::new(Global);
/// producers.field("processed-by", &field)?;
/// module.section(&producers)?;
/// # Ok(())
/// # }
/// # example().unwrap();
/// ```
pub type ProducersSection<A = Global> = CustomEntries<ProducerItems, Pieces<A>>;

/// The kind of a producers section's items: fields.
///
/// # Examples
///
/// ```
/// use dolzhytik::fallible::{CustomKind, Global, ProducerItems, ProducersSection};
///
/// let section = ProducersSection::new(Global);
/// assert_eq!((section.len(), ProducerItems::name()), (0, "producers"));
/// ```
#[derive(Clone, Copy, Debug)]
pub struct ProducerItems;

/// # Defined
///
/// ```text
/// Record = { Field }
/// Item = { Field }
/// kind = { field_items }
/// ```
///
/// Definitions: [`Field`](crate::definitions::custom::producers::Field), [`field_items`](crate::definitions::custom::producers::field_items). [How to read clauses](crate::definitions).
impl Kind for ProducerItems {
    fn laws() {}
}

/// # Defined
///
/// ```text
/// name = { producers_name }
/// front = { [] }
/// front_format = { fixed [] (tt {0}) }
/// counted = { true }
/// ```
///
/// Definitions: [`producers_name`](crate::definitions::custom::producers::producers_name), [`fixed`](crate::definitions::base::formats::fixed). [How to read clauses](crate::definitions).
impl CustomKind for ProducerItems {
    fn name() -> &'static str {
        "producers"
    }

    fn front() -> &'static [u8] {
        &[]
    }

    fn counted() -> bool {
        true
    }

    fn layout_laws() {}
}

impl<S: Store> CustomEntries<ProducerItems, S> {
    /// Adds a field, such as `language`, `processed-by` or `sdk`.
    ///
    /// # Errors
    ///
    /// Returns [`TooLong`](crate::fallible::Refused::TooLong) if the builder has 4294967295
    /// entries, or if a count or length would pass 4294967295, and
    /// [`Memory`](crate::fallible::Refused::Memory) if an allocation fails. The builder is then
    /// unchanged.
    ///
    /// # Proved
    ///
    /// The builder gains one entry with this encoding, or the call returns an error and changes nothing. A full builder, with 2^32 - 1 entries, returns `TooLong`.
    ///
    /// ```text
    /// ensures { AddsTo S.model
    ///     (size_prefixed_encoding name.now ++ list_encoding (T.model.joins values.now))
    ///     (HasEncodableSize name.now × ⊤) self.old self.new result }
    /// ```
    ///
    /// Definitions: [`AddsTo`](crate::definitions::base::calls::AddsTo), [`size_prefixed_encoding`](crate::definitions::base::encodings::size_prefixed_encoding), [`list_encoding`](crate::definitions::custom::lists::list_encoding), [`HasEncodableSize`](crate::definitions::base::encodings::HasEncodableSize). [How to read clauses](crate::definitions).
    pub fn field<T: Store>(
        &mut self,
        name: &str,
        values: &CountedList<ValueMembers, T>,
    ) -> Result<()> {
        self.add_record(&(name, Lent(values)))
    }
}

/// # Defined
///
/// ```text
/// Said = { Field }
/// format = { field }
/// view = { field_view }
/// ```
///
/// Definitions: [`Field`](crate::definitions::custom::producers::Field), [`field`](crate::definitions::custom::producers::field), [`field_view`](crate::definitions::custom::producers::field_view). [How to read clauses](crate::definitions).
impl<'a, A: Allocator> ItemsAs<(&'a str, Vec<(&'a str, &'a str), A>)> for ProducerItems {
    /// # Proved
    ///
    /// A format whose encodings determine their own end is unambiguous in every mode, with encodings as `HasEncodings` states.
    ///
    /// ```text
    /// ensures { Unambiguous field }
    /// ```
    ///
    /// Definitions: [`Unambiguous`](crate::definitions::base::decoding::Unambiguous), [`field`](crate::definitions::custom::producers::field). [How to read clauses](crate::definitions).
    fn unique() {}

    fn append_item<B: Sink>(
        item: &(&'a str, Vec<(&'a str, &'a str), A>),
        sink: &mut B,
    ) -> Result<()> {
        item.write_minimal(sink)
    }
}

impl<'a, A: Allocator + Copy + 'a, G: Grammar> DecodesItems<
    'a,
    (&'a str, Vec<(&'a str, &'a str), A>),
    A,
    G,
> for ProducerItems {
    fn read_item(
        bytes: &'a [u8],
        alloc: A,
    ) -> Result<((&'a str, Vec<(&'a str, &'a str), A>), &'a [u8]), DecodeError> {
        <(&'a str, Vec<(&'a str, &'a str), A>) as Readable<'a, A, G>>::read(bytes, alloc)
    }
}

/// Decodes the payload of a producers section, in the grammar `G`: its fields, each a name and its
/// values, which are a name and a version.
///
/// # Errors
///
/// Every error except `Memory` means that the bytes are not such a payload.
///
/// # Examples
///
/// ```
/// use dolzhytik::fallible::{Global, read_producers};
/// use dolzhytik::reader::Padded;
///
/// // "producers"; one field, "language", of one value: "C", "99".
/// let payload = b"\x09producers\x01\x08language\x01\x01C\x0299";
/// let fields = read_producers::<Global, Padded>(payload, Global)?;
/// assert_eq!((fields[0].0, &fields[0].1[..]), ("language", &[("C", "99")][..]));
/// # Ok::<(), dolzhytik::reader::DecodeError>(())
/// ```
///
/// # Proved
///
/// After `Ok`: `found`, the bytes as a whole encode the value. After an error: `none`, the bytes as a whole are no such encoding, unless the cause is `Memory`.
///
/// ```text
/// ensures found { IfOk result
///     (λ x. producers_payload (padded_of G.grammar) bytes.now (map field_view x.items)) }
/// ensures none { IfErr result
///     (λ e. e.cause ≢ Memory → RejectsWhole producers_payload
///         (padded_of G.grammar) bytes.now) }
/// ```
///
/// Definitions: [`producers_payload`](crate::definitions::custom::producers::producers_payload), [`padded_of`](crate::definitions::base::numbers::padded_of), [`field_view`](crate::definitions::custom::producers::field_view), [`RejectsWhole`](crate::definitions::base::continuing::RejectsWhole). [How to read clauses](crate::definitions).
pub fn read_producers<'a, A: Allocator + Copy + 'a, G: Grammar>(
    bytes: &'a [u8],
    alloc: A,
) -> Result<Vec<(&'a str, Vec<(&'a str, &'a str), A>), A>, DecodeError> {
    read_counted::<'a, ProducerItems, (&'a str, Vec<(&'a str, &'a str), A>), A, G>(bytes, alloc)
}

/// Appends the minimal encoding of the payload of a producers section of these fields. On an error,
/// the sink is unchanged.
///
/// # Errors
///
/// Returns [`TooLong`](crate::fallible::Refused::TooLong) if a count or length would pass
/// 4294967295, and [`Memory`](crate::fallible::Refused::Memory) if an allocation fails. The
/// bytes of the sink are then unchanged.
///
/// # Examples
///
/// ```
/// use dolzhytik::fallible::{Global, Vec, append_producers};
///
/// let mut payload = vec![];
/// append_producers(&Vec::new(Global), &mut payload)?;
/// // "producers", no fields.
/// assert_eq!(payload, *b"\x09producers\0");
/// # Ok::<(), dolzhytik::fallible::Refused>(())
/// ```
///
/// # Proved
///
/// After `Ok`: `ok`, the sink gains the encoding that is minimal in both grammars. After an error: `err`, the bytes of the sink are unchanged. In any case: `too_long`, a value that has an encoding never gives `TooLong`.
///
/// ```text
/// ensures ok { OnOk result
///     (AppendsMinimal both_grammars producers_payload
///         (map field_view fields.now.items) sink.old.items sink.new.items) }
/// ensures err { OnErr result (sink.new.items ≡ sink.old.items) }
/// ensures too_long { HasEncoding both_grammars producers_payload
///     (map field_view fields.now.items) → result ≢ Err TooLong }
/// ```
///
/// Definitions: [`AppendsMinimal`](crate::definitions::base::minimal::AppendsMinimal), [`both_grammars`](crate::definitions::base::minimal::Grammars), [`producers_payload`](crate::definitions::custom::producers::producers_payload), [`field_view`](crate::definitions::custom::producers::field_view), [`HasEncoding`](crate::definitions::base::minimal::HasEncoding). [How to read clauses](crate::definitions).
pub fn append_producers<'a, A: Allocator, B: Sink>(
    fields: &Vec<(&'a str, Vec<(&'a str, &'a str), A>), A>,
    sink: &mut B,
) -> Result<()> {
    append_counted::<ProducerItems, (&'a str, Vec<(&'a str, &'a str), A>), _>(fields, sink)
}
