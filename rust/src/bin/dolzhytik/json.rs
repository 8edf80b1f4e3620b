//! Values of JSON. Outlines, sizes, comparisons and savings as JSON.
use crate::groups::{Group, Groups, Total};
use crate::growth::{Comparison, HEADERS, Parts};
use crate::matching::{Change, Growth, Part, Segment};
use crate::name::Entry;
use crate::outline::Row;
use crate::reach::Reference;
use crate::sections::Section;
use crate::shorten::{Saving, Savings};
use crate::sizes::{Function, Sizes};
use crate::why::{Reason, Step};
use dolzhytik::reader::ReadError;
use std::borrow::Cow;
use std::fmt::{self, Display, Formatter, Write};

/// A value of JSON. It prints on one line.
#[derive(Debug)]
pub enum Value<'a> {
    Null,
    Bool(bool),
    Unsigned(u64),
    Signed(i64),
    /// The digits of a number.
    Digits(String),
    Text(Cow<'a, str>),
    List(Vec<Value<'a>>),
    Object(Members<'a>),
}

/// The members of an object, in their order.
pub type Members<'a> = Vec<(&'static str, Value<'a>)>;

impl<'a> Value<'a> {
    pub fn list<T: Into<Value<'a>>>(items: impl IntoIterator<Item = T>) -> Self {
        Value::List(items.into_iter().map(T::into).collect())
    }

    /// A list of one line an item, but for an empty one.
    fn lines(self) -> String {
        match self {
            Value::List(items) if !items.is_empty() => {
                let items: Vec<String> = items.iter().map(Value::to_string).collect();
                format!("[\n  {}\n]", items.join(",\n  "))
            }
            other => other.to_string(),
        }
    }
}

/// Makes an object: `object! { "section": 1, "name": None::<&str> }`.
macro_rules! object {
    ($($key:literal: $value:expr),* $(,)?) => {
        $crate::json::Value::Object($crate::json::members! { $($key: $value),* })
    };
}

/// Makes the members of an object.
macro_rules! members {
    ($($key:literal: $value:expr),* $(,)?) => {
        vec![$(($key, $crate::json::Value::from($value))),*]
    };
}

pub(crate) use {members, object};

/// Implements `From` by a variant that takes another type, into which the type converts.
macro_rules! from {
    ($($variant:ident: $($ty:ty),*;)*) => {
        $($(impl<'a> From<$ty> for Value<'a> {
            fn from(value: $ty) -> Self {
                Value::$variant(value.into())
            }
        })*)*
    };
}

from! {
    Bool: bool;
    Unsigned: u8, u32, u64;
    Signed: i32, i64;
    Text: &'a str, String;
    Object: Members<'a>;
}

impl From<usize> for Value<'_> {
    fn from(value: usize) -> Self {
        Value::Unsigned(value as u64)
    }
}

/// `null` if there is no value.
impl<'a, T: Into<Value<'a>>> From<Option<T>> for Value<'a> {
    fn from(value: Option<T>) -> Self {
        value.map_or(Value::Null, T::into)
    }
}

impl Display for Value<'_> {
    fn fmt(&self, f: &mut Formatter<'_>) -> fmt::Result {
        match self {
            Value::Null => f.write_str("null"),
            Value::Bool(value) => value.fmt(f),
            Value::Unsigned(value) => value.fmt(f),
            Value::Signed(value) => value.fmt(f),
            Value::Digits(digits) => f.write_str(digits),
            Value::Text(text) => string(f, text),
            Value::List(items) => {
                f.write_str("[")?;
                separated(f, items, |f, item| item.fmt(f))?;
                f.write_str("]")
            }
            Value::Object(members) => {
                f.write_str("{")?;
                Inner(members).fmt(f)?;
                f.write_str("}")
            }
        }
    }
}

/// The members of an object, without braces.
pub struct Inner<'m, 'a>(pub &'m [(&'static str, Value<'a>)]);

impl Display for Inner<'_, '_> {
    fn fmt(&self, f: &mut Formatter<'_>) -> fmt::Result {
        separated(f, self.0, |f, (key, value)| {
            f.write_str("\"")?;
            f.write_str(key)?;
            f.write_str("\": ")?;
            value.fmt(f)
        })
    }
}

fn separated<T>(
    f: &mut Formatter<'_>,
    items: &[T],
    show: impl Fn(&mut Formatter<'_>, &T) -> fmt::Result,
) -> fmt::Result {
    items.iter().enumerate().try_for_each(|(i, item)| {
        f.write_str(if i > 0 { ", " } else { "" })?;
        show(f, item)
    })
}

fn string(f: &mut Formatter<'_>, text: &str) -> fmt::Result {
    f.write_str("\"")?;
    let is_plain = |byte: u8| matches!(byte, b' '..=b'~') && byte != b'"' && byte != b'\\';
    let (plain, others) = if text.bytes().all(is_plain) {
        (text, "")
    } else {
        ("", text)
    };
    f.write_str(plain)?;
    for c in others.chars() {
        match c {
            '"' | '\\' => write!(f, "\\{c}")?,
            // The escapes of JSON are units of UTF-16, which control characters have one of.
            c if c.is_control() => write!(f, "\\u{:04x}", u32::from(c))?,
            c => f.write_char(c)?,
        }
    }
    f.write_str("\"")
}

/// An object, in whose lists each item has a line.
fn lines(members: Members<'_>) -> String {
    let members = members.into_iter();
    let members: Vec<String> = members
        .map(|(key, value)| format!("\"{key}\": {}", value.lines()))
        .collect();
    format!("{{{}}}\n", members.join(", "))
}

// ---- outlines, sizes, comparisons and savings

/// Why a section does not decode.
fn error<'a>(ReadError { cause, offset }: ReadError) -> Value<'a> {
    object! { "cause": cause.to_string(), "offset": offset }
}

fn outlined<'a>(row: &Row<'a>, why: bool) -> Value<'a> {
    let section = &row.section;
    let mut members = members! {
        "section": section.number,
        "id": section.id(),
        "kind": section.kind_name(),
        "name": section.name(),
        "offset": section.range().start,
        "size": section.payload().len(),
        "items": row.items(),
        "decodes": row.decodes(),
    };
    if why {
        members.push(("error", row.error().map(error).into()));
    }
    Value::Object(members)
}

/// The outline of a module, with the errors of sections if asked for.
pub fn outline(rows: &[Row<'_>], why: bool) -> String {
    Value::list(rows.iter().map(|row| outlined(row, why))).lines() + "\n"
}

/// A file of several, with the JSON of its outline, if it has one.
pub fn file(name: &str, outline: Option<&str>) -> String {
    let sections = outline.unwrap_or("null");
    format!(
        "{{\"file\": {}, \"sections\": {sections}}}",
        Value::from(name)
    )
}

/// The number, kind and name of a section.
fn identity<'a>(section: &Section<'a>) -> Members<'a> {
    members! {
        "section": section.number,
        "kind": section.kind_name(),
        "name": section.name(),
    }
}

fn section<'a>(section: &Section<'a>) -> Value<'a> {
    let mut members = identity(section);
    members.push(("bytes", section.bytes().len().into()));
    Value::Object(members)
}

/// The index and name of a function.
fn identity_of_function<'a>(function: &Function<'a>) -> Members<'a> {
    members! {
        "function": function.index,
        "name": function.name,
    }
}

fn function<'a>(function: &Function<'a>) -> Value<'a> {
    let mut members = identity_of_function(function);
    members.push(("bytes", function.size.into()));
    Value::Object(members)
}

fn saving<'a>(saving: &Saving<'a>) -> Value<'a> {
    let mut members = identity(&saving.section);
    members.push(("before", saving.section.bytes().len().into()));
    members.push(("after", saving.after.into()));
    Value::Object(members)
}

/// What minimizing saves. A section that would be dropped has no size after it.
pub fn savings(savings: &Savings<'_>) -> String {
    let (before, after) = savings.total();
    lines(members! {
        "before": before,
        "after": after,
        "sections": Value::list(savings.0.iter().map(saving)),
    })
}

/// How many functions there are, and their bytes.
fn total<'a>(total: Total) -> Members<'a> {
    members! { "functions": total.functions, "bytes": total.bytes }
}

fn group<'a>(group: &Group<'a>) -> Value<'a> {
    let prefix = members! { "prefix": group.prefix };
    Value::Object(prefix.into_iter().chain(total(group.total)).collect())
}

/// The groups that are not listed.
fn other_groups<'a>(groups: &Groups<'_>) -> Value<'a> {
    let (count, others) = groups.others;
    let count = members! { "count": count };
    Value::Object(count.into_iter().chain(total(others)).collect())
}

/// The index, name and size of a data segment.
fn segment<'a>(segment: &Segment<'a>) -> Members<'a> {
    let mut members = identity_of_segment(segment);
    members.push(("bytes", segment.size.into()));
    members
}

/// The sizes of a module.
pub fn sizes(sizes: &Sizes<'_>) -> String {
    let groups = sizes.groups.as_ref();
    lines(members! {
        "bytes": sizes.module,
        "sections": Value::list(sizes.sections.iter().map(section)),
        "functions": Value::list(sizes.functions.iter().map(function)),
        "groups": Value::list(groups.map_or(&[][..], |it| &it.listed).iter().map(group)),
        "other_groups": groups.map(other_groups),
        "all_functions": groups.map(|it| total(it.all)),
        "data": Value::list(sizes.data.iter().map(segment)),
    })
}

/// What refers to a function.
fn reference<'a>(reference: &Reference<'a>) -> Value<'a> {
    match *reference {
        Reference::Export(name) => object! { "kind": "export", "name": name },
        Reference::Start => object! { "kind": "start" },
        Reference::Entry(entry) => entry.into(),
        Reference::Code(site) => object! { "kind": site.instruction, "offset": site.offset },
    }
}

/// The index, name and size of a function. An import has no size.
fn sized<'a>(entry: Entry<'a>, size: Option<usize>) -> Members<'a> {
    members! { "function": entry.index, "name": entry.name, "bytes": size }
}

fn step<'a>(step: &Step<'a>) -> Value<'a> {
    let mut members = sized(step.entry, step.size);
    members.push(("reference", reference(&step.reference)));
    Value::Object(members)
}

/// Why a function is in a module. One that nothing reaches has no path.
pub fn reason(reason: &Reason<'_>) -> String {
    let path = reason.path.as_ref();
    let listed = path.map_or(&[][..], |it| &it.listed);
    lines(members! {
        "bytes": reason.module,
        "function": sized(reason.entry, reason.size),
        "path": path.map(|it| Value::list(it.steps.iter().map(step))),
        "dominated": path.map(|it| total(it.dominated)),
        "functions": Value::list(listed.iter().map(function)),
        "other_functions": path.map(|it| total(it.others)),
    })
}

/// The index and name of a data segment.
fn identity_of_segment<'a>(segment: &Segment<'a>) -> Members<'a> {
    members! {
        "data": segment.entry.index,
        "name": segment.entry.name,
    }
}

/// Sizes, and the change between them.
fn growth<'a>(growth: Growth) -> Members<'a> {
    members! {
        "before": growth.before,
        "after": growth.after,
        "change": growth.change(),
    }
}

/// Parts that changed, with what each is.
fn changes<'a, T: Part>(changes: &[Change<T>], identity: fn(&T) -> Members<'a>) -> Value<'a> {
    let change = |change: &Change<T>| {
        let identity = identity(change.part()).into_iter();
        Value::Object(identity.chain(growth(change.growth())).collect())
    };
    Value::list(changes.iter().map(change))
}

/// The members of these names: the parts of a section that changed, the other parts, and the bytes
/// that are in no part.
fn parts<'a, T: Part>(
    [listed, others, rest]: [&'static str; 3],
    parts: Option<&Parts<T>>,
    identity: fn(&T) -> Members<'a>,
) -> Members<'a> {
    let of_others = |(count, sizes): (usize, Growth)| {
        let count = members! { "count": count };
        Value::Object(count.into_iter().chain(growth(sizes)).collect())
    };
    let changed = parts.map_or(&[][..], |it| &it.listed);
    vec![
        (listed, changes(changed, identity)),
        (others, parts.map(|it| of_others(it.others)).into()),
        (rest, parts.map(|it| growth(it.rest)).into()),
    ]
}

/// What grew and shrank between two builds.
pub fn comparison(comparison: &Comparison<'_>) -> String {
    let mut members = growth(comparison.total);
    members.extend(members! {
        "header": growth(HEADERS),
        "sections": changes(&comparison.sections, identity),
    });
    members.extend(parts(
        ["functions", "other_functions", "rest_of_code"],
        comparison.functions.as_ref(),
        identity_of_function,
    ));
    members.extend(parts(
        ["data", "other_data", "rest_of_data"],
        comparison.data.as_ref(),
        identity_of_segment,
    ));
    lines(members)
}
