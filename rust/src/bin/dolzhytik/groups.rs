//! Groups of functions by the first part of their names: a crate, or a namespace or class of C++.
use crate::color::Bright;
use crate::name::{Name, escaped};
use crate::sizes::Function;
use std::cmp::Reverse;
use std::collections::HashMap;
use std::fmt::{self, Display};

/// Functions, and their bytes.
#[derive(Clone, Copy, Default)]
pub struct Total {
    pub functions: usize,
    pub bytes: usize,
}

impl Total {
    pub fn add(&mut self, bytes: usize) {
        self.functions += 1;
        self.bytes += bytes;
    }

    fn of<'g>(groups: impl IntoIterator<Item = &'g Group<'g>>) -> Self {
        let totals = groups.into_iter().map(|group| group.total);
        totals.fold(Total::default(), |sum, it| Total {
            functions: sum.functions + it.functions,
            bytes: sum.bytes + it.bytes,
        })
    }
}

/// The functions of a prefix.
pub struct Group<'a> {
    /// The prefix, or `None` for the functions that have none.
    pub prefix: Option<&'a str>,
    pub total: Total,
}

/// `functions core::* (12)`.
impl Display for Group<'_> {
    fn fmt(&self, f: &mut fmt::Formatter<'_>) -> fmt::Result {
        match self.prefix {
            None => f.write_str("functions without a prefix")?,
            Some(prefix) => {
                write!(f, "functions {}", Bright(AllOf(prefix)))?;
            }
        }
        write!(f, " ({})", self.total.functions)
    }
}

/// A prefix, as `core::*`.
struct AllOf<'a>(&'a str);

impl Display for AllOf<'_> {
    fn fmt(&self, f: &mut fmt::Formatter<'_>) -> fmt::Result {
        escaped(f, self.0)?;
        f.write_str("::*")
    }
}

/// The groups of all functions. Their sizes add up to those of the functions.
pub struct Groups<'a> {
    /// The largest ones, the largest first.
    pub listed: Vec<Group<'a>>,
    /// How many others there are, and their functions.
    pub others: (usize, Total),
    pub all: Total,
    /// Whether a function has a prefix.
    pub has_prefixes: bool,
}

impl<'a> Groups<'a> {
    /// Groups functions, and lists this number of groups.
    pub fn of(functions: &[Function<'a>], most: usize) -> Self {
        let mut totals: HashMap<Option<&'a str>, Total> = HashMap::new();
        for function in functions {
            let prefix = function.name.and_then(prefix_of);
            totals.entry(prefix).or_default().add(function.size);
        }
        let groups = totals
            .into_iter()
            .map(|(prefix, total)| Group { prefix, total });
        let mut listed: Vec<_> = groups.collect();
        listed.sort_by_key(|it| (Reverse(it.total.bytes), it.prefix));
        let all = Total::of(&listed);
        let has_prefixes = listed.iter().any(|it| it.prefix.is_some());
        let others = listed.split_off(most.min(listed.len()));
        Groups {
            listed,
            others: (others.len(), Total::of(&others)),
            all,
            has_prefixes,
        }
    }
}

/// The prefix of a name. Imports have no bodies, and are in no group.
fn prefix_of(name: Name<'_>) -> Option<&str> {
    match name {
        Name::Own(name) => prefix(name),
        Name::Imported { .. } => None,
    }
}

/// The part of a name before its first `::`. A mangled name has that of the name that it encodes.
fn prefix(name: &str) -> Option<&str> {
    let found = if let Some(rest) = name.strip_prefix("_Z") {
        of_itanium(rest)
    } else if let Some(rest) = name.strip_prefix("_R") {
        of_rust(rest)
    } else {
        first_of_path(name).and_then(within_brackets)
    };
    found.filter(|prefix| !prefix.is_empty())
}

/// The part before the first `::` of the function's own path. The type of its result may be before
/// that, as in `int ns::f<int>(int)`. A `::` in brackets is one of an argument.
fn first_of_path(name: &str) -> Option<&str> {
    let (mut begin, mut depth, mut found) = (0, 0usize, None);
    for (at, c) in name.char_indices() {
        match c {
            '(' if depth == 0 && at > begin => break,
            '<' | '(' | '[' | '{' => depth += 1,
            '>' | ')' | ']' | '}' => depth = depth.saturating_sub(1),
            ' ' if depth == 0 && name[begin..at].ends_with("operator") => break,
            ' ' if depth == 0 => (begin, found) = (at + 1, None),
            ':' if depth == 0 && found.is_none() && name[at..].starts_with("::") => {
                found = Some(&name[begin..at]);
            }
            _ => {}
        }
    }
    found
}

/// The first part of a path in the brackets of Rust: `alloc` of `<alloc::string::String as ..>`.
/// Legacy names have `$LT$` for a bracket, and `..` for `::`.
fn within_brackets(part: &str) -> Option<&str> {
    let inner = part.trim_start_matches('_').strip_prefix("$LT$");
    let word = match (inner, part.strip_prefix('<')) {
        (Some(inner), _) => last_word(inner.split_once("..")?.0, '$')?,
        (None, Some(inner)) => last_word(inner.split_once("::")?.0, ' ')?,
        (None, None) => part,
    };
    // A crate may have its hash: `core[846817f741e54dfd]`.
    word.split('[').next()
}

/// The last word of the text, without the punctuation of types before it.
fn last_word(text: &str, space: char) -> Option<&str> {
    let word = text.rsplit(space).next()?;
    Some(word.trim_start_matches(['<', '&', '*', '[', '(']))
}

/// The first part of a name mangled as C++ does, which Rust's legacy names are too.
fn of_itanium(rest: &str) -> Option<&str> {
    // `Z` is before a function that has the name in it, `N` before a path.
    let rest = rest.trim_start_matches('Z');
    let Some(path) = rest.strip_prefix('N') else {
        return rest.starts_with("St").then_some("std");
    };
    let path = path.trim_start_matches(['r', 'V', 'K', 'R', 'O']);
    let is_std = |abbreviation: &str| path.starts_with(abbreviation);
    if ["St", "Sa", "Sb", "Ss", "Si", "So", "Sd"]
        .into_iter()
        .any(is_std)
    {
        return Some("std");
    }
    match counted(path)? {
        anonymous if anonymous.starts_with("_GLOBAL__N") => Some("(anonymous namespace)"),
        part => within_brackets(part),
    }
}

/// The crate of a name mangled as Rust does: `C`, a disambiguator, and an identifier.
fn of_rust(rest: &str) -> Option<&str> {
    let mut rest = rest;
    loop {
        rest = match rest.as_bytes() {
            [b'C', ..] => return identifier(after_disambiguator(&rest[1..])?),
            // A path, with the letter of its namespace.
            [b'N', letter, ..] if letter.is_ascii_alphabetic() => &rest[2..],
            // A path with arguments.
            [b'I', ..] => &rest[1..],
            // The path of an `impl`.
            [b'M' | b'X', ..] => after_disambiguator(&rest[1..])?,
            _ => return None,
        };
    }
}

/// An identifier after its length. An underscore is before one that begins with an underscore or a
/// digit.
fn identifier(text: &str) -> Option<&str> {
    let end = text.find(|c: char| !c.is_ascii_digit())?;
    let length: usize = text[..end].parse().ok()?;
    let begin = end + usize::from(text[end..].starts_with('_'));
    text.get(begin..begin.checked_add(length)?)
}

/// What follows a disambiguator of Rust, if there is one.
fn after_disambiguator(text: &str) -> Option<&str> {
    match text.strip_prefix('s') {
        None => Some(text),
        Some(text) => text.split_once('_').map(|(_, after)| after),
    }
}

/// An identifier after its length in decimal.
fn counted(text: &str) -> Option<&str> {
    let end = text.find(|c: char| !c.is_ascii_digit())?;
    let length: usize = text[..end].parse().ok()?;
    text.get(end..end.checked_add(length)?)
}

#[cfg(test)]
mod tests {
    use super::*;

    #[track_caller]
    fn check(expected: &str, names: &[&str]) {
        for name in names {
            assert_eq!(prefix(name).unwrap_or_default(), expected, "{name}");
        }
    }

    #[test]
    fn rust() {
        check(
            "core",
            &[
                "core::fmt::write",
                "core[846817f741e54dfd]::fmt::write",
                "<core[846817f741e54dfd]::fmt::Error as core::fmt::Debug>::fmt",
                "<[core::fmt::Error] as core::fmt::Debug>::fmt",
                "<fn(A) as core::ops::FnOnce<A>>::call_once",
                "<T as core::convert::Into<U>>::into",
                "<[T] as core::cmp::PartialEq>::eq",
                "<&mut core::fmt::Formatter as core::fmt::Write>::write_str",
                "<core::fmt::Error as alloc::string::ToString>::to_string",
                "_ZN4core3fmt5write17h0123456789abcdefE",
                "_ZN44_$LT$$RF$T$u20$as$u20$core..fmt..Display$GT$3fmt17h0123456789abcdefE",
                "_$LT$core..fmt..Error$u20$as$u20$core..fmt..Debug$GT$::fmt::h0123456789abcdef",
                "_RNvNtC4core3fmt5write",
                "_RNvNtCs846817f741e_4core3fmt5write",
                "_RINvNtC4core3ptr13drop_in_placeNtC5alloc6StringE",
                "_RNvMs_NtC4core3fmtNtB2_9Formatter3pad",
                "_RNvXs_NtC4core3fmtNtB2_5ErrorNtB2_5Debug3fmt",
            ],
        );
        check(
            "alloc",
            &["<alloc::vec::Vec<T,A> as core::ops::Deref>::deref"],
        );
        check("__rustc", &["_RNvCs1_7___rustc12___rust_alloc"]);
    }

    #[test]
    fn cpp() {
        check(
            "ns",
            &[
                "ns::C::get() const",
                "int ns::twice<int>(int)",
                "std::pair<int, int> ns::make<int>(std::string)",
                "ns::C::operator bool() const",
                "ns::operator<(ns::C const&, ns::C const&)",
                "std::ostream& ns::operator<< <int>(std::ostream&, int)",
                "ns[abi:v1]::f()",
                "non-virtual thunk to ns::C::v(int)",
                "_ZNK2ns1C3getEv",
                "_ZZN2ns1fEvENK3$_0clEv",
            ],
        );
        check(
            "std",
            &[
                "std::S::f()",
                "_ZNSt1S1fEv",
                "_ZSt5move2IiET_S0_",
                "_ZNKSt3__112basic",
            ],
        );
        check(
            "(anonymous namespace)",
            &[
                "(anonymous namespace)::hidden(int)",
                "_ZN12_GLOBAL__N_16hiddenEi",
            ],
        );
    }

    #[test]
    fn names_without_a_prefix() {
        check(
            "",
            &[
                "",
                "main",
                "a.b",
                ":",
                "::",
                "::f",
                "f(std::string)",
                "f<std::string>()",
                "_Z5takesRN2ns1CE",
                "_Znwm",
                "operator new(unsigned long)",
                "_ZN",
                "_ZN9",
                "_ZN99999999999999999999a",
                "_ZN1é",
                "_ZN18446744073709551615a",
                "_R",
                "_RC",
                "_RCs",
                "_RN",
                "_RNv",
                "_RYNtC4core",
                "<",
                "<::",
                "<T as U>::f",
                "$LT$",
                "_$LT$T$GT$::f",
            ],
        );
    }
}
