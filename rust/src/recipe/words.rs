// Written by tools/to-rust from crates/wasm_tool/src/words.rt: change that.
// The words of a line.

use crate::recipe::fault::RecipeCause;
use crate::recipe::version::Version;

/// The words of a line, separated by spaces. Those of version 2 end before a comment.
pub(crate) struct Words<'a> {
    version: Version,
    rest: &'a str,
}

impl<'a> Words<'a> {
    pub(crate) fn new(version: Version, line: &'a str) -> Self {
        Words {
            version,
            rest: line,
        }
    }

    /// Returns the remaining text, without the spaces before it.
    pub(crate) fn rest(&self) -> &'a str {
        self.rest.trim_start_matches(' ')
    }

    /// Returns the next word, which may begin a comment.
    fn cut(&mut self) -> Option<&'a str> {
        while let Some((word, rest)) = self.rest.split_once(' ') {
            self.rest = rest;
            if !word.is_empty() {
                return Some(word);
            }
        }
        let word = self.rest;
        self.rest = "";
        if word.is_empty() { None } else { Some(word) }
    }

    /// Returns the next word, which a command needs.
    pub(crate) fn needed(&mut self) -> Result<&'a str, RecipeCause> {
        self.next().ok_or(RecipeCause::MissingWord)
    }

    /// Returns the next word, if there is one and the recipe is of version 2.
    pub(crate) fn optional(&mut self) -> Option<&'a str> {
        match self.version {
            Version::First => None,
            Version::Second => self.next(),
        }
    }

    /// Returns an error for a further word, which version 1 ignores.
    pub(crate) fn end(&mut self) -> Result<(), RecipeCause> {
        match self.optional() {
            Some(_) => Err(RecipeCause::SurplusWord),
            None => Ok(()),
        }
    }
}

/// # Defined
///
/// ```text
/// next_gives = { λ s r t. (t.version ≡ s.version)
///     × YieldsFirstRef (λ s. counted_words s.version s.rest.now) s r t
///     × IfSome r (λ _. without_spaces t.rest.now ≡ rest_of s.rest.now) }
/// remaining = { item_count (λ s. counted_words s.version s.rest.now) }
/// ```
///
/// Definitions: [`counted_words`](crate::definitions::recipe::lines::counted_words), [`without_spaces`](crate::definitions::recipe::lines::without_spaces), [`rest_of`](crate::definitions::recipe::lines::rest_of). [How to read clauses](crate::definitions).
impl<'a> Iterator for Words<'a> {
    type Item = &'a str;

    fn next(&mut self) -> Option<&'a str> {
        let word = self.cut()?;
        if self.version == Version::Second && word.starts_with('#') {
            self.rest = "";
            return None;
        }
        Some(word)
    }
}

/// Returns the line without a carriage return at its end.
pub(crate) fn without_return(line: &str) -> &str {
    line.strip_suffix('\r').unwrap_or(line)
}
