// Written by tools/to-rust from crates/wasm_tool/src/version.rt: change that.
// The version of the language of a recipe.

use crate::recipe::words::{Words, without_return};

/// A version of the language of recipes.
#[derive(Clone, Copy, PartialEq, Eq, Debug)]
pub(crate) enum Version {
    /// Words after the needed ones are ignored.
    First,
    /// Words after the needed ones are errors, and there are comments and further commands.
    Second,
}

impl Version {
    /// Returns the version of a recipe with this index of the line `version 2`, if it has one.
    pub(crate) fn with_header(header: Option<usize>) -> Self {
        match header {
            Some(_) => Version::Second,
            None => Version::First,
        }
    }
}

/// Returns whether the line is `version 2`, or `None` if it has no word.
fn tells_version(line: &str) -> Option<bool> {
    let mut words = Words::new(Version::Second, line);
    let command = words.next()?;
    let Some(number) = words.next() else {
        return Some(false);
    };
    if words.next().is_some() {
        return Some(false);
    }
    Some(command == "version" && number == "2")
}

/// Returns the index of the line `version 2`, if it is the first one that has a word.
pub(crate) fn header(lines: &str) -> Option<usize> {
    let mut index = 0;
    for line in lines.split('\n') {
        if let Some(is_header) = tells_version(without_return(line)) {
            return if is_header { Some(index) } else { None };
        }
        index += 1;
    }
    None
}

/// Returns the line at this index, which is empty for the line `version 2`.
pub(crate) fn line_at<'a>(header: Option<usize>, index: usize, line: &'a str) -> &'a str {
    if header == Some(index) {
        return "";
    }
    without_return(line)
}
