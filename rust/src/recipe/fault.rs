// Written by tools/to-rust from crates/wasm_tool/src/fault.rt: change that.
// The error of a recipe, and its line.

use crate::base::Refused;

/// The cause of an error in a recipe.
///
/// # Examples
///
/// ```
/// use dolzhytik::fallible::Global;
/// use dolzhytik::fallible::recipe::{RecipeCause, assemble};
///
/// let causes = ["frob", "func", "body 0"]
///     .map(|line| assemble(Global, line).unwrap_err().cause);
/// assert_eq!(
///     causes,
///     [RecipeCause::UnknownCommand, RecipeCause::MissingWord, RecipeCause::BadHex]
/// );
/// ```
#[derive(Clone, Copy, PartialEq, Eq, Debug)]
#[non_exhaustive]
pub enum RecipeCause {
    /// The first word of the line is not a command, or the kind of an export or an import is
    /// unknown.
    UnknownCommand,
    /// A word that should be a number is not one in range.
    BadNumber,
    /// A word that should be bytes is not an even number of hexadecimal digits.
    BadHex,
    /// The command needs more words.
    MissingWord,
    /// An allocation failed.
    Memory,
    /// A count or a size of the module would exceed 4294967295.
    TooLong,
    /// The line has words after those of the command. Version 1 ignores them.
    SurplusWord,
    /// A word that should be a value type is not one.
    UnknownType,
    /// No body is after the last locals.
    UnusedLocals,
}

/// The error of a recipe, with the number of its line, counted from 1; 0 for an error after the
/// last line.
///
/// # Examples
///
/// ```
/// use dolzhytik::fallible::Global;
/// use dolzhytik::fallible::recipe::{RecipeCause, RecipeFault, assemble};
///
/// let fault = assemble(Global, "func 0\nfunc x").unwrap_err();
/// assert_eq!(fault, RecipeFault { line: 2, cause: RecipeCause::BadNumber });
/// ```
#[derive(Clone, Copy, PartialEq, Eq, Debug)]
pub struct RecipeFault {
    /// The number of the line, counted from 1, or 0.
    pub line: usize,
    /// The cause.
    pub cause: RecipeCause,
}

/// # Defined
///
/// ```text
/// from_gives = { λ refused cause. cause ≡ cause_of refused }
/// ```
///
/// Definitions: [`cause_of`](crate::definitions::recipe::steps::cause_of). [How to read clauses](crate::definitions).
impl From<Refused> for RecipeCause {
    fn from(refused: Refused) -> RecipeCause {
        match refused {
            Refused::Memory => RecipeCause::Memory,
            Refused::TooLong => RecipeCause::TooLong,
        }
    }
}

/// An error after the last line.
///
/// # Defined
///
/// ```text
/// from_gives = { λ refused fault. (fault.line ≡ 0) × (fault.cause ≡ cause_of refused) }
/// ```
///
/// Definitions: [`cause_of`](crate::definitions::recipe::steps::cause_of). [How to read clauses](crate::definitions).
impl From<Refused> for RecipeFault {
    fn from(refused: Refused) -> RecipeFault {
        RecipeFault {
            line: 0,
            cause: RecipeCause::from(refused),
        }
    }
}

impl ::core::fmt::Display for RecipeCause {
    fn fmt(&self, f: &mut ::core::fmt::Formatter<'_>) -> ::core::fmt::Result {
        match self {
            Self::UnknownCommand => f.write_str("unknown command"),
            Self::BadNumber => f.write_str("bad number"),
            Self::BadHex => f.write_str("bad hex"),
            Self::MissingWord => f.write_str("missing word"),
            Self::Memory => f.write_str("out of memory"),
            Self::TooLong => f.write_str("too long"),
            Self::SurplusWord => f.write_str("surplus word"),
            Self::UnknownType => f.write_str("unknown type"),
            Self::UnusedLocals => f.write_str("locals without a body"),
        }
    }
}

impl ::core::error::Error for RecipeCause {}

impl ::core::fmt::Display for RecipeFault {
    fn fmt(&self, f: &mut ::core::fmt::Formatter<'_>) -> ::core::fmt::Result {
        let Self { line, cause } = self;
        write!(f, "line {line}: {cause}")
    }
}

impl ::core::error::Error for RecipeFault {}
