// Written by tools/to-rust from crates/wasm_tool/src/program.rt: change that.
// The program: from a recipe on standard input to a module in hexadecimal, and with `--read` from
// that to a list of sections.

use crate::vec::Vec;
use crate::string::String;
use crate::recipe::fault::{RecipeCause, RecipeFault};
use crate::recipe::listing::listing;
use crate::recipe::recipe::assemble;
use crate::alloc::{AllocError, Allocator};
use std::io::{ErrorKind, Read, Write};
use crate::base::ReadFault;

/// The error of the program.
#[derive(Debug)]
pub(crate) enum Trouble {
    Usage,
    NotText,
    BadHex,
    Recipe(RecipeFault),
    Section { number: usize, fault: ReadFault },
}

/// An allocation failed, and not at a line of a recipe.
///
/// # Defined
///
/// ```text
/// from_gives = { λ _ trouble. IsLateRefusal trouble }
/// ```
///
/// Definitions: [`IsLateRefusal`](crate::definitions::recipe::program::IsLateRefusal). [How to read clauses](crate::definitions).
impl From<AllocError> for Trouble {
    fn from(_e: AllocError) -> Trouble {
        Trouble::Recipe(RecipeFault {
            line: 0,
            cause: RecipeCause::Memory,
        })
    }
}

/// An allocation failed, and not at a section of a module.
pub(crate) fn unlisted() -> Trouble {
    Trouble::Section {
        number: 0,
        fault: ReadFault::Memory,
    }
}

/// The most requests to the input, and the number of bytes of each request.
const MOST_READS: u32 = 1048576;

const READ_SIZE: usize = 4096;

/// The reason for which the input was not read to its end.
#[derive(Debug)]
enum Unread {
    NotText,
    Memory,
}

/// # Defined
///
/// ```text
/// from_gives = { λ _ unread. unread ≡ Memory }
/// ```
///
/// [How to read clauses](crate::definitions).
impl From<AllocError> for Unread {
    fn from(_e: AllocError) -> Unread {
        Unread::Memory
    }
}

/// Returns all bytes of a reader, or an error if the reader fails or does not end within
/// `MOST_READS` requests.
fn read_to_end<A: Allocator, R: Read>(alloc: A, input: &mut R) -> Result<Vec<u8, A>, Unread> {
    let mut bytes = Vec::new(alloc);
    let mut chunk = [0; READ_SIZE];
    for _turn in 0..MOST_READS {
        let Ok(count) = input.read(&mut chunk) else {
            return Err(Unread::NotText);
        };
        if count == 0 {
            return Ok(bytes);
        }
        bytes.extend_from_slice(&chunk[..count])?;
    }
    Err(Unread::NotText)
}

/// Returns the output line for a recipe.
fn hex_line<A: Allocator + Copy>(alloc: A, recipe: &[u8]) -> Result<String<A>, Trouble> {
    let text = str::from_utf8(recipe).map_err(|_| Trouble::NotText)?;
    let module = assemble(alloc, text).map_err(Trouble::Recipe)?;
    let mut line = crate::hex::encode(alloc, &module)?;
    line.reserve_exact(1)?;
    line.push('\n')?;
    Ok(line)
}

/// Returns the output for the recipe that a reader yields.
fn answer_to_recipe<A: Allocator + Copy, I: Read>(
    alloc: A,
    input: &mut I,
) -> Result<String<A>, Trouble> {
    let recipe = read_to_end(alloc, input).map_err(|unread| match unread {
        Unread::NotText => Trouble::NotText,
        Unread::Memory => Trouble::from(AllocError),
    })?;
    hex_line(alloc, &recipe)
}

/// Returns the output for the module in hexadecimal that a reader yields.
fn answer_to_module<A: Allocator + Copy, I: Read>(
    alloc: A,
    input: &mut I,
) -> Result<String<A>, Trouble> {
    let text = read_to_end(alloc, input).map_err(|unread| match unread {
        Unread::NotText => Trouble::NotText,
        Unread::Memory => unlisted(),
    })?;
    listing(alloc, &text)
}

/// Returns `true` if the arguments are exactly `--read`.
fn asks_to_read<A: Allocator>(args: &[String<A>]) -> bool {
    let [word] = args else {
        return false;
    };
    word.as_str() == "--read"
}

/// Returns the output of the program.
fn answer<A: Allocator + Copy, I: Read>(
    alloc: A,
    args: &[String<A>],
    input: &mut I,
) -> Result<String<A>, Trouble> {
    if args.is_empty() {
        return answer_to_recipe(alloc, input);
    }
    if asks_to_read(args) {
        return answer_to_module(alloc, input);
    }
    Err(Trouble::Usage)
}

/// Writes the output. Returns the exit status: 0, or 1 if writing fails, after which a front of the
/// output may have been written.
fn write_text<O: Write>(out: &mut O, text: &[u8]) -> u8 {
    let mut rest = text;
    for _call in 0..u64::MAX {
        if rest.is_empty() {
            return 0;
        }
        let count = match out.write(rest) {
            Ok(0) => return 1,
            Ok(count) => count,
            Err(error) if error.kind() == ErrorKind::Interrupted => 0,
            Err(_) => return 1,
        };
        rest = &rest[count..];
    }
    1
}

/// Reports the error. Returns the exit status: 2 for an error of usage that was written, and 1
/// otherwise.
fn report<E: Write>(err: &mut E, trouble: &Trouble) -> u8 {
    match writeln!(err, "{trouble}") {
        Ok(()) if matches!(trouble, Trouble::Usage) => 2,
        _ => 1,
    }
}

/// Runs the program, and returns its exit status. `args` are its arguments. Without any, the input
/// is a recipe, whose module is written in hexadecimal. With `--read`, the input is a module in
/// hexadecimal, whose sections are listed, a line each.
///
/// # Examples
///
/// ```
/// use dolzhytik::fallible::Global;
/// use dolzhytik::fallible::recipe::run;
///
/// let (mut out, mut errors) = (vec![], vec![]);
/// let status = run(Global, &[], &mut &b"func 0"[..], &mut out, &mut errors);
/// // The header; id 3, size 2, one function, of type 0.
/// assert_eq!((status, &out[..]), (0, &b"0061736d0100000003020100\n"[..]));
/// ```
///
/// # Proved
///
/// ```text
/// ensures args { result ≡ 0 → (length args.now ≡ 0) ⊎ AsksToRead args.now }
/// ensures text { length args.now ≡ 0 → result ≡ 0
///     → IfSome (I.remaining input.old) IsUtf8 }
/// ensures good { length args.now ≡ 0 → result ≡ 0
///     → IfSome (I.remaining input.old) (λ text. All (IsGood First) (lines_of text)) }
/// ensures out { length args.now ≡ 0 → result ≡ 0
///     → IfSome (I.remaining input.old)
///     (λ text. Appends (O.contents out.old) (O.contents out.new) (hex_line_of text)) }
/// ensures listed { AsksToRead args.now → result ≡ 0
///     → IfSome (I.remaining input.old)
///     (λ text. (lines : List ℕ) × Lists text lines
///         × Appends (O.contents out.old) (O.contents out.new) lines) }
/// ensures end { result ≡ 0 → IsAtEnd (I.remaining input.new) }
/// ensures err { result ≡ 0 → Keeps (E.contents err.old) (E.contents err.new) }
/// ensures usage { result ≡ 2 → ((length args.now ≡ 0) ⊎ AsksToRead args.now) → ⊥ }
/// ensures kept { result ≡ 2 → Keeps (O.contents out.old) (O.contents out.new) }
/// ensures unasked { (((length args.now ≡ 0) ⊎ AsksToRead args.now) → ⊥)
///     → Keeps (O.contents out.old) (O.contents out.new) }
/// ensures part { length args.now ≡ 0
///     → IfSome (I.remaining input.old)
///     (λ text. GainsFront (O.contents out.old) (O.contents out.new) (hex_line_of text)) }
/// ensures listed_part { AsksToRead args.now
///     → IfSome (I.remaining input.old)
///     (λ text. GainsFrontOfListing text (O.contents out.old) (O.contents out.new)) }
/// ensures unread { (IsAtEnd (I.remaining input.new) → ⊥)
///     → Keeps (O.contents out.old) (O.contents out.new) }
/// ensures faulty { length args.now ≡ 0
///     → IfSome (I.remaining input.old)
///     (λ text. (IsUtf8 text → All (IsGood First) (lines_of text) → ⊥)
///         → Keeps (O.contents out.old) (O.contents out.new)) }
/// ensures unlisted { AsksToRead args.now
///     → IfSome (I.remaining input.old)
///     (λ text. ((lines : List ℕ) → Lists text lines → ⊥)
///         → Keeps (O.contents out.old) (O.contents out.new)) }
/// ensures status { result ≤ 2 }
/// ```
///
/// Definitions: [`AsksToRead`](crate::definitions::recipe::listings::AsksToRead), [`IsGood`](crate::definitions::recipe::recipe::IsGood), [`lines_of`](crate::definitions::recipe::lines::lines_of), [`hex_line_of`](crate::definitions::recipe::program::hex_line_of), [`Lists`](crate::definitions::recipe::listings::Lists), [`GainsFront`](crate::definitions::recipe::program::GainsFront), [`GainsFrontOfListing`](crate::definitions::recipe::program::GainsFrontOfListing). [How to read clauses](crate::definitions).
pub fn run<A: Allocator + Copy, I: Read, O: Write, E: Write>(
    alloc: A,
    args: &[String<A>],
    input: &mut I,
    out: &mut O,
    err: &mut E,
) -> u8 {
    match answer(alloc, args, input) {
        Ok(text) => write_text(out, text.as_bytes()),
        Err(trouble) => report(err, &trouble),
    }
}

impl ::core::fmt::Display for Trouble {
    fn fmt(&self, f: &mut ::core::fmt::Formatter<'_>) -> ::core::fmt::Result {
        match self {
            Self::Usage => f.write_str("usage: wasmrow [--read]"),
            Self::NotText => f.write_str("input: not text"),
            Self::BadHex => f.write_str("input: bad hex"),
            Self::Recipe(inner) => ::core::fmt::Display::fmt(inner, f),
            Self::Section { number, fault } => write!(f, "section {number}: {fault:?}"),
        }
    }
}

impl ::core::error::Error for Trouble {}
