//! Describes the first bytes of files that are no modules. The program and the JavaScript package
//! share this file.
use core::fmt;

/// The header of a module: the magic and the version.
const HEADER: [u8; 8] = *b"\0asm\x01\0\0\0";

/// The first bytes of input without the header of a module.
#[derive(Clone, Copy, PartialEq, Eq, Debug)]
pub enum Found {
    Empty,
    Component,
    /// Text, such as a module or a component in the text format.
    Text,
    /// A version that is not known, and the offset at which the header differs.
    Version(u32, usize),
    /// The first bytes of the header, and the offset at which the file ends.
    Front(usize),
    /// Anything else, and the offset at which it differs from the header.
    Other(usize),
}

/// Whether the bytes are UTF-8 without ASCII control characters other than white space.
fn is_text(bytes: &[u8]) -> bool {
    let is_shown = |byte: &u8| !byte.is_ascii_control() || byte.is_ascii_whitespace();
    bytes.iter().all(is_shown) && str::from_utf8(bytes).is_ok()
}

impl Found {
    pub fn at_front(bytes: &[u8]) -> Self {
        let is_same = |(byte, expected): &(&u8, &u8)| byte == expected;
        let same = bytes.iter().zip(&HEADER).take_while(is_same).count();
        match *bytes {
            [] => Found::Empty,
            [0x00, b'a', b's', b'm', _, _, 0x01, 0x00, ..] => Found::Component,
            [0x00, b'a', b's', b'm', a, b, c, d, ..] => {
                Found::Version(u32::from_le_bytes([a, b, c, d]), same)
            }
            _ if same == bytes.len() => Found::Front(same),
            _ if is_text(bytes) => Found::Text,
            _ => Found::Other(same),
        }
    }
}

impl fmt::Display for Found {
    fn fmt(&self, f: &mut fmt::Formatter<'_>) -> fmt::Result {
        match self {
            Found::Empty => write!(f, "is empty, not a module"),
            Found::Component => write!(f, "is a component, not a module"),
            Found::Text => write!(f, "is text, not a binary module"),
            Found::Version(version, offset) => write!(
                f,
                "is a module of version {version}, not 1: the header differs at offset {offset:#x}"
            ),
            Found::Front(end) => write!(
                f,
                "is not a module: it ends in the header, at offset {end:#x}"
            ),
            Found::Other(0) => write!(
                f,
                "is not a module: it does not begin with 00 61 73 6d 01 00 00 00"
            ),
            Found::Other(offset) => write!(
                f,
                "is not a module: it differs from 00 61 73 6d 01 00 00 00 at offset {offset:#x}"
            ),
        }
    }
}
