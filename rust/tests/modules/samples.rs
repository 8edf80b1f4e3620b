//! Modules, worked out by hand.

/// The bytes that a text of hexadecimal digits tells, with spaces between them or not.
pub fn bytes_of(text: &str) -> Vec<u8> {
    let digits: Vec<u8> = text.bytes().filter(|byte| *byte != b' ').collect();
    let byte = |pair: &[u8]| u8::from_str_radix(str::from_utf8(pair).unwrap(), 16).unwrap();
    digits.chunks(2).map(byte).collect()
}

/// The header, and sections behind it.
pub fn module(sections: &[&str]) -> Vec<u8> {
    bytes_of(&format!("0061736d01000000 {}", sections.join(" ")))
}

/// A custom section of fewer than 128 bytes.
pub fn custom(name: &str, data: &str) -> String {
    let digits: String = name.bytes().map(|byte| format!("{byte:02x}")).collect();
    let size = 1 + name.len() + bytes_of(data).len();
    format!("00 {size:02x} {:02x} {digits} {data}", name.len())
}

/// The types, functions, exports and code of a function `f` that adds its parameters. Size
/// prefixes, a count and an index are padded, as linkers leave them.
pub const PADDED: [&str; 4] = [
    "01 8780808000 01 60 02 7f7f 01 7f",
    "03 838000 8100 00",
    "07 05 01 01 66 00 00",
    "0a 8b80808000 01 8800 00 2000 208100 6a 0b",
];

/// The minimal encodings of the same sections.
pub const SHORT: [&str; 4] = [
    "01 07 01 60 02 7f7f 01 7f",
    "03 02 01 00",
    "07 05 01 01 66 00 00",
    "0a 09 01 07 00 2000 2001 6a 0b",
];

/// A padded name section with the module name `m`, and its minimal encoding.
pub const PADDED_NAME: &str = "00 8c00 8400 6e616d65 00 8300 8100 6d";
pub const SHORT_NAME: &str = "00 09 04 6e616d65 00 02 01 6d";

/// A function section that tells five functions and has none, with a padded size.
pub const UNREAD: &str = "03 8100 05";
