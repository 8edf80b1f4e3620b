//! Numbers in LEB128, by the core specification and without the library.

pub fn unsigned(bytes: &mut Vec<u8>, mut n: u64) {
    while n >= 0x80 {
        bytes.push(n as u8 | 0x80);
        n >>= 7;
    }
    bytes.push(n as u8);
}

pub fn signed(bytes: &mut Vec<u8>, mut n: i64) {
    while !(-64..64).contains(&n) {
        bytes.push(n as u8 | 0x80);
        n >>= 7;
    }
    bytes.push(n as u8 & 0x7F);
}
