//! Sections with indices, worked out by hand.

/// Sections that have indices, of every space.
pub const EVERY: [&str; 12] = [
    // A function of a reference to type 1, and a structure with the supertype 0.
    "01 0e 02 60 01 6301 00  50 01 00 5f 01 6400 00",
    // A function, a tag, a global, a table.
    "02 1f 04 016d 0166 00 00  016d 0165 04 00 00  016d 0167 03 6301 00  016d 0174 01 6301 00 00",
    "03 02 01 00",
    "04 09 01 4000 70 0000 d201 0b",
    "0d 03 01 00 00",
    "06 06 01 7f 00 2300 0b",
    "07 15 05 0161 00 01  0162 01 02  0163 02 00  0164 03 01  0165 04 00",
    "08 01 01",
    "09 14 02 02 01 4100 0b 00 01 00  06 00 4100 0b 6301 01 d200 0b",
    "0c 01 02",
    // A local, block, call, call_indirect, global.get, table.get, i32.load, memory.size, throw,
    // ref.null, struct.get, memory.init, table.init, try_table, local.get, br.
    "0a 33 01 31 01 01 6301  0201 1000 110000 2300 2500 280200 3f00 0800 \
        d001 fb020002 fc080000 fc0c0000 1f4001000000 2000 0c00 0b0b0b",
    "0b 09 02 00 4100 0b 01aa  01 00",
];

/// The same sections with another number added in each space, here in hexadecimal: 8 for data
/// segments, 10 for functions, 20 for types, 30 for tables, 40 for memories, 50 for globals, 60 for
/// tags, and 70 for element segments.
pub const EVERY_SHIFTED: [&str; 12] = [
    "01 0e 02 60 01 6321 00  50 01 20 5f 01 6420 00",
    "02 1f 04 016d 0166 00 20  016d 0165 04 00 20  016d 0167 03 6321 00  016d 0174 01 6321 00 00",
    "03 02 01 20",
    "04 09 01 4000 70 0000 d211 0b",
    "0d 03 01 00 20",
    "06 06 01 7f 00 2350 0b",
    "07 15 05 0161 00 11  0162 01 32  0163 02 40  0164 03 51  0165 04 60",
    "08 01 11",
    "09 14 02 02 31 4100 0b 00 01 10  06 30 4100 0b 6321 01 d210 0b",
    "0c 01 02",
    "0a 34 01 32 01 01 6321  0221 1010 112030 2350 2530 28424000 3f40 0860 \
        d021 fb022002 fc080840 fc0c7030 1f4001006000 2000 0c00 0b0b0b",
    "0b 0a 02 02 40 4100 0b 01aa  01 00",
];
