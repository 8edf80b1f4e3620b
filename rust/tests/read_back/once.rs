// Written by tools/to-rust from crates/read_back/src/once.rt: change that.
//! Laws that no other proved crate calls: functions that do nothing, and whose clauses are the law.

pub fn readers() {
    dolzhytik::reader::laws::encodings();
    dolzhytik::reader::laws::modules()
}
