//! Tests of the names at the root of the package: by hand, but for `cases`.

// Crates of a user, which `programs::own_names` uses beside a glob of the package.
extern crate core as alloc;
extern crate core as base;
extern crate core as code;
extern crate core as custom;
extern crate core as hex;
extern crate core as immediates;
extern crate core as insn;
extern crate core as recipe;
extern crate core as sections;
extern crate core as string;
extern crate core as types;
extern crate core as vec;

mod borders;
#[rustfmt::skip]
mod cases;
mod checks;
mod debug;
mod decoded;
mod every_call;
mod iterators;
mod lengths;
mod moved;
mod programs;
mod random;
mod random_lists;
mod recorded;
mod reencoded;
mod refusals;
mod rows;
mod said_lengths;

#[test]
fn each_instruction_has_the_bytes_of_the_table() {
    cases::check_all();
}
