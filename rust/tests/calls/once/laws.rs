// Written by tools/to-rust from crates/calls/src/once/laws.rt: change that.
//! The laws: functions that do nothing, and whose clauses are the law.

use dolzhytik::fallible::Global;

pub fn base() {
    dolzhytik::fallible::laws::base::numbers();
    dolzhytik::fallible::laws::base::frames();
    dolzhytik::fallible::laws::base::payloads();
    dolzhytik::fallible::laws::base::padded_payloads();
    dolzhytik::fallible::laws::base::types();
    dolzhytik::fallible::laws::base::constants();
    dolzhytik::fallible::laws::base::padded()
}

pub fn instructions() {
    dolzhytik::fallible::laws::immediates::immediates();
    dolzhytik::fallible::laws::immediates::memory_arguments();
    dolzhytik::fallible::laws::immediates::padded();
    dolzhytik::fallible::laws::insn::opcodes();
    dolzhytik::fallible::laws::insn::rows::<Global>();
    dolzhytik::fallible::laws::insn::cases::<Global>();
    dolzhytik::fallible::laws::insn::instructions::<Global>();
    dolzhytik::fallible::laws::insn::lists();
    dolzhytik::fallible::laws::insn::padded()
}

pub fn code() {
    dolzhytik::fallible::laws::code::expressions();
    dolzhytik::fallible::laws::code::bodies();
    dolzhytik::fallible::laws::code::offset::<Global>();
    dolzhytik::fallible::laws::code::offsets();
    dolzhytik::fallible::laws::code::payloads();
    dolzhytik::fallible::laws::code::padded_payloads();
    dolzhytik::fallible::laws::code::calls::<Global>();
    dolzhytik::fallible::laws::code::padded_calls::<Global>();
    dolzhytik::fallible::laws::code::padded();
    dolzhytik::fallible::laws::code::locals();
    dolzhytik::fallible::laws::code::rejections()
}

pub fn sections() {
    dolzhytik::fallible::laws::sections::sections();
    dolzhytik::fallible::laws::sections::standard();
    dolzhytik::fallible::laws::sections::padded();
    dolzhytik::fallible::laws::sections::calls();
    dolzhytik::fallible::laws::sections::padded_calls();
    dolzhytik::fallible::laws::sections::given_elements::<Global>();
    dolzhytik::fallible::laws::sections::payloads();
    dolzhytik::fallible::laws::sections::padded_payloads();
    dolzhytik::fallible::laws::sections::rejections()
}

pub fn type_sections() {
    dolzhytik::fallible::laws::types::types();
    dolzhytik::fallible::laws::types::standard();
    dolzhytik::fallible::laws::types::padded();
    dolzhytik::fallible::laws::types::calls();
    dolzhytik::fallible::laws::types::padded_calls();
    dolzhytik::fallible::laws::types::payloads();
    dolzhytik::fallible::laws::types::padded_payloads();
    dolzhytik::fallible::laws::types::rejections()
}

pub fn custom_sections() {
    dolzhytik::fallible::laws::custom::sections();
    dolzhytik::fallible::laws::custom::object_linking();
    dolzhytik::fallible::laws::custom::padded();
    dolzhytik::fallible::laws::custom::calls();
    dolzhytik::fallible::laws::custom::padded_calls();
    dolzhytik::fallible::laws::custom::payloads();
    dolzhytik::fallible::laws::custom::padded_payloads();
    dolzhytik::fallible::laws::custom::rejections()
}

/// Two laws of each of these libraries have another name too.
pub fn other_names() {
    dolzhytik::fallible::laws::base::wide();
    dolzhytik::fallible::laws::insn::wide();
    dolzhytik::fallible::laws::code::wide();
    dolzhytik::fallible::laws::code::nothing_stands();
    dolzhytik::fallible::laws::sections::wide();
    dolzhytik::fallible::laws::sections::nothing_stands();
    dolzhytik::fallible::laws::custom::wide();
    dolzhytik::fallible::laws::custom::nothing_stands()
}
