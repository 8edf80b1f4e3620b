"""The test programs, the items that are left out of them, and the tests of the table at the end."""

RECIPES = 'recipes'
# The test programs, the folders that they share, and the programs that are left out.
PROGRAMS = [
    'drop_in',
    'limits',
    'modules',
    'wasm_custom_tests',
    'wasm_insn_tests',
    'wasm_reader_sections_tests',
    'wasm_reader_tests',
    'wasm_sections_tests',
    'wasm_tool_tests',
    'wasm_types_tests',
]
SHARED = ['calls', 'examples', 'read_back', 'support', 'test_support']
PROCESS = 'a process'
NEED_PROCESSES = {'compiled', 'coverage', 'object', 'program'}
# The items that are left out, by their files and their needs. A `usize` literal past 32 bits
# doesn't compile.
LONG = 'a length past 32 bits'
STREAMS = 'std::io'
LEFT_OUT = {
    ('drop_in/moved', 'a file'): ['fn the_page_shows_these_programs'],
    ('drop_in/programs', 'a HashMap'): ['fn kinds_are_keys_of_a_map'],
    ('drop_in/random_lists', PROCESS): ['fn caught'],
    ('drop_in/refusals', LONG): [
        'const TOO_LONG',
        'fn panics',
        'fn lists_of_values_and_instructions',
        'fn locals_and_data',
        'fn types',
        'fn hints_and_core_dumps',
    ],
    ('drop_in/refusals', PROCESS): ['fn more_than_there_is', 'fn memory_that_is_refused'],
    ('test_support/mod', STREAMS): ['mod streams', 'use streams'],
    ('wasm_custom_tests/lengths', LONG): ['const TOO_MANY', 'fn hints', 'fn orders', 'fn memories', 'fn globals', 'fn locals', 'fn stack'],
    ('wasm_insn_tests/base', LONG): ['fn lengths_past_32_bits'],
    ('wasm_insn_tests/lengths', LONG): ['fn long_vector', 'fn long_br_table'],
    ('wasm_sections_tests/lengths', LONG): ['fn runs_of_locals'],
    ('wasm_sections_tests/segment_refusals', LONG): ['fn too_many_bytes'],
    ('wasm_tool_tests/failures', STREAMS): [
        'use std::io',
        'run of use dolzhytik::fallible::recipe',
        *(f'{name} of use crate::test_support' for name in ('EndlessReader', 'FailingReader', 'FailingWriter')),
        *(f'fn {name}' for name in ('run_on', 'check_write', 'check_writes')),
        'fn each_request_of_the_program_refused',
        'fn each_read_fails',
        'fn an_endless_input',
        'fn each_write_fails',
    ],
    ('wasm_tool_tests/main', STREAMS): ['mod listings'],
    ('wasm_tool_tests/recipes', STREAMS): [
        'run of use dolzhytik::fallible::recipe',
        'fn check_text',
        'fn check_argument',
        'fn modules',
        'fn faults',
        'fn inputs_that_are_no_text',
        'fn arguments',
    ],
    ('wasm_types_tests/lengths', LONG): ['const TOO_MANY', 'fn params', 'fn results', 'fn fields', 'fn groups'],
}
# The tests of the table at the end, by patterns of their names.
SHOWN = {
    'requests for memory refused in turn': [
        '*refusals::*',
        'drop_in::said_lengths::memory_that_is_refused',
        'wasm_tool_tests::failures::each_request_refused',
    ],
    'rows of instructions and types': ['wasm_insn_tests::table::*', 'wasm_types_tests::rows::*'],
    'rows of the names at the root': ['drop_in::rows::*', 'drop_in::each_instruction_has_the_bytes_of_the_table'],
    'rows of the reader': ['wasm_reader_sections_tests::rows::*', 'wasm_reader_sections_tests::custom_rows::*'],
    'lengths of nearly 2^31 and sums of 2^32': ['limits::*'],
}
