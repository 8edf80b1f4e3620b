// Written by tools/to-rust from crates/wasm_bench/src/codes.rt: change that.
// The code of each instruction in the words of a workload.

pub(crate) const LOCAL_GET: u32 = 0;

pub(crate) const LOCAL_SET: u32 = 1;

pub(crate) const LOCAL_TEE: u32 = 2;

pub(crate) const I32_CONST: u32 = 3;

pub(crate) const I64_CONST: u32 = 4;

pub(crate) const F64_CONST: u32 = 5;

pub(crate) const I32_ADD: u32 = 6;

pub(crate) const I32_SUB: u32 = 7;

pub(crate) const I64_ADD: u32 = 8;

pub(crate) const I32_EQZ: u32 = 9;

pub(crate) const I32_LOAD: u32 = 10;

pub(crate) const I32_STORE: u32 = 11;

pub(crate) const CALL: u32 = 12;

pub(crate) const CALL_INDIRECT: u32 = 13;

pub(crate) const BR_IF: u32 = 14;

pub(crate) const BLOCK: u32 = 15;

pub(crate) const BLOCK_RESULT: u32 = 16;

pub(crate) const IF: u32 = 17;

pub(crate) const END: u32 = 18;

pub(crate) const DROP: u32 = 19;

pub(crate) const SELECT: u32 = 20;

pub(crate) const GLOBAL_GET: u32 = 21;

pub(crate) const GLOBAL_SET: u32 = 22;

pub(crate) const BR_TABLE: u32 = 23;

pub(crate) const REF_FUNC: u32 = 24;

pub(crate) const F32_CONST: u32 = 25;

pub(crate) const RETURN: u32 = 26;

pub(crate) const V128_CONST: u32 = 27;
