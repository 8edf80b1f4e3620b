//! The workloads of `bench/` in the build by rustc. The drivers call them as those of the proved
//! build.
use calls::{code, data, decoding, exports, functions, imports, line, name_section, types};
use dolzhytik::fallible::Global;
use std::slice;


#[allow(unused_imports, unused_variables, clippy::all)]
#[rustfmt::skip]
mod calls;

/// Defines the function that a driver calls for a workload. Its arguments are lists with their
/// lengths, numbers, and the buffer of the result.
macro_rules! workload {
    ($name:ident of $module:ident: [$($list:ident $len:ident: $item:ty),*] [$($number:ident),*] [$($out:ident $out_len:ident)?]) => {
        /// # Safety
        ///
        /// Each pointer is valid for as many items as its length says, and the memory that is
        /// written overlaps nothing else.
        #[unsafe(no_mangle)]
        pub unsafe extern "C" fn $name(
            $($list: *const $item, $len: usize,)*
            $($number: u32,)*
            $($out: *mut u8, $out_len: usize,)?
        ) -> u64 {
            $(let $list = unsafe { slice::from_raw_parts($list, $len) };)*
            $(let $out = unsafe { slice::from_raw_parts_mut($out, $out_len) };)?
            $module::$name(Global, $($list,)* $($number,)* $($out)?)
        }
    };
}

workload!(wb_code of code: [words words_len: u32] [mode, phase] [out out_len]);
workload!(wb_line of line: [operands operands_len: u32] [phase] [out out_len]);
workload!(wb_types of types: [words words_len: u32] [phase] [out out_len]);
workload!(wb_functions of functions: [types types_len: u32] [phase] [out out_len]);
workload!(wb_exports of exports: [names names_len: u8, lens lens_len: u32, kinds kinds_len: u8, indices indices_len: u32] [phase] [out out_len]);
workload!(wb_imports of imports: [names names_len: u8, lens lens_len: u32, kinds kinds_len: u8, indices indices_len: u32] [phase] [out out_len]);
workload!(wb_names of name_section: [names names_len: u8, lens lens_len: u32, indices indices_len: u32] [phase] [out out_len]);
workload!(wb_data of data: [bytes bytes_len: u8] [segment, phase] [out out_len]);
workload!(wb_read of decoding: [section section_len: u8] [] []);
workload!(wb_walk of decoding: [body body_len: u8] [] []);
