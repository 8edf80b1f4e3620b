//! `Debug` as the Rust crate derives it: a builder is a struct of the bytes of its entries and mostly
//! their number. The encoder of a type has a flag for types in components, which have a prefix.
use super::bytes::append;
use super::{
    ConstExpr, CoreDumpSection, CoreDumpStackSection, CoreTypeEncoder, FuncType, Function,
};
use super::{LinkingSection, Module};
use crate::alloc::Global;
use crate::base::{Padded, Readable};
use crate::code::const_expr::Stored;
use crate::custom::linking::VERSION;
use alloc_crate::vec::Vec;
use core::fmt;

/// Implements `Debug` of a struct by its fields.
macro_rules! fields {
    ($($name:ident $(<$of:lifetime>)? |$value:ident| { $($field:ident: $shown:expr),* })*) => {
        $(
            impl fmt::Debug for $name $(<$of>)? {
                // Inline, so that it is compiled only where it is used.
                #[inline]
                fn fmt(&self, f: &mut fmt::Formatter<'_>) -> fmt::Result {
                    let $value = &self.0;
                    f.debug_struct(stringify!($name))
                        $(.field(stringify!($field), &$shown))*
                        .finish()
                }
            }
        )*
    };
}

fields! {
    Module |it| { bytes: it.bytes }
    Function |it| { bytes: it.bytes }
    FuncType |it| { params_results: [it.params(), it.results()].concat(), len_params: it.params().len() }
    CoreTypeEncoder<'_> |it| { push_prefix_if_component_core_type: false, bytes: it.section.entries.bytes }
    LinkingSection |it| { bytes: versioned(&it.entries.bytes) }
    CoreDumpSection |it| { name: name_in(&it.data) }
    CoreDumpStackSection |it| { frame_bytes: it.frames.bytes, count: it.frames.count, name: name_in(&it.front) }
}

impl fmt::Debug for ConstExpr {
    #[inline]
    fn fmt(&self, f: &mut fmt::Formatter<'_>) -> fmt::Result {
        let bytes = self.clone().into_bytes();
        f.debug_struct("ConstExpr")
            .field("bytes", &&bytes[..])
            .finish()
    }
}

/// Returns the version of a linking section before its entries: it is a part of the bytes.
fn versioned(entries: &[u8]) -> Vec<u8> {
    let mut bytes = Vec::new();
    append(&(VERSION, Stored(entries)), &mut bytes);
    bytes
}

/// Returns the name behind the first byte of an entry of a core dump.
fn name_in(marked: &[u8]) -> &str {
    <&str as Readable<'_, Global, Padded>>::read(&marked[1..], Global).map_or("", |(name, _)| name)
}
