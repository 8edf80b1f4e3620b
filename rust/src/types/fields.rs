// Written by tools/to-rust from crates/wasm_types/src/fields.rt: change that.
// Decoding of storage and field types.

use crate::types::types::{FieldType, StorageType};
use crate::alloc::Allocator;
use crate::base::{DecodeError, Grammar, Layout, ReadFault, Readable, ValType};

/// The mutability of a field.
#[derive(Clone, Copy)]
pub(crate) struct Mutable(pub(crate) bool);

/// # Defined
///
/// ```text
/// Value = { Bool }
/// format = { coded mutable_code }
/// view = { λ m. m.0 }
/// ```
///
/// Definitions: [`coded`](crate::definitions::base::formats::coded), [`mutable_code`](crate::definitions::types::rec_types::mutable_code). [How to read clauses](crate::definitions).
impl Layout for Mutable {
    fn laws() {}
}

/// # Defined
///
/// ```text
/// may_allocate = { ⊥ }
/// ```
///
/// [How to read clauses](crate::definitions).
impl<'a, A: Allocator + Copy, G: Grammar> Readable<'a, A, G> for Mutable {
    fn read(bytes: &'a [u8], alloc: A) -> Result<(Mutable, &'a [u8]), DecodeError> {
        let (code, rest) = <u8 as Readable<'a, A, G>>::read(bytes, alloc)?;
        match code {
            0x00 => Ok((Mutable(false), rest)),
            0x01 => Ok((Mutable(true), rest)),
            _ => Err(ReadFault::UnknownTag.at(bytes)),
        }
    }
}

/// # Defined
///
/// ```text
/// Value = { Storage }
/// format = { storage_type }
/// view = { λ ty. ty }
/// ```
///
/// Definitions: [`storage_type`](crate::definitions::types::rec_types::storage_type). [How to read clauses](crate::definitions).
impl Layout for StorageType {
    fn laws() {}
}

/// # Defined
///
/// ```text
/// may_allocate = { ⊥ }
/// ```
///
/// [How to read clauses](crate::definitions).
impl<'a, A: Allocator + Copy, G: Grammar> Readable<'a, A, G> for StorageType {
    fn read(bytes: &'a [u8], alloc: A) -> Result<(StorageType, &'a [u8]), DecodeError> {
        let (tag, rest) = <u8 as Readable<'a, A, G>>::read(bytes, alloc)?;
        match tag {
            0x78 => Ok((StorageType::I8, rest)),
            0x77 => Ok((StorageType::I16, rest)),
            _ => {
                let (ty, rest) = <ValType as Readable<'a, A, G>>::read(bytes, alloc)?;
                Ok((StorageType::Val(ty), rest))
            }
        }
    }
}

/// # Defined
///
/// ```text
/// Value = { Field }
/// format = { field_type }
/// view = { λ field. field }
/// ```
///
/// Definitions: [`field_type`](crate::definitions::types::rec_types::field_type). [How to read clauses](crate::definitions).
impl Layout for FieldType {
    fn laws() {}
}

/// # Defined
///
/// ```text
/// may_allocate = { ⊥ }
/// ```
///
/// [How to read clauses](crate::definitions).
impl<'a, A: Allocator + Copy, G: Grammar> Readable<'a, A, G> for FieldType {
    fn read(bytes: &'a [u8], alloc: A) -> Result<(FieldType, &'a [u8]), DecodeError> {
        let ((element_type, Mutable(mutable)), rest) = <(StorageType, Mutable) as Readable<
            'a,
            A,
            G,
        >>::read(bytes, alloc)?;
        let field = FieldType {
            element_type,
            mutable,
        };
        Ok((field, rest))
    }
}
