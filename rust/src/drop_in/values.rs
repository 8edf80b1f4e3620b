//! Conversions, orders, constants and predicates of the values that the proved calls take.
use crate::base::{AbstractHeapType, HeapType, RefType, ValType};
use crate::immediates::{Ieee32, Ieee64};
use crate::types::StorageType;
use core::cmp::Ordering;
use core::fmt;

/// Implements the conversions between floats and their bits, and `Debug` as a tuple of the bits.
macro_rules! floats {
    ($($float:ident $bits:ident)*) => {
        $(
            impl From<$float> for $bits {
                fn from(value: $float) -> Self {
                    $bits::new(value.to_bits())
                }
            }

            impl From<$bits> for $float {
                fn from(value: $bits) -> Self {
                    $float::from_bits(value.bits())
                }
            }

            impl fmt::Debug for $bits {
                fn fmt(&self, f: &mut fmt::Formatter<'_>) -> fmt::Result {
                    f.debug_tuple(stringify!($bits)).field(&self.bits()).finish()
                }
            }
        )*
    };
}

floats! { f32 Ieee32 f64 Ieee64 }

impl From<RefType> for ValType {
    fn from(ty: RefType) -> Self {
        ValType::Ref(ty)
    }
}

impl From<ValType> for StorageType {
    fn from(ty: ValType) -> Self {
        StorageType::Val(ty)
    }
}

impl RefType {
    /// Returns the type of references to values of an abstract heap type.
    pub const fn new_abstract(ty: AbstractHeapType, nullable: bool, shared: bool) -> Self {
        RefType {
            nullable,
            heap_type: HeapType::Abstract { shared, ty },
        }
    }
}

impl ValType {
    /// The type of references to functions, or null.
    pub const FUNCREF: ValType = ValType::Ref(RefType::FUNCREF);

    /// The type of references to values of the host, or null.
    pub const EXTERNREF: ValType = ValType::Ref(RefType::EXTERNREF);

    /// Returns `true` for integers and floats.
    pub const fn is_numeric(&self) -> bool {
        matches!(
            self,
            ValType::I32 | ValType::I64 | ValType::F32 | ValType::F64
        )
    }

    /// Returns `true` for `v128`.
    pub const fn is_vector(&self) -> bool {
        matches!(self, ValType::V128)
    }

    /// Returns `true` for references.
    pub const fn is_reference(&self) -> bool {
        matches!(self, ValType::Ref(_))
    }
}

impl StorageType {
    /// Returns the type of a value that is read from such a field: `i32` for a packed integer.
    pub const fn unpack(&self) -> ValType {
        match self {
            StorageType::I8 | StorageType::I16 => ValType::I32,
            StorageType::Val(ty) => *ty,
        }
    }
}

impl Ord for HeapType {
    fn cmp(&self, other: &Self) -> Ordering {
        let key = |ty: &HeapType| match *ty {
            HeapType::Abstract { shared, ty } => (0, u32::from(ty as u8), shared),
            HeapType::Concrete(index) => (1, index, false),
            HeapType::Exact(index) => (2, index, false),
        };
        key(self).cmp(&key(other))
    }
}

impl PartialOrd for HeapType {
    fn partial_cmp(&self, other: &Self) -> Option<Ordering> {
        Some(self.cmp(other))
    }
}
