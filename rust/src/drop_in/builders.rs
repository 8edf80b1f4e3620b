//! The types of the root that are proved builders, and the traits that they have.

/// Returns a field of a builder: the bytes of its entries, or their number.
macro_rules! field {
    ($builder:tt bytes) => {
        &$builder.0.entries.bytes
    };
    ($builder:tt $number:ident) => {
        &$builder.0.entries.count
    };
}

/// Implements a trait of a type over a proved builder.
macro_rules! implement {
    ($name:ident Clone) => {
        impl Clone for $name {
            #[inline]
            fn clone(&self) -> Self {
                $name($crate::drop_in::done(self.0.clone()))
            }
        }
    };
    ($name:ident Default $($argument:literal)?) => {
        impl Default for $name {
            fn default() -> Self {
                $name::new($($argument)?)
            }
        }
    };
    ($name:ident Encode) => {
        impl $crate::Encode for $name {
            #[inline]
            fn encode(&self, sink: &mut alloc_crate::vec::Vec<u8>) {
                $crate::drop_in::bytes::append(&self.0, sink)
            }
        }
    };
    ($name:ident Section $id:ident) => {
        implement!($name Encode);

        impl $crate::Section for $name {
            #[inline]
            fn id(&self) -> u8 {
                $crate::SectionId::$id.into()
            }

            fn append_to(&self, dst: &mut alloc_crate::vec::Vec<u8>) {
                let mut sink = $crate::ending::Growing(dst);
                $crate::drop_in::done($crate::base::Section::append_to(&self.0, &mut sink))
            }
        }
    };
    // The names of the fields: `bytes`, and the number of entries by another name.
    ($name:ident Debug $($field:ident)*) => {
        impl core::fmt::Debug for $name {
            // Inline, so that it is compiled only where it is used.
            #[inline]
            fn fmt(&self, f: &mut core::fmt::Formatter<'_>) -> core::fmt::Result {
                f.debug_struct(stringify!($name))
                    $(.field(stringify!($field), field!(self $field)))*
                    .finish()
            }
        }
    };
    // The conversion from the proved builder, whose calls return errors.
    ($name:ident From $module:ident |$built:ident| $value:expr) => {
        #[doc = concat!("Converts a value built by the calls of [`fallible::", stringify!($name), "`](crate::fallible::", stringify!($name), ").")]
        impl From<$crate::$module::$name> for $name {
            // Inline, so that it is compiled only where it is used.
            #[inline]
            fn from($built: $crate::$module::$name) -> Self {
                $name($value)
            }
        }
    };
}

/// Defines types over the builders of `joined`, each with `new`, the conversion from the builder
/// that also keeps where its entries end, and the traits in braces.
macro_rules! builders {
    ($module:ident, $fn:tt = $new:expr; $($name:ident $({ $($part:tt)+ })+)+) => {
        $(
            builders!(@ $module $fn $name $new);
            $(implement!($name $($part)+);)+
        )+
    };
    (@ $module:ident ($($fn:ident)+) $name:ident $new:expr) => {
        #[doc = text!($name)]
        #[doc = concat!("\n\nIt is built by the calls of the proved [`fallible::joined::", stringify!($name), "`](crate::fallible::joined::", stringify!($name), ").")]
        ///
        /// # Panics
        ///
        /// Its calls panic where a count or length would pass 4294967295. A failed allocation ends
        /// the program.
        pub struct $name(pub(super) $crate::fallible::joined::$name<$crate::ending::Root>);

        #[allow(clippy::new_without_default, reason = "two sections of core dumps have no default")]
        impl $name {
            /// Creates a builder without entries.
            pub $($fn)+ new() -> Self {
                $name($new)
            }
        }

        implement!($name From $module |built| {
            let mut builder = $name::new().0;
            builder.entries = built.entries.into();
            builder
        });
    };
}
