//! What the tests' host is in Rattle: the runtime that a test is handed, and what stops it.
#![allow(dead_code, unused_macros, reason = "no test program uses all of it")]
use dolzhytik::fallible::Global;

/// The runtime that a test is handed.
pub struct HostRuntime;

impl HostRuntime {
    pub fn alloc(&self) -> Global {
        Global
    }
}

/// What can stop a test.
pub trait Abort {}

impl Abort for HostRuntime {}

impl<T: Abort> Abort for &T {}

macro_rules! assert {
    ($rt:expr; $($rest:tt)*) => {{
        let _: &dyn $crate::host::Abort = &$rt;
        ::std::assert!($($rest)*)
    }};
}

macro_rules! assert_eq {
    ($rt:expr; $($rest:tt)*) => {{
        let _: &dyn $crate::host::Abort = &$rt;
        ::std::assert_eq!($($rest)*)
    }};
}

macro_rules! panic {
    ($rt:expr; $($rest:tt)*) => {{
        let _: &dyn $crate::host::Abort = &$rt;
        ::std::panic!($($rest)*)
    }};
}

macro_rules! format {
    (in $alloc:expr; $($rest:tt)*) => {{
        let _: &dyn dolzhytik::fallible::Allocator = &$alloc;
        Ok::<_, std::fmt::Error>(::std::format!($($rest)*))
    }};
}
