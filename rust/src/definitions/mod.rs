// Written by tools/to-rust from crates/*/specs: change that.
#![doc = include_str!("../definitions.md")]
//!
//! # Names of clauses
//!
//! These names mean the same on every page.
//!
//! | name | |
//! |---|---|
//! | `ok` | What holds after `Ok`. |
//! | `found` | After `Ok`: what the bytes encode. |
//! | `none` | What holds after an error. |
//! | `was_encodable` | After `Ok`, the counts and lengths that were encoded were at most 4294967295. |
//! | `too_long` | When the call does not return `TooLong`. |
//! | `spare` | When the call succeeds within the spare capacity. |
//! | `front` | The bytes that the sink or the effect had are the front of those that it has afterwards. |
//! | `capacity` | The capacity does not shrink. |
#![allow(non_camel_case_types)]

pub mod base;
pub mod code;
pub mod custom;
pub mod immediates;
pub mod insn;
pub mod reader;
pub mod recipe;
pub mod remap;
pub mod sections;
pub mod types;
