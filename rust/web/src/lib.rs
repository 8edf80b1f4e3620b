//! The WebAssembly module of the JavaScript package. `border` has what JavaScript calls; the other
//! modules are safe Rust, and their tests run on any platform.
#![cfg_attr(target_arch = "wasm32", no_std)]
#![cfg_attr(
    any(not(target_arch = "wasm32"), feature = "example"),
    allow(dead_code)
)]

mod answers;
mod block;
mod failure;
mod fields;
#[path = "../../src/bin/dolzhytik/found.rs"]
mod found;
mod heap;
mod instructions;
mod items;
#[path = "../../src/bin/dolzhytik/kind_name.rs"]
mod kind_name;
mod read;
#[path = "../../src/bin/dolzhytik/relocation.rs"]
mod relocation;
mod relocations;
mod sections;
mod texts;

#[cfg(target_arch = "wasm32")]
mod border;
