// Written by tools/to-rust from crates/examples/src/large.rt: change that.
// A module with numbers of 64 bits.

use dolzhytik::fallible::Vec;
use dolzhytik::fallible::Allocator;
use dolzhytik::fallible::{Module, Result, ValType};
use dolzhytik::fallible::ConstExpr;
use dolzhytik::fallible::{GlobalSection, GlobalType, MemorySection, MemoryType};

/// Returns a module of a memory whose addresses have 64 bits, and of a constant that needs more
/// than 32.
///
/// # Proved
///
/// ```text
/// ensures { IfOk result (λ bytes. DecodesSections large_sections bytes.items) }
/// ```
pub fn large_module<A: Allocator + Copy>(alloc: A) -> Result<Vec<u8, A>> {
    let mut module = Module::new(alloc)?;
    module.section(&memories(alloc)?)?;
    module.section(&globals(alloc)?)?;
    Ok(module.finish())
}

/// Returns a memory of 1 page, which grows to 8589934592 at most.
///
/// # Proved
///
/// ```text
/// ensures { IfOk result (λ section. ContainsMemories section (large_memory ∷ [])) }
/// ```
fn memories<A: Allocator + Copy>(alloc: A) -> Result<MemorySection<A>> {
    let mut section = MemorySection::new(alloc);
    section.memory(MemoryType {
        minimum: 1,
        maximum: Some(8589934592),
        memory64: true,
        shared: false,
        page_size_log2: None,
    })?;
    Ok(section)
}

/// Returns a global of the number -1099511627776.
///
/// # Proved
///
/// ```text
/// ensures { IfOk result (λ section. ContainsGlobals section (large_constant ∷ [])) }
/// ```
fn globals<A: Allocator + Copy>(alloc: A) -> Result<GlobalSection<A>> {
    let global_type = GlobalType {
        val_type: ValType::I64,
        mutable: false,
        shared: false,
    };
    let mut section = GlobalSection::new(alloc);
    section.global(global_type, &ConstExpr::i64_const(alloc, -1099511627776)?)?;
    Ok(section)
}
