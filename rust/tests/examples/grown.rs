// Written by tools/to-rust from crates/examples/src/grown.rt: change that.
// Bodies and sections of arguments of any value. The first calls of each function prove that these
// are well-formed.

use dolzhytik::fallible::Vec;
use dolzhytik::fallible::Allocator;
use dolzhytik::fallible::laws::base::plain_name;
use dolzhytik::fallible::{Encode, Result, add_all};
use dolzhytik::fallible::Function;
use dolzhytik::fallible::Instruction;
use dolzhytik::fallible::laws::insn::{plain_instruction, plain_instructions};
use dolzhytik::fallible::laws::sections::{plain_entity, plain_memory};
use dolzhytik::fallible::{Import, ImportSection, MemorySection, MemoryType};

/// Adds an instruction that the caller passes. The only requirement is that its alignments are
/// below 16.
///
/// # Proved
///
/// ```text
/// ensures { OnOk result (HasSmallAlignments instruction.now → (x : Body) → IsWellFormedBody function.old x → IsWellFormedBody function.new (and_then x (normal_row instruction.now ∷ []))) }
/// ```
pub fn grow<A: Allocator>(function: &mut Function<A>, instruction: &Instruction<'_>) -> Result<()> {
    plain_instruction(instruction);
    function.instruction(instruction)
}

/// Adds the instructions of a list, in order. On an error, the function keeps those before the
/// failing one.
///
/// # Proved
///
/// ```text
/// ensures { OnOk result (All HasSmallAlignments instructions.now → (x : Body) → IsWellFormedBody function.old x → IsWellFormedBody function.new (and_then x (map normal_row instructions.now))) }
/// ```
pub fn grow_by_each<A: Allocator>(
    function: &mut Function<A>,
    instructions: &[Instruction<'_>],
) -> Result<()> {
    plain_instructions(instructions);
    for instruction in instructions {
        function.instruction(instruction)?;
    }
    Ok(())
}

/// Appends an import section of one import that the caller passes.
///
/// # Proved
///
/// ```text
/// ensures { OnOk result (GainsDecoding (counted_format import_format) (import_item import.now ∷ []) sink.old.items sink.new.items) }
/// ```
pub fn encode_given_import<A: Allocator + Copy>(
    sink: &mut Vec<u8, A>,
    import: &Import<'_>,
) -> Result<()> {
    plain_name(import.module);
    plain_name(import.name);
    plain_entity(import.ty);
    let mut section = ImportSection::new(*sink.allocator());
    section.import(import.module, import.name, import.ty)?;
    section.encode(sink)
}

/// Appends a memory section of the memories of a list.
///
/// # Proved
///
/// ```text
/// ensures { OnOk result (GainsDecoding (counted_format memory_type) memories.now sink.old.items sink.new.items) }
/// ```
pub fn encode_memories<A: Allocator + Copy>(
    sink: &mut Vec<u8, A>,
    memories: &[MemoryType],
) -> Result<()> {
    plain_memories(memories);
    let mut section = MemorySection::new(*sink.allocator());
    match add_all(&mut section, memories) {
        Ok(()) => section.encode(sink),
        Err((_, refused)) => Err(refused),
    }
}

/// Proves that each memory of a list is well-formed.
///
/// # Proved
///
/// ```text
/// ensures { All IsMemory memories.now }
/// ```
fn plain_memories(memories: &[MemoryType]) {
    for memory in memories {
        plain_memory(*memory);
    }
}
