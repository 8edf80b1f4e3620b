//! Writes a relocatable object file, which `wasm-ld` links with the objects of a C compiler.
//!
//! ```sh
//! cargo run --example object -- ours.o
//! clang --target=wasm32 -O1 -c tests/object/squares.c -o squares.o
//! wasm-ld --no-entry ours.o squares.o -o linked.wasm
//! ```
//!
//! The linker sets the operands that refer to functions, globals and addresses. So each of them is
//! padded to five bytes, and a relocation has its offset. The offset is `byte_len()` of the body
//! before the operand is appended. The formats are those of the WebAssembly tool conventions,
//! `Linking.md`.
use dolzhytik::{
    CodeSection, CustomSection, Encode, EntityType, Function, FunctionSection, GlobalType,
    ImportSection, LinkingSection, MemoryType, Module, SymbolTable, TypeSection, ValType,
    encoding_size,
};

// Types of relocations.
const R_WASM_FUNCTION_INDEX_LEB: u8 = 0;
const R_WASM_MEMORY_ADDR_LEB: u8 = 3;
const R_WASM_GLOBAL_INDEX_LEB: u8 = 7;

// Indices of symbols. A symbol of a function has the index of the function.
const ADD_SQUARES: u32 = 0;
const SUM_OF_SQUARES: u32 = 1;
const COUNT: u32 = 2;
const STACK_POINTER: u32 = 3;
const CALLS: u32 = 4;

/// A body that is being built, and its relocations: type, offset in the body, and symbol.
struct Body(Function, Vec<(u8, usize, u32)>);

impl Body {
    /// Appends an opcode, any operands but the last, and the last with its relocation.
    fn relocated(&mut self, opcode: &[u8], kind: u8, symbol: u32) {
        let Body(function, relocations) = self;
        function.raw(opcode.iter().copied());
        relocations.push((kind, function.byte_len(), symbol));
        // In this object the global has the index 0, and the address is 0.
        let is_function = kind == R_WASM_FUNCTION_INDEX_LEB;
        function.raw(padded(if is_function { symbol } else { 0 }));
    }
}

/// Returns the LEB128 encoding of a number in five bytes.
fn padded(number: u32) -> [u8; 5] {
    let group = |index: u32| (number >> (7 * index)) as u8 | 0x80;
    [group(0), group(1), group(2), group(3), group(4) & 0x7F]
}

/// `int sum_of_squares(int a, int b) { int squares[2]; return add_squares(squares, a, b); }`
fn sum_of_squares() -> Body {
    let mut body = Body(Function::new([(1, ValType::I32)]), Vec::new());
    body.relocated(&[0x23], R_WASM_GLOBAL_INDEX_LEB, STACK_POINTER); // global.get
    body.0.instructions().i32_const(16).i32_sub().local_tee(2);
    body.relocated(&[0x24], R_WASM_GLOBAL_INDEX_LEB, STACK_POINTER); // global.set
    body.0.instructions().local_get(2).local_get(0).local_get(1);
    body.relocated(&[0x10], R_WASM_FUNCTION_INDEX_LEB, ADD_SQUARES); // call
    body.0.instructions().local_get(2).i32_const(16).i32_add();
    body.relocated(&[0x24], R_WASM_GLOBAL_INDEX_LEB, STACK_POINTER); // global.set
    body.0.instructions().end();
    body
}

/// `void count(void) { calls++; }`
fn count() -> Body {
    let mut body = Body(Function::new([]), Vec::new());
    body.0.instructions().i32_const(0).i32_const(0);
    body.relocated(&[0x28, 0x02], R_WASM_MEMORY_ADDR_LEB, CALLS); // i32.load
    body.0.instructions().i32_const(1).i32_add();
    body.relocated(&[0x36, 0x02], R_WASM_MEMORY_ADDR_LEB, CALLS); // i32.store
    body.0.instructions().end();
    body
}

/// Returns the code section of the bodies, and the data of its relocation section.
fn code(bodies: &[Body]) -> (CodeSection, Vec<u8>) {
    let (mut code, mut data) = (CodeSection::new(), Vec::new());
    3u32.encode(&mut data); // the index of the code section
    let total: usize = bodies.iter().map(|Body(_, list)| list.len()).sum();
    total.encode(&mut data);
    // Offsets count from the payload, which begins with the number of bodies.
    let entries = encoding_size(bodies.len() as u32);
    for Body(function, relocations) in bodies {
        code.function(function);
        let start = entries + code.byte_len() - function.byte_len();
        for (kind, offset, symbol) in relocations {
            kind.encode(&mut data);
            (start + offset).encode(&mut data);
            symbol.encode(&mut data);
            if *kind == R_WASM_MEMORY_ADDR_LEB {
                0i32.encode(&mut data); // the addend
            }
        }
    }
    (code, data)
}

/// Returns the symbols by their indices. An undefined function or global has its import's name.
fn symbols() -> SymbolTable {
    let mut symbols = SymbolTable::new();
    symbols.function(SymbolTable::WASM_SYM_UNDEFINED, ADD_SQUARES, None);
    symbols.function(0, SUM_OF_SQUARES, Some("sum_of_squares"));
    symbols.function(0, COUNT, Some("count"));
    symbols.global(SymbolTable::WASM_SYM_UNDEFINED, 0, None);
    symbols.data(SymbolTable::WASM_SYM_UNDEFINED, "calls", None);
    symbols
}

/// Returns the object file.
pub fn object() -> Vec<u8> {
    let int = ValType::I32;
    let mut types = TypeSection::new();
    types.ty().function([int, int, int], [int]);
    types.ty().function([int, int], [int]);
    types.ty().function([], []);
    let memory = MemoryType {
        minimum: 0,
        maximum: None,
        memory64: false,
        shared: false,
        page_size_log2: None,
    };
    let stack_pointer = GlobalType {
        val_type: int,
        mutable: true,
        shared: false,
    };
    let mut imports = ImportSection::new();
    imports.import("env", "__linear_memory", memory);
    imports.import("env", "__stack_pointer", stack_pointer);
    imports.import("env", "add_squares", EntityType::Function(0));
    let (code, data) = code(&[sum_of_squares(), count()]);
    let (name, data) = ("reloc.CODE".into(), data.into());
    let mut module = Module::new();
    module.section(&types).section(&imports);
    module.section(FunctionSection::new().function(1).function(2));
    module.section(&code);
    module.section(LinkingSection::new().symbol_table(&symbols()));
    module.section(&CustomSection { name, data });
    module.finish()
}

fn main() -> Result<(), Box<dyn std::error::Error>> {
    let path = std::env::args_os().nth(1).ok_or("usage: object OUT.o")?;
    Ok(std::fs::write(path, object())?)
}
