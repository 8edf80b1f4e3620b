//! Counts the calls of each function of a module.
//!
//! ```sh
//! cargo run --example coverage -- in.wasm -o out.wasm
//! ```
//!
//! The written module exports a global `coverage.N` for each function that it defines. N is the
//! index of the function, which first adds 1 to the global. Sections other than globals, exports
//! and code keep their payloads.
//!
//! Offsets into the code become wrong. The program fails if a custom section holds such offsets, as
//! those of ordinary debug builds do. With the option `--drop-offsets` it drops these sections, and
//! says which.
use dolzhytik::Module;
use dolzhytik::fallible::{
    self, ConstExpr, EntityType, ExportKind, ExportSection, Global, GlobalSection, GlobalType,
    Imports, InstructionSink, Refused, ValType,
};
use dolzhytik::reader::remap::{Position, Prologue, insert_code, insert_section};
use dolzhytik::reader::{Items, Sections};
use std::{env, error, fs};

type Result<T> = std::result::Result<T, Box<dyn error::Error>>;

/// Numbers of a module that its counters depend on.
#[derive(Default)]
struct Numbers {
    /// The imported functions, and so the index of the first one with a body.
    functions: u32,
    /// The globals, and so the index of the first counter.
    globals: u32,
    bodies: u32,
}

impl Numbers {
    fn import(&mut self, ty: EntityType) {
        match ty {
            EntityType::Function(_) | EntityType::FunctionExact(_) => self.functions += 1,
            EntityType::Global(_) => self.globals += 1,
            _ => {}
        }
    }

    fn of(module: &[u8]) -> Result<Numbers> {
        let mut numbers = Numbers::default();
        for section in Sections::new(Global, module)? {
            let section = section?;
            if ![2, 6, 7, 10].contains(&section.id()) {
                continue;
            }
            match section.items()? {
                Items::Imports(imports) => {
                    for imports in &imports {
                        match imports {
                            Imports::Single(it) => numbers.import(it.ty),
                            Imports::Compact1 { items, .. } => {
                                items.as_slice().iter().for_each(|it| numbers.import(it.ty));
                            }
                            Imports::Compact2 { ty, names, .. } => {
                                names.as_slice().iter().for_each(|_| numbers.import(*ty));
                            }
                        }
                    }
                }
                Items::Globals(globals) => numbers.globals += globals.len() as u32,
                Items::Bodies(bodies) => numbers.bodies += bodies.len() as u32,
                Items::Exports(exports) => {
                    let taken = exports.iter().find(|it| it.name.starts_with("coverage."));
                    if let Some(export) = taken {
                        return Err(format!("the module already exports {}", export.name).into());
                    }
                }
                _ => {}
            }
        }
        Ok(numbers)
    }
}

/// Adds 1 to the counter of each body. The first counter has this index.
struct Count(u32);

impl Prologue for Count {
    fn append<S: fallible::Sink>(
        &self,
        body: u32,
        code: &mut S,
    ) -> std::result::Result<(), Refused> {
        let mut sink = InstructionSink::new(code);
        sink.global_get(self.0 + body)?;
        sink.i32_const(1)?;
        sink.i32_add()?;
        sink.global_set(self.0 + body)
    }
}

/// Returns the module without the sections that hold offsets.
fn without_offsets(module: &[u8], drop_offsets: bool) -> Result<Vec<u8>> {
    let mut kept = Module::new();
    for section in Sections::new(Global, module)? {
        let section = section?;
        match section.name().filter(|_| section.has_offsets()) {
            None => _ = kept.section(&section),
            Some(name) if drop_offsets => eprintln!("coverage: {name} is dropped"),
            Some(name) => {
                let error = format!("{name} holds offsets into the code: use --drop-offsets");
                return Err(error.into());
            }
        }
    }
    Ok(kept.finish())
}

/// Returns the module with a counter for each function.
pub fn covered(module: &[u8], drop_offsets: bool) -> Result<Vec<u8>> {
    let module = without_offsets(module, drop_offsets)?;
    let numbers = Numbers::of(&module)?;
    let ty = GlobalType {
        val_type: ValType::I32,
        mutable: true,
        shared: false,
    };
    let mut globals = GlobalSection::new(Global);
    let mut exports = ExportSection::new(Global);
    for body in 0..numbers.bodies {
        let name = format!("coverage.{}", numbers.functions + body);
        globals.global(ty, &ConstExpr::i32_const(Global, 0)?)?;
        exports.export(&name, ExportKind::Global, numbers.globals + body)?;
    }
    let module = insert_section(&module, Global, &globals, Position::Last)?;
    let module = insert_section(&module, Global, &exports, Position::Last)?;
    Ok(insert_code(&module, Global, &Count(numbers.globals))?.into())
}

fn main() -> Result<()> {
    let words: Vec<_> = env::args().skip(1).collect();
    let words: Vec<_> = words.iter().map(String::as_str).collect();
    let (input, output, drop_offsets) = match words[..] {
        [input, "-o", output] => (input, output, false),
        [input, "-o", output, "--drop-offsets"] => (input, output, true),
        _ => return Err("usage: coverage IN.wasm -o OUT.wasm [--drop-offsets]".into()),
    };
    let module = covered(&fs::read(input)?, drop_offsets)?;
    Ok(fs::write(output, module)?)
}
