//! The program of docs/MOVING.md, as that page shows it.
use dolzhytik as wasm_encoder;

use wasm_encoder::{
    CodeSection, ExportKind, ExportSection, Function, FunctionSection, Instruction, Module,
    TypeSection, ValType,
};

/// An expression over one variable.
enum Expr {
    X,
    Number(i64),
    Sum(Box<Expr>, Box<Expr>),
    Product(Box<Expr>, Box<Expr>),
}

fn emit(expr: &Expr, body: &mut Function) {
    let operation = match expr {
        Expr::X => Instruction::LocalGet(0),
        Expr::Number(number) => Instruction::I64Const(*number),
        Expr::Sum(a, b) | Expr::Product(a, b) => {
            emit(a, body);
            emit(b, body);
            match expr {
                Expr::Sum(..) => Instruction::I64Add,
                _ => Instruction::I64Mul,
            }
        }
    };
    body.instruction(&operation);
}

/// Compiles the expression to an exported function of its variable.
fn compile(expr: &Expr) -> Module {
    let mut types = TypeSection::new();
    types.ty().function([ValType::I64], [ValType::I64]);
    let mut functions = FunctionSection::new();
    functions.function(0);
    let mut exports = ExportSection::new();
    exports.export("f", ExportKind::Func, 0);
    let mut body = Function::new([]);
    emit(expr, &mut body);
    body.instructions().end();
    let mut code = CodeSection::new();
    code.function(&body);

    let mut module = Module::new();
    module.section(&types).section(&functions);
    module.section(&exports).section(&code);
    module
}

use wasm_encoder::NameSection;
use wasm_encoder::fallible::{self, Global, Refused};

/// Names the module. A name that is too long, or an allocation that fails, is an error.
fn named(name: &str) -> Result<NameSection, Refused> {
    let mut names = fallible::NameSection::new(Global);
    names.module(name)?;
    Ok(names.into())
}

/// Encodes the instructions as the body of a function without parameters.
fn body(instructions: &[fallible::Instruction<'_>]) -> Result<wasm_encoder::Function, Refused> {
    let mut body = fallible::Function::new(Global, [])?;
    for instruction in instructions {
        body.instruction(instruction)?;
    }
    Ok(body.into())
}

use wasm_encoder::fallible::{CowSlice, CowStr, CustomSection};

/// Builds a module of one custom section, `note`, without a panic or an abort.
fn note(data: &[u8]) -> Result<Vec<u8>, Refused> {
    let note: CustomSection = CustomSection {
        name: CowStr::Borrowed("note"),
        bytes: CowSlice::Borrowed(data),
    };
    let mut module = fallible::Module::new(Global)?;
    module.section(&note)?;
    Ok(module.finish().into())
}

#[test]
fn the_program_makes_its_module() {
    let x = || Box::new(Expr::X);
    let square = Expr::Product(x(), x());
    let expr = Expr::Sum(Box::new(square), Box::new(Expr::Number(-1)));
    let mut module = compile(&expr);
    let bytes = "0061736d01000000 01060160017e017e 03020100 070501016600 00 0a0c010a00 2000 2000 7e 427f 7c 0b";
    assert_eq!(module.as_slice(), crate::checks::bytes_of(bytes));
    module.section(&named("m").unwrap());
    let end = body(&[
        fallible::Instruction::LocalGet(0),
        fallible::Instruction::End,
    ])
    .unwrap();
    assert_eq!(end.into_raw_body(), [0, 0x20, 0, 0x0b]);
    assert!(module.finish().ends_with(b"\x00\x09\x04name\x00\x02\x01m"));
    assert!(note(b"text").unwrap().ends_with(b"\x00\x09\x04notetext"));
}

/// The page is in the repository, and not in the published package.
#[test]
fn the_page_shows_these_programs() {
    let page = concat!(env!("CARGO_MANIFEST_DIR"), "/../docs/MOVING.md");
    let Ok(page) = std::fs::read_to_string(page) else {
        return;
    };
    let program = concat!(include_str!("moved.rs"), include_str!("reencoded.rs"));
    let blocks: Vec<&str> = page.split("```rust\n").skip(1).collect();
    assert_eq!(blocks.len(), 3);
    for block in blocks {
        let block = block.split("```").next().unwrap();
        assert!(program.contains(block), "{block}");
    }
}
