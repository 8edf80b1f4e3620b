//! Modules of the worked callers in node, if it is installed: calls the compiled functions, and
//! compiles the module for a linker.
#[allow(dead_code, unused_imports, clippy::all)]
#[path = "../examples/mod.rs"]
#[rustfmt::skip]
mod examples;

use dolzhytik::fallible::Global;
use dolzhytik::reader::{ReadError, SectionKind, Sections};
use dolzhytik::{CodeSection, Encode, Instruction, Module};
use examples::{compiled_module, object_module, without_custom};
use std::process::Command;

/// Makes an instance of the module, and prints the results of its functions.
const CALLS: &str = "
const { factorial, squares } = new WebAssembly.Instance(module).exports;
console.log(factorial(0), factorial(1), factorial(5), factorial(12));
console.log(squares(0), squares(1), squares(5), squares(100));
";

/// 5! is 120 and 12! is 479001600; the squares up to 25 come to 55, and those up to 10000 to
/// 338350.
const ANSWERS: &str = "1 1 120 479001600\n0 1 55 338350\n";

/// Prints how many custom sections there are of each name.
const CUSTOM_SECTIONS: &str = "
const names = ['linking', 'producers', 'metadata.code.branch_hint'];
console.log(...names.map((name) => WebAssembly.Module.customSections(module, name).length));
";

/// What a program for the host prints of a module, or nothing where there is no `node`.
fn printed(module: &[u8], program: &str) -> Option<String> {
    let digits: String = module.iter().map(|byte| format!("{byte:02x}")).collect();
    let read =
        "const module = new WebAssembly.Module(Buffer.from(process.argv[1], 'hex'));".to_owned();
    let run = Command::new("node")
        .args(["-e", &(read + program), "--", &digits])
        .output();
    let Ok(run) = run else {
        eprintln!("there is no node: the module was not run");
        return None;
    };
    eprint!("{}", String::from_utf8_lossy(&run.stderr));
    Some(String::from_utf8_lossy(&run.stdout).into_owned())
}

#[test]
fn compiled_functions_are_called() {
    let module = compiled_module(Global).expect("accepted");
    if let Some(answers) = printed(&module, CALLS) {
        assert_eq!(answers, ANSWERS);
    }
}

#[test]
fn the_module_for_a_linker_is_valid() {
    let module = object_module(Global).expect("accepted");
    if let Some(counts) = printed(&module, CUSTOM_SECTIONS) {
        assert_eq!(counts, "1 1 1\n");
    }
}

/// Returns the module with this instruction at the start of each function, like the example of
/// `reader`.
fn with_first(instruction: &Instruction<'_>, module: &[u8]) -> Result<Vec<u8>, ReadError> {
    let mut edited = Module::new();
    for section in Sections::new(Global, module)? {
        let section = section?;
        if section.kind() != Some(SectionKind::Bodies) {
            edited.section(&section);
            continue;
        }
        let mut code = CodeSection::new();
        for body in section.bodies()? {
            let body = body?;
            let (_, instructions) = body.instructions()?;
            let (locals, expression) = body.bytes().split_at(instructions.offset());
            let mut bytes = locals.to_vec();
            instruction.encode(&mut bytes);
            bytes.extend_from_slice(expression);
            code.raw(&bytes);
        }
        edited.section(&code);
    }
    Ok(edited.finish())
}

#[test]
fn functions_of_an_edited_module_are_called() {
    let module = compiled_module(Global).expect("accepted");
    let edited = with_first(&Instruction::Nop, &module).expect("a module");
    assert!(edited.len() > module.len());
    if let Some(answers) = printed(&edited, CALLS) {
        assert_eq!(answers, ANSWERS);
    }
}

#[test]
fn a_module_without_custom_sections_has_none() {
    let module = object_module(Global).expect("accepted");
    let stripped = without_custom(&module, Global).expect("a module");
    if let Some(counts) = printed(&stripped, CUSTOM_SECTIONS) {
        assert_eq!(counts, "0 0 0\n");
    }
}
