//! The example `coverage`: node runs modules with counters, which are then the numbers of calls
//! that the programs make, and the sections without counters keep their payloads.
#[allow(dead_code, reason = "`main` is not called")]
#[path = "../../examples/coverage.rs"]
mod example;
#[allow(dead_code, unused_imports, clippy::all)]
#[path = "../examples/mod.rs"]
#[rustfmt::skip]
mod examples;
mod proved;
mod samples;
mod sections;
#[allow(dead_code, unused_imports, clippy::all)]
#[path = "../test_support/mod.rs"]
#[rustfmt::skip]
mod test_support;
#[path = "../support/tools.rs"]
mod tools;

use example::covered;
use samples::{exports_of, module_of_builders};
use std::fs;

/// Makes an instance of the module of builders, whose import counts its calls.
const BUILT: &str = "
let steps = 0;
const env = { step: () => { steps += 1; }, base: 100 };
const { exports } = new WebAssembly.Instance(module, { env });
exports.main(10);
exports.main(5);
const count = (index) => exports['coverage.' + index].value;
console.log(steps, exports.own.value, count(1), count(2), count(3), count(4));
console.log(Object.keys(exports).join(' '));
";

#[test]
fn a_module_of_builders() {
    let module = covered(&module_of_builders(), false).expect("a module");
    // `main` calls the function 2 for each step of a loop, which calls the import twice. The
    // function 3 is not called, and the start function once.
    let exports = "main own coverage.1 coverage.2 coverage.3 coverage.4";
    if let Some(counts) = tools::run(&module, BUILT) {
        assert_eq!(counts, format!("30 101n 2 15 0 1\n{exports}\n"));
    }
}

/// Compiles the C file with these options, and returns the linked module.
fn compiled(options: &[&str], name: &str) -> Option<Vec<u8>> {
    let object = tools::compile("coverage/calls.c", options, &format!("{name}.o"))?;
    let module = tools::link(&[&object], &[], &format!("{name}.wasm"))?;
    Some(fs::read(module).expect("a file"))
}

/// Returns a program that calls the functions of the C file and prints the counters, which are
/// those of these functions of the module.
fn calls(module: &[u8]) -> String {
    let names = ["fib", "is_even", "is_odd", "unused", "apply"];
    let exports = exports_of(module);
    let counters = names.map(|name| {
        let function = exports.iter().find(|export| export.name == name);
        let index = function.expect("an export").index;
        format!("exports['coverage.{index}'].value")
    });
    let counters = counters.join(", ");
    format!(
        "
const {{ exports }} = new WebAssembly.Instance(module);
console.log(exports.fib(15), exports.is_even(10), exports.apply(3), exports.apply(2));
console.log({counters});
"
    )
}

/// fib(15) makes 1973 calls and fib(2) makes 3. is_even(10) makes 6 calls of itself and 5 of
/// `is_odd`, and is_even(3) makes 2 of each.
const COUNTS: &str = "610 1 0 1\n1976 8 7 0 2\n";

#[test]
fn a_compiled_module() {
    let Some(module) = compiled(&["-O0"], "calls") else {
        return;
    };
    let module_with_counters = covered(&module, false).expect("a module");
    if let Some(counts) = tools::run(&module_with_counters, &calls(&module)) {
        assert_eq!(counts, COUNTS);
    }
}

#[test]
fn a_compiled_module_with_debug_information() {
    let Some(module) = compiled(&["-O0", "-g"], "calls-debug") else {
        return;
    };
    let error = covered(&module, false).expect_err("offsets").to_string();
    assert!(error.starts_with(".debug_"), "{error}");
    let module_with_counters = covered(&module, true).expect("a module");
    if let Some(counts) = tools::run(&module_with_counters, &calls(&module)) {
        assert_eq!(counts, COUNTS);
    }
}
