//! Tests of the compiler: what stands in its module, and what the program says that it is made of.
use super::compile;
use std::process::Command;

const SOURCE: &str = r#"
(fn fib (n) (if (< n 2) n (+ (fib (- n 1)) (fib (- n 2)))))
(fn sum (n) (let s 0) (while n (set s (+ s n)) (set n (- n 1))) s)
(fn length (text) (let at text) (while (byte at) (set at (+ at 1))) (- at text))
(fn triple (x) (* x 3))
(fn twice (f x) (apply f (apply f x)))
(fn shout (text)
  (let at text)
  (while (byte at)
    (if (& (>= (byte at) 97) (<= (byte at) 122)) (put at (- (byte at) 32)) 0)
    (set at (+ at 1)))
  text)
(fn main ()
  (print (fib 20)) (print (sum 100)) (print (length "hello, world"))
  (print (twice (ref triple) 7)) (print (do (count) (count) (count)))
  (print (- 0 2147483647)) (say (shout "hello, world")))
"#;

/// Runs the module whose digits it is given, and tells what the program said.
const HOST_PROGRAM: &str = r#"
let memory;
const text = (at) => {
  const bytes = new Uint8Array(memory.buffer, at);
  return String.fromCharCode(...bytes.subarray(0, bytes.indexOf(0)));
};
const module = new WebAssembly.Module(Buffer.from(process.argv[1], 'hex'));
const host = { print: (n) => (console.log(n), n), say: (at) => (console.log(text(at)), at) };
const instance = new WebAssembly.Instance(module, { host });
memory = instance.exports.memory;
instance.exports.main();
console.log(instance.exports.fib(10), WebAssembly.Module.customSections(module, 'name').length);
"#;

/// A reader is what the Rust crate hasn't.
#[test]
fn its_module_is_read_section_by_section() {
    use wasm_encoder::{fallible::Global, reader::list_module};

    let module = compile(SOURCE);
    let sections = list_module(Global, &module).expect("a module");
    let ids: Vec<u8> = sections.iter().map(|section| section.id).collect();
    assert_eq!(ids, [1, 2, 3, 4, 5, 6, 7, 9, 12, 10, 11, 0, 0]);
    let items: Vec<_> = sections.iter().map(|section| section.items).collect();
    let known = [2, 7, 1, 1, 1, 8, 1, 1, 7, 1].map(Some);
    assert_eq!(items[1..11], known);
}

/// What the program says, where there is a `node` to run it.
#[test]
fn its_module_runs_in_node() {
    let module = compile(SOURCE);
    let digits: String = module.iter().map(|byte| format!("{byte:02x}")).collect();
    let run = Command::new("node")
        .args(["-e", HOST_PROGRAM, "--", &digits])
        .output();
    let Ok(run) = run else {
        eprintln!("there is no node: the module was not run");
        return;
    };
    let said = String::from_utf8_lossy(&run.stdout);
    let expected = [
        "6765",
        "5050",
        "12",
        "63",
        "3",
        "-2147483647",
        "HELLO, WORLD",
        "55 1",
    ];
    let wrong = String::from_utf8_lossy(&run.stderr);
    assert_eq!(said.lines().collect::<Vec<_>>(), expected, "{wrong}");
}
