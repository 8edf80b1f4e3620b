//! `dolzhytik build`.
use crate::program::{Answer, Folder};
use crate::samples::{SHORT, SHORT_NAME, module};

const RECIPE: &str = "\
type 60027f7f017f
func 0
export f func 0
body 200020016a0b
name m
";

#[test]
fn recipes() {
    let folder = Folder::new("build");
    let [types, functions, exports, code] = SHORT;
    let expected = module(&[types, functions, exports, code, SHORT_NAME]);
    folder.write("add.txt", RECIPE);
    let built = folder.call(&["build", "add.txt", "-o", "add.wasm"], b"");
    assert_eq!(built, Answer::of(""));
    assert_eq!(folder.read("add.wasm"), expected);
    assert_eq!(folder.names(), ["add.txt", "add.wasm"]);
    let built = folder.call(&["build", "-", "-o", "-"], RECIPE.as_bytes());
    assert_eq!(built, Answer::of(expected));
}

/// The recipe of docs/RECIPES.md.
const VERSION_2: &str = "\
# Adds two numbers, and counts the calls.
version 2
type 60027f7f017f                          # (i32, i32) -> i32
import env calls global mut i32
table 1 1
func 0
elem 0 0                                   # function 0, at the offset 0 of the table
export add func 0
locals 1 i32                               # local 2
body 200020016a2102230041016a240020020b
";

#[test]
fn recipes_of_version_2() {
    let folder = Folder::new("build_version_2");
    let built = folder.call(&["build", "-", "-o", "-"], VERSION_2.as_bytes());
    let expected = module(&[
        "01 07 01 60 02 7f 7f 01 7f",
        "02 0e 01 03 656e76 05 63616c6c73 03 7f 01",
        "03 02 01 00",
        "04 05 01 70 01 01 01",
        "07 07 01 03 616464 00 00",
        "09 07 01 00 41 00 0b 01 00",
        "0a 16 01 14 01 01 7f 20 00 20 01 6a 21 02 23 00 41 01 6a 24 00 20 02 0b",
    ]);
    assert_eq!(built, Answer::of(expected));
}

#[test]
fn faults() {
    let folder = Folder::new("build_faults");
    folder.write("b.wasm", "as it was");
    let check = |recipe: &[u8], why: &str| {
        folder.write("a.txt", recipe);
        let fault = folder.call(&["build", "a.txt", "-o", "b.wasm"], b"");
        assert_eq!(fault, Answer::fault(&format!("a.txt: {why}")));
        let fault = folder.call(&["build", "-", "-o", "b.wasm"], recipe);
        assert_eq!(fault, Answer::fault(&format!("standard input: {why}")));
        assert_eq!(folder.read("b.wasm"), b"as it was");
        assert_eq!(folder.names(), ["a.txt", "b.wasm"]);
    };
    check(b"func 0\nfunk 1\n", "line 2: unknown command");
    check(b"export f function 0", "line 1: unknown command");
    check(b"func 4294967296", "line 1: bad number");
    check(b"func 0\n\nbody 0", "line 3: bad hex");
    check(b"func", "line 1: missing word");
    check(b"func 0\nname \xff\n", "line 2: not UTF-8");
    check(b"\xc3", "line 1: not UTF-8");
    let binary = "a binary module, and no recipe";
    check(&module(&SHORT), binary);
    // A component.
    check(b"\0asm\x0d\0\x01\0", binary);
    check(b"\0as", "line 1: unknown command");
    check(b"version 2\nfunc 0 # 1\nfunc 0 1", "line 3: surplus word");
    check(b"version 2\nlocals 1 i8", "line 2: unknown type");
    check(
        b"version 2\nlocals 1 i32",
        "behind the last line: locals without a body",
    );
    check(b"version 3", "line 1: unknown command");
}
