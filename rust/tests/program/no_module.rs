//! Files that are no modules: each command says what the file is, and writes nothing.
use crate::program::{Answer, Folder};
use crate::samples::{PADDED, bytes_of, module};

/// Each way to call a command that reads a module, without the file.
const COMMANDS: [&[&str]; 13] = [
    &["outline"],
    &["outline", "--why", "--strict", "--json"],
    &["dump"],
    &["dump", "--json", "--section=code"],
    &["size", "--functions=1"],
    &["size", "--json"],
    &["strip", "-o", "b.wasm"],
    &["strip", "-o-", "--debug"],
    &["shorten", "-o", "b.wasm"],
    &["shorten", "-o-", "--drop-offsets"],
    &["shorten", "-o", "b.wasm", "--keep-code"],
    &["shorten", "--dry-run"],
    &["shorten", "--dry-run", "--build-id=keep"],
];

/// Checks the message of each command.
#[track_caller]
fn check(bytes: &[u8], why: &str) {
    let folder = Folder::new("no_module");
    folder.write("a.wasm", bytes);
    folder.write("b.wasm", "as it was");
    for words in COMMANDS {
        let fault = folder.call(&[words, &["a.wasm"]].concat(), b"");
        assert_eq!(fault, Answer::fault(&format!("a.wasm: {why}")), "{words:?}");
        let fault = folder.call(&[words, &["-"]].concat(), bytes);
        let expected = Answer::fault(&format!("standard input: {why}"));
        assert_eq!(fault, expected, "{words:?}");
    }
    assert_eq!(folder.read("b.wasm"), b"as it was");
    assert_eq!(folder.names(), ["a.wasm", "b.wasm"]);
}

#[test]
fn empty_files() {
    check(b"", "is empty, not a module");
}

#[test]
fn texts() {
    let text = "is text, not a binary module";
    check(b" \n(module)", text);
    check(b";; a module", text);
    check("\u{feff}é\r\n\tb".as_bytes(), text);
    check(b"\n", text);
}

#[test]
fn components() {
    let component = "is a component, not a module";
    check(&bytes_of("0061736d0d000100"), component);
    check(&bytes_of("0061736d0100010007"), component);
}

#[test]
fn damaged_headers() {
    let check_version = |header: &str, version: &str, offset: &str| {
        let module = [bytes_of(header), module(&PADDED)[8..].to_vec()].concat();
        let why = format!(
            "is a module of version {version}, not 1: the header differs at offset {offset}"
        );
        check(&module, &why);
    };
    check_version("0061736d02000000", "2", "0x4");
    check_version("0061736d01010000", "257", "0x5");
    check_version("0061736d01000200", "131073", "0x6");
    check_version("0061736d01000001", "16777217", "0x7");
    let magic = "is not a module: it differs from 00 61 73 6d 01 00 00 00 at offset";
    check(&bytes_of("0061736e01000000"), &format!("{magic} 0x3"));
    check(
        &bytes_of("006173"),
        "is not a module: it ends in the header, at offset 0x3",
    );
    check(
        &bytes_of("0061736d010000"),
        "is not a module: it ends in the header, at offset 0x7",
    );
}

#[test]
fn other_files() {
    let other = "is not a module: it does not begin with 00 61 73 6d 01 00 00 00";
    check(b"\x7fELF", other);
    // Control characters and bytes that are not UTF-8 are no text.
    check(b"(module)\x1b", other);
    check(b"(module \xff", other);
}

#[test]
fn sections_without_an_id_and_a_size() {
    let ended = "section 2 at offset 0x19: unexpected end of input";
    check(&module(&[PADDED[0], "03 03 01 00"]), ended);
    check(
        &module(&[PADDED[0], "03"]),
        "section 2 at offset 0x16: unexpected end of input",
    );
    // The fifth byte of a size has only four bits.
    let too_large = "section 1 at offset 0xd: integer too large";
    check(&module(&["03 ffffffff1f"]), too_large);
    check(&module(&["03 808080808000"]), too_large);
}
