//! `--color` of `outline`, `dump` and `size`.
use crate::program::{Answer, Folder, answer_of};
use crate::samples::{custom, module};
use crate::tools;
use std::process::Command;

/// A function `f`, which is exported and calls itself, and a custom section.
fn sample() -> Vec<u8> {
    module(&[
        "01 04 01 60 00 00",
        "03 02 01 00",
        "07 05 01 01 66 00 00",
        "0a 06 01 04 00 10 00 0b",
        &custom("a", "7f"),
    ])
}

/// A text in which `[` begins what is dim, `{` what is bright, and `]` ends both.
fn painted(text: &str) -> String {
    let text = text.replace('[', "\x1b[2m").replace('{', "\x1b[1m");
    text.replace(']', "\x1b[0m")
}

/// The text without the marks.
fn plain(text: &str) -> String {
    text.replace(['[', '{', ']'], "")
}

/// Words, and the marked text that they print of the sample.
const TEXTS: [(&[&str], &str); 5] = [
    (
        &["outline", "-"],
        "section  id     offset       size      items  decodes  name
      1   1 [       0xa]          4          1      yes  {type]
      2   3 [      0x10]          2          1      yes  {function]
      3   7 [      0x14]          5          1      yes  {export]
      4  10 [      0x1b]          6          1      yes  {code]
      5   0 [      0x23]          3          -        -  {custom \"a\"]
",
    ),
    (
        &["dump", "-"],
        "names: exports

section 1 ({type]): offset [0xa], size 4
 [00000b]: type 0 (func)

section 2 ({function]): offset [0x10], size 2
 [000011]: function 0 {<f>] (type 0)

section 3 ({export]): offset [0x14], size 5
 [000015]: export {\"f\"] (func 0 {<f>])

section 4 ({code]): offset [0x1b], size 6

function 0 {<f>]: type 0, offset [0x1d], size 4
 [00001e]: 10 00                      | call 0 {<f>]
 [000020]: 0b                         | end

section 5 ({custom \"a\"]): offset [0x23], size 3
 [000025]: 7f                                               .
",
    ),
    (
        &["size", "-"],
        "     bytes     %  name
         8  21.1  {code]
         7  18.4  {export]
         6  15.8  {type]
         5  13.2  {custom \"a\"]
         4  10.5  {function]
         8  21.1  header
        38 100.0  all
         5  13.2  function 0 {<f>]
",
    ),
    (
        &["size", "-", "--why", "f"],
        "     bytes     %  name
         5  13.2  function 0 {<f>]: export {\"f\"]
         0   0.0  only through function 0 (0)
",
    ),
    (
        &["dump", "-", "f"],
        "names: exports

section 4 ({code]): offset [0x1b], size 6

function 0 {<f>]: type 0, offset [0x1d], size 4
 [00001e]: 10 00                      | call 0 {<f>]
 [000020]: 0b                         | end
",
    ),
];

#[test]
fn always() {
    let folder = Folder::new("color_always");
    for (words, text) in TEXTS {
        let words = [words, &["--color=always"]].concat();
        let answer = folder.call(&words, &sample());
        assert_eq!(answer, Answer::of(painted(text)), "{words:?}");
    }
}

/// Standard output is no terminal.
#[test]
fn auto_and_never() {
    let folder = Folder::new("color_never");
    for (words, text) in TEXTS {
        for color in [&[][..], &["--color", "auto"], &["--color=never"]] {
            let answer = folder.call(&[words, color].concat(), &sample());
            assert_eq!(answer, Answer::of(plain(text)), "{words:?} {color:?}");
        }
    }
}

/// The variable has no effect on `always`.
#[test]
fn no_color() {
    let (words, text) = TEXTS[2];
    let answer = |value: &str| {
        let mut command = Command::new(env!("CARGO_BIN_EXE_dolzhytik"));
        command.args(words).arg("--color=always");
        answer_of(command.env("NO_COLOR", value), &sample())
    };
    for value in ["", "1"] {
        assert_eq!(answer(value), Answer::of(painted(text)));
    }
}

/// Whether `script` of util-linux gives a command a terminal here.
fn has_script() -> bool {
    let tried = Command::new("script")
        .args(["-qec", "true", "/dev/null"])
        .output();
    let has_script = tried.is_ok_and(|output| output.status.success());
    if !has_script {
        eprintln!("there is no script of util-linux");
    }
    has_script
}

/// On a terminal, which `script` is: `auto` has colors, unless the variable is set to some text.
#[test]
fn terminals() {
    let folder = Folder::new("color_terminal");
    folder.write("a.wasm", sample());
    let (_, text) = TEXTS[0];
    if !has_script() {
        return;
    }
    let printed = |value: &str, option: &str| {
        let program = env!("CARGO_BIN_EXE_dolzhytik");
        let words = format!(
            "{program} outline {} {option}",
            folder.path("a.wasm").display()
        );
        let mut script = Command::new("script");
        script.args(["-qec", &words, "/dev/null"]);
        let printed = tools::printed(script.env("NO_COLOR", value))?;
        Some(printed.replace("\r\n", "\n"))
    };
    for (value, option, expected) in [
        ("", "", painted(text)),
        ("", "--color=auto", painted(text)),
        ("", "--color=never", plain(text)),
        ("1", "", plain(text)),
        ("1", "--color=always", painted(text)),
    ] {
        let Some(printed) = printed(value, option) else {
            return;
        };
        assert_eq!(printed, expected, "{value} {option}");
    }
}

#[test]
fn json_has_none() {
    let folder = Folder::new("color_json");
    for command in ["outline", "dump", "size"] {
        let words = [command, "-", "--json"];
        let plain = folder.call(&words, &sample());
        let colored = [&words[..], &["--color", "always"]].concat();
        assert_eq!(folder.call(&colored, &sample()), plain);
        assert_eq!(plain.status, 0);
    }
}

/// Groups and compared sizes have names, and damaged modules errors without colors.
#[test]
fn other_texts() {
    let folder = Folder::new("color_other");
    let bodies = "0a 04 01 02 00 0b";
    let names = custom("name", "01 07 01 00 04 613a3a66");
    let answer = folder.call(&["size", "-", "--color=always"], &module(&[bodies, &names]));
    let out = String::from_utf8(answer.out).unwrap();
    let (_, after) = out.split_once("  all\n").unwrap();
    let lines = "         3  10.0  function 0 {<a::f>]
         3  10.0  functions {a::*] (1)
         3  10.0  all functions (1)
";
    assert_eq!(after, painted(lines));
    folder.write("a.wasm", module(&[bodies]));
    folder.write("b.wasm", module(&["0a 05 01 03 00 01 0b"]));
    let words = [
        "size",
        "a.wasm",
        "b.wasm",
        "--functions=0",
        "--color=always",
    ];
    let lines = "    before      after     change       %  name
         6          7         +1   +16.7  {code]
         8          8          0     0.0  header
        14         15         +1    +7.1  all
";
    assert_eq!(folder.call(&words, b""), Answer::of(painted(lines)));
    let answer = folder.call(&["dump", "-", "--color=always"], &module(&["08 02 00 00"]));
    let lines = "section 1 ({start]): offset [0xa], size 2\n [00000a]: start (func 0)\n";
    let expected = Answer {
        out: painted(lines).into(),
        ..Answer::fault(
            "standard input: section 1 (start) at offset 0xb: bytes remain after the value",
        )
    };
    assert_eq!(answer, expected);
}
