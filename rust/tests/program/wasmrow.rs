//! The program `wasmrow`: its help, and the ends of lines in a module in hexadecimal. Tests of
//! `fallible::recipe::run` have the rest.
use crate::program::{Answer, answer_of};
use std::process::Command;

const USAGE: &str = "usage: wasmrow [--read]\n";

fn call(words: &[&str], input: &[u8]) -> Answer {
    let mut command = Command::new(env!("CARGO_BIN_EXE_wasmrow"));
    answer_of(command.args(words), input)
}

fn fault(status: i32, text: &str) -> Answer {
    Answer {
        out: Vec::new(),
        err: text.into(),
        status,
    }
}

#[test]
fn help() {
    let answer = call(&["--help"], b"func 0");
    let text = String::from_utf8(answer.out.clone()).unwrap();
    assert!(text.starts_with(&format!("{USAGE}\nReads a recipe from standard input,")));
    assert!(text.lines().all(|line| line.len() <= 80));
    assert_eq!(answer, Answer::of(text));
    for words in [&["-h"][..], &["--read", "--help"], &["--help", "--help"]] {
        assert_eq!(call(words, b""), fault(2, USAGE));
    }
}

/// `xxd -p` ends a line after 60 digits. Line breaks may be at the end, and not between digits.
#[test]
fn line_breaks_in_a_module() {
    let one_line = b"0061736d0100000001070160027f7f017f0302010007050101660000\n";
    assert_eq!(
        call(&["--read"], one_line),
        Answer::of("1 7 -\n3 2 1\n7 5 1\n")
    );
    let lines =
        "0061736d0100000001070160027f7f017f03020100070501016600000a09\n010700200020016a0b\r\n\n";
    let bad = fault(1, "input: bad hex\n");
    assert_eq!(call(&["--read"], lines.as_bytes()), bad);
    let joined = lines.replacen('\n', "", 1);
    let listed = Answer::of("1 7 -\n3 2 1\n7 5 1\n10 9 1\n");
    assert_eq!(call(&["--read"], joined.as_bytes()), listed);
}
