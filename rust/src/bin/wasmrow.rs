//! Reads a recipe from standard input and writes the module in hexadecimal. With `--read` it lists
//! the sections of a module in hexadecimal.
use dolzhytik::fallible::recipe::run;
use dolzhytik::fallible::{AllocError, Global, String};
use std::env;
use std::io::{self, IsTerminal, Write};
use std::process::ExitCode;

/// The note that a build by rustc prints on a terminal.
const UNPROVED: &str =
    "wasmrow: compiled by rustc from the proved source; this build itself is not proved";

const HELP: &str = "\
usage: wasmrow [--read]

Reads a recipe from standard input, and prints its module in hexadecimal. With
--read it reads a module in hexadecimal, and prints the id, size and number of
items of each section. Spaces and line breaks may be at the end of the input.
";

/// Prints the help. If that fails, the exit status says it.
fn help() -> ExitCode {
    match io::stdout().write_all(HELP.as_bytes()) {
        Ok(()) => ExitCode::SUCCESS,
        Err(_) => ExitCode::FAILURE,
    }
}

/// The arguments after the program's name. One that is not UTF-8 becomes an unknown argument.
fn words() -> Result<Vec<String>, AllocError> {
    env::args_os()
        .skip(1)
        .map(|word| String::from_str(Global, &word.to_string_lossy()))
        .collect()
}

fn main() -> ExitCode {
    // `run` is proved, and takes no such argument.
    if env::args_os().skip(1).eq(["--help"]) {
        return help();
    }
    if io::stderr().is_terminal() {
        eprintln!("{UNPROVED}");
    }
    let Ok(words) = words() else {
        return ExitCode::FAILURE;
    };
    let (mut input, mut out, mut err) = (io::stdin(), io::stdout(), io::stderr());
    ExitCode::from(run(Global, &words, &mut input, &mut out, &mut err))
}
