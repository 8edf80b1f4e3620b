//! Shows the sections of modules, their sizes and their code, compares sizes, removes custom
//! sections, minimizes modules, and builds them from recipes.
mod color;
mod commands;
mod completions;
mod context;
mod cursor;
mod dump;
mod failure;
mod files;
mod found;
mod groups;
mod growth;
mod help;
mod json;
mod kind_name;
mod man;
mod matching;
mod misuse;
mod name;
#[rustfmt::skip]
mod names;
mod outline;
mod progress;
mod reach;
mod references;
mod relocation;
mod sections;
mod shorten;
mod sizes;
mod strip;
mod why;
mod words;

use failure::Failure;
use std::env;
use std::process::ExitCode;

fn main() -> ExitCode {
    let done = words::read(env::args_os().skip(1))
        .map_err(Failure::Usage)
        .and_then(|request| {
            request.color.decide();
            commands::run(request.command)
        });
    match done {
        Ok(()) => ExitCode::SUCCESS,
        // Whoever reads what is printed needs no more of it.
        Err(failure) if failure.is_closed_pipe() => ExitCode::SUCCESS,
        Err(failure) => {
            failure::report(&failure);
            ExitCode::from(failure.status())
        }
    }
}
