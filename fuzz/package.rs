//! Compares the reader of the package for Rust with a plain one. See README.md.

mod files;
mod grammar;
mod insert;
mod items;
mod maker;
mod modules;
mod plain;
mod remap;
mod remove;
mod shifted;
mod values;
mod whole;

use std::env;
use std::process::ExitCode;

const USAGE: &str = "usage: package modules SEED INPUTS
       package values SEED INPUTS
       package remap SEED INPUTS
       package files FILE..
       package damaged FILE..
       package shifted FOLDER FILE..";

/// Whether all is as it should be, or `None` if the words are not of a command.
fn run(words: &[String]) -> Option<bool> {
    match words {
        [command, paths @ ..] if command == "files" => Some(files::run(paths)),
        [command, paths @ ..] if command == "damaged" => Some(files::damaged(paths)),
        [command, folder, paths @ ..] if command == "shifted" => Some(shifted::run(folder, paths)),
        [command, seed, inputs] => {
            let run = match command.as_str() {
                "modules" => modules::run,
                "values" => values::run,
                "remap" => remap::run,
                _ => return None,
            };
            Some(run(seed.parse().ok()?, inputs.parse().ok()?))
        }
        _ => None,
    }
}

fn main() -> ExitCode {
    let words: Vec<String> = env::args().skip(1).collect();
    match run(&words) {
        Some(true) => ExitCode::SUCCESS,
        Some(false) => ExitCode::FAILURE,
        None => {
            eprintln!("{USAGE}");
            ExitCode::from(2)
        }
    }
}
