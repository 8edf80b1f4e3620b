//! What the program does.
use crate::dump;
use crate::failure::{Failure, report};
use crate::files::{Input, Output};
use crate::growth::{self, Build, Comparison};
use crate::help;
use crate::json;
use crate::man;
use crate::outline;
use crate::progress::Progress;
use crate::shorten;
use crate::sizes::Sizes;
use crate::strip::{self, Choice, Stripped};
use crate::why::Reason;
use crate::words::{Command, Format};
use dolzhytik::fallible::Global;
use dolzhytik::fallible::recipe::assemble_versioned;
use std::io::{self, Write};

/// Does what was asked for.
pub fn run(command: Command) -> Result<(), Failure> {
    match command {
        Command::Outline { inputs, choice } => outline::show(&inputs, choice),
        Command::Shorten {
            input,
            output,
            choice,
        } => shorten::shorten(&input, &output, choice),
        Command::SavingsOf {
            input,
            choice,
            format,
        } => shorten::dry_run(&input, choice, format),
        Command::Dump { input, choice } => list(&input, &choice),
        Command::Size {
            input,
            functions,
            format,
        } => show_sizes(&input, functions, format),
        Command::Why {
            input,
            function,
            most,
            format,
        } => show_reason(&input, &function, most, format),
        Command::Compare { old, new, choice } => compare(&old, &new, choice),
        Command::Strip {
            input,
            output,
            choice,
        } => write_stripped(&input, &output, &choice),
        Command::Build { recipe, output } => build(&recipe, &output),
        Command::Completions(shell) => print(shell.completions()),
        Command::ManPage => print(&man::page()),
        Command::Help(None) => print(&help::help()),
        Command::Help(Some(manual)) => print(&manual.help()),
        Command::Version => print(help::VERSION),
    }
}

fn print(text: &str) -> Result<(), Failure> {
    Output::Standard.write(text.as_bytes())
}

/// Lists what a module has.
fn list(input: &Input, choice: &dump::Choice) -> Result<(), Failure> {
    let bytes = input.read()?;
    let progress = Progress::of_printing(bytes.len());
    progress.begin("listing");
    dump::dump(input, &bytes, choice)
}

// ---- sizes

/// Prints the sizes of the sections, and of this number of functions and of data segments. Sizes
/// are printed before an error in a section.
fn show_sizes(input: &Input, functions: usize, format: Format) -> Result<(), Failure> {
    let bytes = input.read()?;
    let progress = Progress::of(bytes.len());
    progress.begin("reading");
    let sizes = Sizes::of(input, &bytes, functions)?;
    drop(progress);
    print(&match format {
        Format::Json => json::sizes(&sizes),
        Format::Table => sizes.to_string(),
    })?;
    fail(sizes.failures.into_iter())
}

/// Prints why a function is in a module, and this number of functions that are in it only for that
/// one.
fn show_reason(
    input: &Input,
    function: &dump::Function,
    most: usize,
    format: Format,
) -> Result<(), Failure> {
    let bytes = input.read()?;
    let progress = Progress::of(bytes.len());
    progress.begin("reading");
    let reason = Reason::of(input, &bytes, function, most)?;
    drop(progress);
    print(&match format {
        Format::Json => json::reason(&reason),
        Format::Table => reason.to_string(),
    })
}

/// Prints what grew and shrank between two builds, before errors in their sections. It is an error
/// too if the new one is larger than the choice allows, even if nobody reads what is printed.
fn compare(old: &Input, new: &Input, choice: growth::Choice) -> Result<(), Failure> {
    let (before, after) = (old.read()?, new.read()?);
    let progress = Progress::of(before.len() + after.len());
    progress.begin("reading");
    let builds = [Build::of(old, &before)?, Build::of(new, &after)?];
    let comparison = Comparison::of(builds, choice.most);
    drop(progress);
    let printed = print(&match choice.format {
        Format::Json => json::comparison(&comparison),
        Format::Table => comparison.to_string(),
    });
    printed.or_else(|failure| match failure.is_closed_pipe() {
        true => Ok(()),
        false => Err(failure),
    })?;
    let grown = choice
        .limit
        .and_then(|limit| comparison.grown(old, new, limit));
    fail(comparison.failures.into_iter().chain(grown))
}

/// Returns the last failure, and reports those before it.
fn fail(failures: impl Iterator<Item = Failure>) -> Result<(), Failure> {
    let last = failures.reduce(|failure, next| {
        report(&failure);
        next
    });
    last.map_or(Ok(()), Err)
}

// ---- custom sections

/// Writes the module without the sections of the choice, and prints how many these were.
fn write_stripped(input: &Input, output: &Output, choice: &Choice) -> Result<(), Failure> {
    output.accept_module()?;
    let bytes = input.read()?;
    let progress = Progress::of(bytes.len());
    progress.begin("reading");
    let stripped = strip::strip(input, &bytes, choice)?;
    progress.begin("writing");
    output.write_parts(&stripped.parts)?;
    drop(progress);
    report_stripped(input, bytes.len(), &stripped);
    Ok(())
}

/// Prints the names that no section has, and the sizes. It is no error if that fails: the module is
/// written.
fn report_stripped(input: &Input, before: usize, stripped: &Stripped<'_, '_>) {
    for name in &stripped.unmatched {
        let _ = writeln!(
            io::stderr(),
            "dolzhytik: {input}: no custom section {name:?}"
        );
    }
    let after: usize = stripped.parts.iter().map(|part| part.len()).sum();
    let replaced = match stripped.replaced {
        0 => String::new(),
        count => format!("; empty sections in their places: {count}"),
    };
    let _ = writeln!(
        io::stderr(),
        "dolzhytik: {input}: {before} bytes before, {after} after; sections removed: {}{replaced}",
        stripped.removed
    );
}

// ---- recipes

/// The text of a recipe.
fn text_of<'a>(recipe: &Input, bytes: &'a [u8]) -> Result<&'a str, Failure> {
    if bytes.starts_with(b"\0asm") {
        return Err(Failure::Binary(recipe.clone()));
    }
    str::from_utf8(bytes).map_err(|error| {
        let before = &bytes[..error.valid_up_to()];
        Failure::NotText {
            recipe: recipe.clone(),
            line: 1 + before.iter().filter(|byte| **byte == b'\n').count(),
        }
    })
}

/// Writes the module of a recipe.
fn build(recipe: &Input, output: &Output) -> Result<(), Failure> {
    output.accept_module()?;
    let bytes = recipe.read()?;
    let progress = Progress::of(bytes.len());
    progress.begin("building");
    let text = text_of(recipe, &bytes)?;
    let module = assemble_versioned(Global, text).map_err(|fault| Failure::Recipe {
        recipe: recipe.clone(),
        fault,
    })?;
    progress.begin("writing");
    output.write(&module)
}
