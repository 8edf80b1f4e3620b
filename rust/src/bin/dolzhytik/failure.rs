//! Errors of the program, and their messages.
use crate::dump::{Function, Selector};
use crate::files::{Input, Output};
use crate::found::Found;
use crate::growth::Limit;
use crate::misuse::Misuse;
use crate::progress;
use crate::strip::Obstacle;
use dolzhytik::fallible::recipe::RecipeFault;
use dolzhytik::reader::{ReadError, ReadFault};
use std::fmt;
use std::io::{self, Write};

/// An error of the program.
#[derive(Debug)]
pub enum Failure {
    Usage(Misuse),
    Unread {
        input: Input,
        error: io::Error,
    },
    Unwritten {
        output: Output,
        error: io::Error,
    },
    /// A module would be written to a terminal.
    Terminal,
    /// The file does not begin with the header of a module.
    NoHeader {
        input: Input,
        found: Found,
    },
    /// A section holds offsets that would become wrong.
    Offsets(NamedSection),
    /// This section identifies the module, and no other section is a reason.
    BuildId(NamedSection),
    /// A section holds indices or offsets that would be wrong without `build_id`.
    References(NamedSection),
    /// Sections cannot be removed.
    Strip(Obstacle),
    /// A branch hint is at no instruction.
    Hint(BadHint),
    /// A section has no id or size, or does not decode.
    Section(BadSection),
    /// No section of the module is selected.
    NoSection(NoSection),
    /// The selected function is an import.
    NoBody {
        input: Input,
        function: Function,
    },
    /// No function is selected.
    NoFunction(NoFunction),
    /// Several functions have the name.
    SeveralFunctions(SeveralFunctions),
    /// So many sections of known kinds do not decode.
    Undecoded {
        input: Input,
        count: usize,
    },
    /// So many of several files have errors, which are reported.
    Files {
        failed: usize,
        files: usize,
    },
    /// A build is larger than the option allows.
    Grown(Grown),
    /// The file is a binary module or a component, and no recipe.
    Binary(Input),
    /// A line of the recipe is no text.
    NotText {
        recipe: Input,
        line: usize,
    },
    Recipe {
        recipe: Input,
        fault: RecipeFault,
    },
}

/// A custom section.
#[derive(Debug)]
pub struct NamedSection {
    pub input: Input,
    pub number: usize,
    pub name: String,
}

impl fmt::Display for NamedSection {
    fn fmt(&self, f: &mut fmt::Formatter<'_>) -> fmt::Result {
        let NamedSection {
            input,
            number,
            name,
        } = self;
        write!(f, "{input}: section {number}, {name:?},")
    }
}

/// A section that has no id or size, or does not decode.
#[derive(Debug)]
pub struct BadSection {
    pub input: Input,
    pub number: usize,
    /// What an outline calls it, if it has an id and a size.
    pub section: Option<String>,
    pub error: ReadError,
}

impl fmt::Display for BadSection {
    fn fmt(&self, f: &mut fmt::Formatter<'_>) -> fmt::Result {
        let BadSection { input, number, .. } = self;
        write!(f, "{input}: section {number}")?;
        if let Some(section) = &self.section {
            write!(f, " ({section})")?;
        }
        let ReadError { cause, offset } = self.error;
        // Memory has no offset in the module.
        if cause != ReadFault::Memory {
            write!(f, " at offset {offset:#x}")?;
        }
        write!(f, ": {cause}")
    }
}

/// A section that the module does not have.
#[derive(Debug)]
pub struct NoSection {
    pub input: Input,
    pub selector: Selector,
    /// How many sections the module has.
    pub count: usize,
    /// The name that was probably meant.
    pub meant: Option<String>,
}

impl fmt::Display for NoSection {
    fn fmt(&self, f: &mut fmt::Formatter<'_>) -> fmt::Result {
        write!(f, "{}: no section {}", self.input, self.selector)?;
        match (&self.selector, &self.meant) {
            (Selector::Number(_), _) => {
                write!(f, ": the module has {}; --id selects by id", self.count)
            }
            (_, Some(meant)) => write!(f, "; did you mean {meant:?}?"),
            _ => Ok(()),
        }
    }
}

/// A function that the module does not have.
#[derive(Debug)]
pub struct NoFunction {
    pub input: Input,
    pub function: Function,
    /// How many functions the module has.
    pub count: usize,
    /// The name that was probably meant.
    pub meant: Option<String>,
}

impl fmt::Display for NoFunction {
    fn fmt(&self, f: &mut fmt::Formatter<'_>) -> fmt::Result {
        write!(f, "{}: no function {}", self.input, self.function)?;
        match (&self.function, &self.meant) {
            (Function::Index(_), _) => write!(f, ": the module has {}", self.count),
            (_, Some(meant)) => write!(f, "; did you mean {meant:?}?"),
            _ => Ok(()),
        }
    }
}

/// Several functions of a name.
#[derive(Debug)]
pub struct SeveralFunctions {
    pub input: Input,
    pub function: Function,
    pub count: usize,
    /// The first ones.
    pub indices: Vec<u32>,
}

impl fmt::Display for SeveralFunctions {
    fn fmt(&self, f: &mut fmt::Formatter<'_>) -> fmt::Result {
        let SeveralFunctions {
            input,
            function,
            count,
            indices,
        } = self;
        let indices: Vec<_> = indices.iter().map(u32::to_string).collect();
        let more = if indices.len() < *count { ", .." } else { "" };
        let indices = indices.join(", ");
        write!(
            f,
            "{input}: {count} functions are {function}: {indices}{more}; give an index"
        )
    }
}

/// A build that is larger than the option allows.
#[derive(Debug)]
pub struct Grown {
    pub old: Input,
    pub new: Input,
    /// The sizes of the builds in bytes.
    pub before: usize,
    pub after: usize,
    pub limit: Limit,
}

impl fmt::Display for Grown {
    fn fmt(&self, f: &mut fmt::Formatter<'_>) -> fmt::Result {
        let Grown {
            old,
            new,
            before,
            after,
            limit,
        } = self;
        let (more, allowed) = (after - before, limit.allowed(*before));
        write!(
            f,
            "{new}: {after} bytes, {more} more than {old}; --fail-above {limit} allows {allowed} more"
        )
    }
}

/// A branch hint that is at no instruction.
#[derive(Debug)]
pub struct BadHint {
    pub input: Input,
    pub number: usize,
    /// What an outline calls the section.
    pub section: String,
    /// The offset of the hint in the file.
    pub offset: usize,
    pub function: u32,
    /// The offset in the function's body.
    pub at: u32,
}

impl fmt::Display for BadHint {
    fn fmt(&self, f: &mut fmt::Formatter<'_>) -> fmt::Result {
        let BadHint {
            input,
            number,
            section,
            offset,
            function,
            at,
        } = self;
        write!(
            f,
            "{input}: section {number} ({section}) at offset {offset:#x}: \
             function {function} has no instruction at offset {at:#x} of its body"
        )
    }
}

impl Failure {
    /// Whether nobody reads what was to be printed.
    pub fn is_closed_pipe(&self) -> bool {
        matches!(
            self,
            Failure::Unwritten { output: Output::Standard | Output::Forced, error } if error.kind() == io::ErrorKind::BrokenPipe
        )
    }

    /// The exit status.
    pub fn status(&self) -> u8 {
        match self {
            Failure::Usage(_) => 2,
            _ => 1,
        }
    }
}

/// Prints a failure on standard error. If that fails, the exit status still says it.
pub fn report(failure: &Failure) {
    progress::clear();
    let _ = writeln!(io::stderr(), "dolzhytik: {failure}");
}

impl fmt::Display for Failure {
    fn fmt(&self, f: &mut fmt::Formatter<'_>) -> fmt::Result {
        match self {
            Failure::Usage(misuse) => write!(f, "{misuse}"),
            Failure::Unread { input, error } => write!(f, "{input}: {error}"),
            Failure::Unwritten { output, error } => write!(f, "{output}: {error}"),
            Failure::Terminal => write!(
                f,
                "standard output is a terminal: write the module to a file, or give --force"
            ),
            Failure::NoHeader { input, found } => write!(f, "{input}: {found}"),
            Failure::Offsets(section) => write!(
                f,
                "{section} holds offsets that would become wrong; \
                 --drop-offsets drops such sections, --keep-code keeps code and data byte for byte, \
                 and --dry-run prints what each saves"
            ),
            Failure::BuildId(section) => write!(
                f,
                "{section} identifies the module, whose code would change; \
                 --build-id drop drops it, --build-id keep keeps it, \
                 and --dry-run prints what each saves"
            ),
            Failure::References(section) => write!(
                f,
                "{section} holds section indices or offsets that would become wrong; \
                 --build-id keep leaves them right"
            ),
            Failure::Strip(obstacle) => write!(f, "{obstacle}"),
            Failure::Hint(hint) => write!(f, "{hint}"),
            Failure::Section(section) => write!(f, "{section}"),
            Failure::NoSection(section) => write!(f, "{section}"),
            Failure::NoBody { input, function } => write!(
                f,
                "{input}: function {function} is an import, and has no body"
            ),
            Failure::NoFunction(function) => write!(f, "{function}"),
            Failure::SeveralFunctions(functions) => write!(f, "{functions}"),
            Failure::Undecoded { input, count } => {
                let do_not = if *count == 1 { " does" } else { "s do" };
                write!(f, "{input}: {count} section{do_not} not decode")
            }
            Failure::Files { failed, files } => write!(f, "errors in {failed} of {files} files"),
            Failure::Grown(grown) => write!(f, "{grown}"),
            Failure::Binary(recipe) => write!(f, "{recipe}: a binary module, and no recipe"),
            Failure::NotText { recipe, line } => write!(f, "{recipe}: line {line}: not UTF-8"),
            Failure::Recipe {
                recipe,
                fault: RecipeFault { line: 0, cause },
            } => write!(f, "{recipe}: behind the last line: {cause}"),
            Failure::Recipe { recipe, fault } => write!(f, "{recipe}: {fault}"),
        }
    }
}

#[cfg(test)]
mod tests {
    use super::*;
    use dolzhytik::fallible::recipe::RecipeCause;

    #[track_caller]
    fn check(failure: Failure, text: &str) {
        assert_eq!(failure.to_string(), text);
        assert_eq!(failure.status(), 1);
    }

    fn bad(section: Option<&str>, cause: ReadFault) -> Failure {
        Failure::Section(BadSection {
            input: Input::Standard,
            number: 3,
            section: section.map(String::from),
            error: ReadError { cause, offset: 26 },
        })
    }

    fn recipe(line: usize, cause: RecipeCause) -> Failure {
        let fault = RecipeFault { line, cause };
        let recipe = Input::File("a.txt".into());
        Failure::Recipe { recipe, fault }
    }

    #[test]
    fn refused_memory() {
        let memory = ReadFault::Memory;
        let text = "standard input: section 3: out of memory";
        check(bad(None, memory), text);
        let text = "standard input: section 3 (code): out of memory";
        check(bad(Some("code"), memory), text);
        let line = recipe(3, RecipeCause::Memory);
        check(line, "a.txt: line 3: out of memory");
    }

    #[test]
    fn sections_and_offsets() {
        let text = "section 3 at offset 0x1a: integer too large";
        let text = format!("standard input: {text}");
        check(bad(None, ReadFault::TooLarge), &text);
        let text = text.replace(" at", " (data) at");
        check(bad(Some("data"), ReadFault::TooLarge), &text);
    }

    #[test]
    fn recipes_whose_modules_are_too_long() {
        let module = recipe(0, RecipeCause::TooLong);
        check(module, "a.txt: behind the last line: too long");
    }
}
