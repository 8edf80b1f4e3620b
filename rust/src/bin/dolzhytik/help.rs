//! The commands and options of the program, and their help.

/// What the program does.
#[derive(Clone, Copy, PartialEq, Eq, Debug)]
pub enum Verb {
    Outline,
    Dump,
    Size,
    Strip,
    Shorten,
    Build,
    Completions,
    Help,
}

/// The help of a command.
#[derive(PartialEq, Eq, Debug)]
pub struct Manual {
    pub verb: Verb,
    pub name: &'static str,
    /// The arguments after the name. A line does not end within one of these.
    pub usage: &'static [&'static str],
    pub says: &'static str,
    pub options: &'static [Flag],
}

pub const MANUALS: [Manual; 8] = [
    Manual {
        verb: Verb::Outline,
        name: "outline",
        usage: &["FILE..", "[--why]", "[--strict]", "[--json | --color WHEN]"],
        says: "\
prints a line for each section of a module: its number, id, offset, size, number of items, whether \
it decodes as its kind, and name. Offset and size are those of the payload, in bytes; the offset is \
hexadecimal. The items of a type section are its entries: a recursion group is one. Those of a \
data count section are the number that it holds. A - means not counted, and under decodes that the \
kind is not known. Sections of ids 1 to 13 that do not decode are \
reported on standard error. Several files have their names above, and the status is 1 if one has an \
error. Other commands take one file, and size two builds.",
        options: &[Flag::Why, Flag::Strict, Flag::Json, Flag::Color],
    },
    Manual {
        verb: Verb::Dump,
        name: "dump",
        usage: &[
            "FILE",
            "[FUNCTION]",
            "[--section NUMBER|NAME]..",
            "[--id ID]..",
            "[--relocations]",
            "[--json | --color WHEN]",
        ],
        says: "\
prints the items of each section, and the locals and instructions of each function. A line of code \
has the offset in the file, in hexadecimal, the bytes, and the name and operands in the text \
format. Locals have their indices; where the type of the function is not known, +0 is the first \
one. A custom section is listed by the kind that its name selects, or as bytes. The name of an \
entry is in < and >, from the first of these that has one: the name section, linking, exports, \
imports. The line * is two or more rows of zeros. With FUNCTION, an index or a name, it prints the \
functions that have that alone.",
        options: &[
            Flag::Section,
            Flag::Id,
            Flag::Relocations,
            Flag::Json,
            Flag::Color,
        ],
    },
    Manual {
        verb: Verb::Size,
        name: "size",
        usage: &[
            "(FILE [--why FUNCTION] | OLD NEW)",
            "[--functions N]",
            "[--fail-above N|N%]",
            "[--json | --color WHEN]",
        ],
        says: "\
prints the sizes of the sections in bytes and in percent, and of the ten largest functions and \
data segments, the largest first. If names of functions have ::, it prints groups of functions by the part before \
that: ten, the others, and the sum. Of two builds it prints what grew and shrank: the sections, ten functions and ten \
data segments, the largest change first. Functions are matched by name, then by equal body, and \
data segments by name, or by index without one.",
        options: &[
            Flag::WhyOf,
            Flag::Functions,
            Flag::FailAbove,
            Flag::Json,
            Flag::Color,
        ],
    },
    Manual {
        verb: Verb::Strip,
        name: "strip",
        usage: &[
            "FILE",
            "[NAME..]",
            "[--debug]",
            "[--all]",
            "[--keep NAME]..",
            "-o FILE",
            "[--force]",
        ],
        says: "\
writes the module without the custom sections of these names, and with --debug those of DWARF. With \
neither it removes all custom sections, but fails if one is linking or reloc.*, which a linker \
needs. Relocations are removed with their section. If other sections hold indices of sections, a \
removed one leaves an empty section .objcopy.removed, as with LLVM's strip.",
        options: &[
            Flag::All,
            Flag::Debug,
            Flag::Keep,
            Flag::Output,
            Flag::Force,
        ],
    },
    Manual {
        verb: Verb::Shorten,
        name: "shorten",
        usage: &[
            "FILE",
            "(-o FILE | --dry-run [--json])",
            "[--drop-offsets | --keep-code]",
            "[--build-id keep|drop]",
            "[--force]",
        ],
        says: "\
writes the module with each section in its minimal encoding. A section that does not decode is \
copied, and named on standard error. Branch hints and compilation hints follow their instructions. \
It fails if offsets in another custom section would become wrong.",
        options: &[
            Flag::Output,
            Flag::DryRun,
            Flag::Json,
            Flag::DropOffsets,
            Flag::KeepCode,
            Flag::BuildId,
            Flag::Force,
        ],
    },
    Manual {
        verb: Verb::Build,
        name: "build",
        usage: &["RECIPE", "-o FILE", "[--force]"],
        says: "writes the module of a recipe: lines of text that each add an item.",
        options: &[Flag::Output, Flag::Force],
    },
    Manual {
        verb: Verb::Completions,
        name: "completions",
        usage: &["bash | zsh | fish | powershell"],
        says: "prints the completions for a shell, as a file that this shell loads.",
        options: &[],
    },
    Manual {
        verb: Verb::Help,
        name: "help",
        usage: &["[COMMAND | --man]"],
        says: "prints this, or the help of a command. So does COMMAND --help.",
        options: &[Flag::Man],
    },
];

/// An option.
#[derive(Clone, Copy, PartialEq, Eq, Debug)]
pub enum Flag {
    Output,
    Force,
    Section,
    Id,
    Relocations,
    Functions,
    FailAbove,
    All,
    Debug,
    Keep,
    Why,
    /// `--why` of `size`.
    WhyOf,
    Strict,
    Json,
    Color,
    DropOffsets,
    KeepCode,
    BuildId,
    DryRun,
    Man,
    Help,
    Version,
}

impl Flag {
    /// Whether all commands take the option.
    pub fn is_of_all(self) -> bool {
        matches!(self, Flag::Help | Flag::Version)
    }
}

/// How an option is given.
#[derive(Clone, Copy, PartialEq, Eq, Debug)]
pub enum Given {
    /// Without a value.
    Alone,
    /// Once, with a value of this name.
    With(&'static str),
    /// Any number of times, with a value of this name.
    Often(&'static str),
}

/// The help of an option.
pub struct Explained {
    pub flag: Flag,
    pub short: Option<&'static str>,
    pub long: &'static str,
    pub given: Given,
    pub says: &'static str,
}

const fn explained(flag: Flag, long: &'static str, given: Given, says: &'static str) -> Explained {
    Explained {
        flag,
        short: None,
        long,
        given,
        says,
    }
}

/// The options, in the order of the help.
pub const OPTIONS: [Explained; 22] = [
    Explained {
        short: Some("-o"),
        ..explained(
            Flag::Output,
            "--output",
            Given::With("FILE"),
            "\
the module that is written. The file is replaced as a whole, or not at all; it may be the input.",
        )
    },
    explained(
        Flag::Force,
        "--force",
        Given::Alone,
        "writes a module to standard output even if that is a terminal.",
    ),
    explained(
        Flag::Section,
        "--section",
        Given::Often("NUMBER|NAME"),
        "\
a section that dump prints: its number or its kind, as outline has them, or the name of a custom \
section. There may be several. Without this and --id, dump prints all.",
    ),
    explained(
        Flag::Id,
        "--id",
        Given::Often("ID"),
        "the id of sections that dump prints. There may be several.",
    ),
    Explained {
        short: Some("-r"),
        ..explained(
            Flag::Relocations,
            "--relocations",
            Given::Alone,
            "\
prints each relocation below the instruction or the bytes that it patches: its offset in the file, \
its type, the index and name of its symbol, and its addend.",
        )
    },
    explained(
        Flag::WhyOf,
        "--why",
        Given::With("FUNCTION"),
        "\
prints why a function, an index or a name, is in the module: a shortest path of references to it \
from an export, the start function, an element segment, a global or a table. Then it prints the \
functions that are reachable only through it.",
    ),
    explained(
        Flag::Functions,
        "--functions",
        Given::With("N"),
        "\
how many functions size prints, by default 10, and how many data segments and groups.",
    ),
    explained(
        Flag::FailAbove,
        "--fail-above",
        Given::With("N|N%"),
        "\
the status is 1 if NEW is larger than OLD by more than this, in bytes or in percent of OLD.",
    ),
    explained(
        Flag::All,
        "--all",
        Given::Alone,
        "\
removes all custom sections, also linking and reloc.*, without which an object file cannot be \
linked.",
    ),
    explained(
        Flag::Debug,
        "--debug",
        Given::Alone,
        "removes the custom sections of DWARF and their relocations.",
    ),
    explained(
        Flag::Keep,
        "--keep",
        Given::Often("NAME"),
        "a custom section that stays, with its relocations. There may be several.",
    ),
    explained(
        Flag::Why,
        "--why",
        Given::Alone,
        "prints the cause and the offset in the file for each section that does not decode.",
    ),
    explained(
        Flag::Strict,
        "--strict",
        Given::Alone,
        "reports custom sections of known kinds too, and the status is 1 if a section does not decode.",
    ),
    explained(
        Flag::Json,
        "--json",
        Given::Alone,
        "prints JSON, for other programs, with offsets and sizes in decimal.",
    ),
    explained(
        Flag::Color,
        "--color",
        Given::With("WHEN"),
        "\
auto, always or never: when offsets are dim and names bright. auto, the default, is on a terminal, \
unless the variable NO_COLOR is set. JSON has no colors.",
    ),
    explained(
        Flag::DropOffsets,
        "--drop-offsets",
        Given::Alone,
        "\
drops the custom sections that hold offsets: linking, reloc.*, .debug_*, .gdb_index, .apple_*, \
metadata.code.*, external_debug_info, build_id, sourceMappingURL.",
    ),
    explained(
        Flag::KeepCode,
        "--keep-code",
        Given::Alone,
        "\
keeps the code and data sections byte for byte, so that offsets into them stay right, and sections \
that relocations or linking name too. With a source map, all sections before the code stay.",
    ),
    explained(
        Flag::BuildId,
        "--build-id",
        Given::With("keep|drop"),
        "\
whether shorten keeps or drops the section build_id, which identifies the module as it was. \
Without it, build_id is a section that holds offsets.",
    ),
    explained(
        Flag::DryRun,
        "--dry-run",
        Given::Alone,
        "\
prints the bytes that each section would save, and writes no module. Exits as shorten would.",
    ),
    explained(
        Flag::Man,
        "--man",
        Given::Alone,
        "prints the man page dolzhytik(1) with the help of all commands.",
    ),
    Explained {
        short: Some("-h"),
        ..explained(Flag::Help, "--help", Given::Alone, "prints this.")
    },
    Explained {
        short: Some("-V"),
        ..explained(
            Flag::Version,
            "--version",
            Given::Alone,
            "prints the version, and how it was built.",
        )
    },
];

/// What the program does, after its name.
pub const ABOUT: &str = "lists, measures, strips, minimizes and builds WebAssembly modules";

/// The last lines of each help.
pub const LAST: &str = "
The file - is standard input or standard output.
Exit status: 0 success, 1 error, 2 usage.
";

pub const VERSION: &str = concat!(
    "dolzhytik ",
    env!("CARGO_PKG_VERSION"),
    "
The source of its encoders and decoders is proved in Rattle. rustc compiled this
build from it, and no proof covers that step.
"
);

/// The usage without a command.
const USAGE: &str = "\
usage: dolzhytik outline | dump | size | strip | shorten | build FILE ..
       dolzhytik completions bash | zsh | fish | powershell
       dolzhytik help [COMMAND | --man]
       dolzhytik --help | --version
";

/// The most columns of a line.
const WIDTH: usize = 80;

/// The columns of a command and of an option before what they do, and of `usage: dolzhytik`.
const COMMAND: usize = 13;
const OPTION: usize = 25;
const CALL: usize = 17;

impl Manual {
    /// Returns the manual of the command with this name.
    pub fn named(name: &str) -> Option<&'static Manual> {
        MANUALS.iter().find(|manual| manual.name == name)
    }

    /// Returns the option of the command with this name.
    pub fn option(&self, long: &str) -> Option<&'static Explained> {
        let mut options = OPTIONS.iter();
        options.find(|it| it.long == long && self.options.contains(&it.flag))
    }

    /// How the command is called, with these words before its name.
    fn call(&self, front: &str) -> String {
        let mut text = format!("{front:<CALL$}");
        append(
            &mut text,
            CALL,
            [self.name].into_iter().chain(self.usage.iter().copied()),
        );
        text
    }

    /// How the command is called.
    pub fn usage(&self) -> String {
        self.call("usage: dolzhytik")
    }

    /// The help of this command.
    pub fn help(&self) -> String {
        let mut text = self.usage() + "\n";
        append(&mut text, 0, self.says.split(' '));
        text.push('\n');
        OPTIONS
            .iter()
            .filter(|it| self.options.contains(&it.flag) || it.flag == Flag::Help)
            .for_each(|it| it.explain(&mut text));
        text + LAST
    }
}

impl Explained {
    pub fn has_value(&self) -> bool {
        self.given != Given::Alone
    }

    /// How the option is called in errors.
    pub fn name(&self) -> &'static str {
        self.short.unwrap_or(self.long)
    }

    /// How the option is given.
    pub fn shown(&self) -> String {
        let value = match self.given {
            Given::Alone => String::new(),
            Given::With(value) | Given::Often(value) => format!(" {value}"),
        };
        let long = format!("{}{value}", self.long);
        match self.short {
            None => long,
            Some(short) => format!("{short}{value}, {long}"),
        }
    }

    fn explain(&self, text: &mut String) {
        *text += &format!("{:<OPTION$}", self.shown());
        append(text, OPTION, self.says.split(' '));
    }
}

/// Appends words to a text that ends in this column, and ends the line. Lines of [`WIDTH`] columns
/// are ended before, and the next ones begin in the same column.
fn append<'a>(text: &mut String, column: usize, words: impl Iterator<Item = &'a str>) {
    let mut end = column;
    for word in words {
        if end > column && end + 1 + word.len() > WIDTH {
            *text += &format!("\n{:column$}", "");
            end = column;
        }
        let space = if end > column { " " } else { "" };
        *text += space;
        *text += word;
        end += space.len() + word.len();
    }
    text.push('\n');
}

/// How the program is called: with the command, if it is known.
pub fn usage(manual: Option<&Manual>) -> String {
    manual.map_or(USAGE.into(), Manual::usage)
}

/// The help of the program.
pub fn help() -> String {
    let mut text = format!("dolzhytik {ABOUT}.\n\n");
    let mut front = "usage: dolzhytik";
    for manual in &MANUALS {
        text += &manual.call(front);
        front = "       dolzhytik";
    }
    text += "       dolzhytik --help | --version\n\n";
    for Manual { name, says, .. } in &MANUALS {
        text += &format!("{name:<COMMAND$}");
        append(&mut text, COMMAND, says.split(' '));
    }
    text.push('\n');
    OPTIONS.iter().for_each(|it| it.explain(&mut text));
    text + LAST
}
