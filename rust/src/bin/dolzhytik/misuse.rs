//! Words that ask for nothing that the program does, and what was probably meant.
use crate::completions::Shell;
use crate::help::{MANUALS, Manual, OPTIONS, usage};
use std::ffi::OsString;
use std::fmt;

/// Why words ask for nothing that the program does.
#[derive(PartialEq, Eq, Debug)]
pub enum Usage {
    NoCommand,
    UnknownCommand(OsString),
    UnknownOption(OsString),
    /// No word follows this option, which needs one.
    NoValueOf(&'static str),
    /// The option is given twice.
    Twice(&'static str),
    NotANumber(OsString),
    /// Not a number up to 255.
    NotAnId(OsString),
    NotUtf8(OsString),
    /// Neither `keep` nor `drop`.
    NotABuildId(OsString),
    /// Neither `auto`, `always` nor `never`.
    NotAColor(OsString),
    /// Neither a number nor one with `%`.
    NotALimit(OsString),
    /// `size --fail-above` with one file.
    LimitOfOne,
    /// Both files are standard input.
    StandardTwice,
    /// `shorten --json` without `--dry-run`.
    JsonOfModule,
    /// Code may stay, or the sections that hold offsets into it are dropped.
    TwoTreatments,
    /// `dump` lists functions or sections.
    SectionsAndFunction,
    /// `size --why` with two files.
    WhyOfTwo,
    /// `help --man` with a command.
    PageOfCommand,
    /// `completions` without a shell.
    NoShell,
    UnknownShell(OsString),
    NoInput(&'static str),
    NoOutput(&'static str),
    WordTooMany(OsString),
    NoOptionOf {
        command: &'static str,
        option: &'static str,
    },
}

impl fmt::Display for Usage {
    fn fmt(&self, f: &mut fmt::Formatter<'_>) -> fmt::Result {
        match self {
            Usage::NoCommand => write!(f, "no command"),
            Usage::UnknownCommand(word) => write!(f, "no such command: {}", word.display()),
            Usage::UnknownOption(word) => write!(f, "no such option: {}", word.display()),
            Usage::NoValueOf(option) => write!(f, "{option} needs a value"),
            Usage::Twice(option) => write!(f, "{option} is given twice"),
            Usage::NotANumber(word) => write!(f, "not a number: {}", word.display()),
            Usage::NotAnId(word) => write!(f, "not an id of 0 to 255: {}", word.display()),
            Usage::NotUtf8(word) => write!(f, "not UTF-8: {}", word.display()),
            Usage::NotABuildId(word) => {
                write!(
                    f,
                    "--build-id needs keep or drop, and not {}",
                    word.display()
                )
            }
            Usage::NotAColor(word) => write!(
                f,
                "--color needs auto, always or never, and not {}",
                word.display()
            ),
            Usage::NotALimit(word) => {
                write!(
                    f,
                    "--fail-above needs a number of bytes, or of percent as 5%, and not {}",
                    word.display()
                )
            }
            Usage::LimitOfOne => write!(f, "size takes --fail-above only with two files"),
            Usage::WhyOfTwo => write!(f, "size takes --why only with one file"),
            Usage::StandardTwice => write!(f, "only one of the files can be standard input"),
            Usage::SectionsAndFunction => {
                write!(f, "dump takes a function or sections, and not both")
            }
            Usage::TwoTreatments => {
                write!(
                    f,
                    "shorten takes only one of --drop-offsets and --keep-code"
                )
            }
            Usage::JsonOfModule => write!(f, "shorten takes --json only with --dry-run"),
            Usage::PageOfCommand => write!(f, "help takes --man only without a command"),
            Usage::NoShell => write!(f, "completions needs bash, zsh, fish or powershell"),
            Usage::UnknownShell(word) => write!(f, "no such shell: {}", word.display()),
            Usage::NoInput(command) => write!(f, "{command} needs a file"),
            Usage::NoOutput(command) => write!(f, "{command} needs -o FILE"),
            Usage::WordTooMany(word) => write!(f, "unexpected argument: {}", word.display()),
            Usage::NoOptionOf { command, option } => write!(f, "{command} takes no {option}"),
        }
    }
}

/// A usage error.
#[derive(PartialEq, Eq, Debug)]
pub struct Misuse {
    why: Usage,
    /// The command that is given, or probably meant.
    manual: Option<&'static Manual>,
    /// The command, the option or the shell that was probably meant.
    meant: Option<&'static str>,
}

impl Misuse {
    pub fn new(why: Usage, manual: Option<&'static Manual>) -> Self {
        let meant = match &why {
            Usage::UnknownCommand(word) => word
                .to_str()
                .and_then(|word| nearest(word, MANUALS.iter().map(|it| it.name))),
            Usage::UnknownOption(word) => {
                let option = word.to_str().and_then(|word| word.split('=').next());
                option.and_then(|option| nearest(option, options_of(manual)))
            }
            Usage::UnknownShell(word) => word
                .to_str()
                .and_then(|word| nearest(word, Shell::ALL.into_iter().map(Shell::word))),
            _ => None,
        };
        Misuse {
            why,
            manual: manual.or_else(|| Manual::named(meant?)),
            meant,
        }
    }
}

/// The error, what was probably meant, and the usage of the command.
impl fmt::Display for Misuse {
    fn fmt(&self, f: &mut fmt::Formatter<'_>) -> fmt::Result {
        write!(f, "{}", self.why)?;
        if let Some(meant) = self.meant {
            write!(f, "; did you mean {meant}?")?;
        }
        write!(f, "\n{}", usage(self.manual).trim_end())
    }
}

/// The options that a command takes, or any command.
fn options_of(manual: Option<&'static Manual>) -> impl Iterator<Item = &'static str> {
    let is_taken =
        move |flag| manual.is_none_or(|manual| manual.options.contains(flag) || flag.is_of_all());
    OPTIONS
        .iter()
        .filter(move |option| is_taken(&option.flag))
        .map(|option| option.long)
}

/// The name that is most like a word. A third of its letters may differ.
pub fn nearest<'n>(word: &str, names: impl Iterator<Item = &'n str>) -> Option<&'n str> {
    let near = names.filter_map(|name| {
        let most = (name.trim_start_matches('-').len() / 3).max(1);
        let is_near = word.len().abs_diff(name.len()) <= most;
        let distance = is_near.then(|| distance(word, name))?;
        (distance <= most).then_some((distance, name))
    });
    near.min().map(|(_, name)| name)
}

/// How many letters are inserted, removed, replaced, or swapped with the next one, at least.
fn distance(from: &str, to: &str) -> usize {
    let [from, to] = [from, to].map(|text| text.chars().collect::<Vec<_>>());
    let mut rows = vec![(0..=to.len()).collect::<Vec<_>>()];
    for i in 1..=from.len() {
        let mut row = vec![i];
        for j in 1..=to.len() {
            let differs = usize::from(from[i - 1] != to[j - 1]);
            let least = (rows[i - 1][j] + 1).min(row[j - 1] + 1);
            let least = least.min(rows[i - 1][j - 1] + differs);
            let is_swapped = i > 1 && j > 1 && from[i - 2..i] == [to[j - 1], to[j - 2]];
            row.push(if is_swapped {
                least.min(rows[i - 2][j - 2] + 1)
            } else {
                least
            });
        }
        rows.push(row);
    }
    rows[from.len()][to.len()]
}

#[cfg(test)]
mod tests {
    use super::*;

    #[test]
    fn distances() {
        for (from, to, expected) in [
            ("", "", 0),
            ("", "dump", 4),
            ("dump", "dump", 0),
            ("dmup", "dump", 1),
            ("dum", "dump", 1),
            ("jump", "dump", 1),
            ("sort", "shorten", 3),
            ("ca", "abc", 3),
        ] {
            assert_eq!(distance(from, to), expected, "{from} {to}");
            assert_eq!(distance(to, from), expected, "{to} {from}");
        }
    }
}
