//! The words after the program's name, and what they ask for.
use crate::color::Color;
use crate::completions::Shell;
use crate::dump::{self, Selector};
use crate::files::{Input, Output};
use crate::growth::{self, Limit};
use crate::help::{Explained, Flag, Given, Manual, OPTIONS, Verb};
use crate::misuse::{Misuse, Usage};
use crate::outline;
use crate::shorten::{self, BuildId};
use crate::strip::Choice;
use dolzhytik::reader::Offsets;
use std::ffi::OsString;
use std::str::FromStr;

/// How many functions `size` lists if no option says it.
const FUNCTIONS: usize = 10;

/// How results are printed.
#[derive(Clone, Copy, PartialEq, Eq, Debug)]
pub enum Format {
    Table,
    Json,
}

/// What the program is asked for, and whether its text has colors.
#[derive(PartialEq, Eq, Debug)]
pub struct Request {
    pub command: Command,
    pub color: Color,
}

impl From<Command> for Request {
    fn from(command: Command) -> Self {
        let color = Color::Never;
        Request { command, color }
    }
}

/// What the program is asked for.
#[derive(PartialEq, Eq, Debug)]
pub enum Command {
    Outline {
        /// One or more.
        inputs: Vec<Input>,
        choice: outline::Choice,
    },
    Dump {
        input: Input,
        choice: dump::Choice,
    },
    Shorten {
        input: Input,
        output: Output,
        choice: shorten::Choice,
    },
    /// `shorten --dry-run`.
    SavingsOf {
        input: Input,
        choice: shorten::Choice,
        format: Format,
    },
    Size {
        input: Input,
        /// How many functions to list.
        functions: usize,
        format: Format,
    },
    /// `size --why`.
    Why {
        input: Input,
        function: dump::Function,
        /// How many functions to list.
        most: usize,
        format: Format,
    },
    /// `size` of two files.
    Compare {
        old: Input,
        new: Input,
        choice: growth::Choice,
    },
    Strip {
        input: Input,
        output: Output,
        choice: Choice,
    },
    Build {
        recipe: Input,
        output: Output,
    },
    Completions(Shell),
    /// `help --man`.
    ManPage,
    /// The help of a command, or of the program.
    Help(Option<&'static Manual>),
    Version,
}

/// The options that are given, with their values.
#[derive(Default)]
struct Options(Vec<(&'static Explained, OsString)>);

impl Options {
    /// Adds an option.
    fn add(&mut self, option: &'static Explained, value: OsString) -> Result<(), Usage> {
        if matches!(option.given, Given::With(_)) && self.has(option.flag) {
            return Err(Usage::Twice(option.name()));
        }
        self.0.push((option, value));
        Ok(())
    }

    /// The first option that is given and not of the command.
    fn other_than(&self, taken: &[Flag]) -> Option<&'static Explained> {
        let mut given = self.0.iter().map(|(option, _)| *option);
        given.find(|option| !taken.contains(&option.flag))
    }

    fn has(&self, flag: Flag) -> bool {
        self.values(flag).next().is_some()
    }

    fn values(&self, flag: Flag) -> impl Iterator<Item = OsString> {
        let values = self.0.iter().filter(move |(option, _)| option.flag == flag);
        values.map(|(_, value)| value.clone())
    }

    fn offsets(&self) -> Offsets {
        if self.has(Flag::DropOffsets) {
            Offsets::LeaveOut
        } else {
            Offsets::Refuse
        }
    }

    fn build_id(&self) -> Result<Option<BuildId>, Usage> {
        let Some(word) = self.values(Flag::BuildId).next() else {
            return Ok(None);
        };
        match word.to_str() {
            Some("keep") => Ok(Some(BuildId::Keep)),
            Some("drop") => Ok(Some(BuildId::Drop)),
            _ => Err(Usage::NotABuildId(word)),
        }
    }

    fn format(&self) -> Format {
        if self.has(Flag::Json) {
            Format::Json
        } else {
            Format::Table
        }
    }

    /// When there are colors. Commands without the option have none, and JSON has none.
    fn color(&self, manual: &Manual) -> Result<Color, Usage> {
        let word = self.values(Flag::Color).next();
        let color = match &word {
            None if manual.options.contains(&Flag::Color) => Some(Color::Auto),
            None => Some(Color::Never),
            Some(word) => Color::ALL.into_iter().find(|it| word == it.word()),
        };
        match (color, word) {
            (Some(_), _) if self.has(Flag::Json) => Ok(Color::Never),
            (Some(color), _) => Ok(color),
            (None, word) => Err(Usage::NotAColor(word.unwrap_or_default())),
        }
    }

    fn selectors(&self) -> Result<Vec<Selector>, Usage> {
        let selector = |(option, word): &(&'static Explained, OsString)| match option.flag {
            Flag::Section => Some(name(word.clone()).map(Selector::of)),
            Flag::Id => Some(number(word.clone(), Usage::NotAnId).map(Selector::Id)),
            _ => None,
        };
        self.0.iter().filter_map(selector).collect()
    }

    fn functions(&self) -> Result<usize, Usage> {
        let Some(word) = self.values(Flag::Functions).next() else {
            return Ok(FUNCTIONS);
        };
        number(word, Usage::NotANumber)
    }

    /// The function that `size` explains.
    fn explained(&self) -> Result<Option<dump::Function>, Usage> {
        let word = self.values(Flag::WhyOf).next();
        Ok(word.map(name).transpose()?.map(dump::Function::of))
    }

    fn limit(&self) -> Result<Option<Limit>, Usage> {
        let word = self.values(Flag::FailAbove).next();
        word.map(|word| number(word, Usage::NotALimit)).transpose()
    }
}

/// Reads a number or a limit, or returns the error that the word is none.
fn number<T: FromStr>(word: OsString, error: fn(OsString) -> Usage) -> Result<T, Usage> {
    let number = word.to_str().and_then(|word| word.parse().ok());
    number.ok_or_else(|| error(word))
}

fn name(word: OsString) -> Result<String, Usage> {
    word.into_string().map_err(Usage::NotUtf8)
}

fn names(words: impl IntoIterator<Item = OsString>) -> Result<Vec<String>, Usage> {
    words.into_iter().map(name).collect()
}

/// The words of a command, apart from the options.
struct Words {
    command: &'static str,
    words: std::vec::IntoIter<OsString>,
    options: Options,
}

impl Words {
    /// Reads the words of a command, which takes its options alone.
    fn read(mut self, verb: Verb) -> Result<Command, Usage> {
        let command = match verb {
            Verb::Outline => Command::Outline {
                inputs: self.inputs()?,
                choice: outline::Choice {
                    format: self.options.format(),
                    why: self.options.has(Flag::Why),
                    strict: self.options.has(Flag::Strict),
                },
            },
            Verb::Dump => Command::Dump {
                input: self.input()?,
                choice: self.listing()?,
            },
            Verb::Size => self.size()?,
            Verb::Strip => Command::Strip {
                input: self.input()?,
                choice: self.choice()?,
                output: self.output()?,
            },
            Verb::Shorten => self.shorten()?,
            Verb::Build => Command::Build {
                recipe: self.input()?,
                output: self.output_at_end()?,
            },
            Verb::Completions => self.completions()?,
            Verb::Help => self.help()?,
        };
        self.end()?;
        Ok(command)
    }

    /// What `dump` lists.
    fn listing(&mut self) -> Result<dump::Choice, Usage> {
        let function = self.words.next().map(name).transpose()?;
        let sections = self.options.selectors()?;
        if function.is_some() && !sections.is_empty() {
            return Err(Usage::SectionsAndFunction);
        }
        Ok(dump::Choice {
            sections,
            function: function.map(dump::Function::of),
            relocations: self.options.has(Flag::Relocations),
            format: self.options.format(),
        })
    }

    /// The sizes of a file, or what grew and shrank between two.
    fn size(&mut self) -> Result<Command, Usage> {
        let input = self.input()?;
        let choice = growth::Choice {
            most: self.options.functions()?,
            format: self.options.format(),
            limit: self.options.limit()?,
        };
        let function = self.options.explained()?;
        match (self.words.next().map(Input::from), function) {
            (Some(_), Some(_)) => Err(Usage::WhyOfTwo),
            (Some(new), None) if new == Input::Standard && new == input => {
                Err(Usage::StandardTwice)
            }
            (Some(new), None) => Ok(Command::Compare {
                old: input,
                new,
                choice,
            }),
            (None, _) if choice.limit.is_some() => Err(Usage::LimitOfOne),
            (None, Some(function)) => Ok(Command::Why {
                input,
                function,
                most: choice.most,
                format: choice.format,
            }),
            (None, None) => Ok(Command::Size {
                input,
                functions: choice.most,
                format: choice.format,
            }),
        }
    }

    fn shorten(&mut self) -> Result<Command, Usage> {
        let input = self.input()?;
        let choice = self.shortening()?;
        if self.options.has(Flag::DryRun) {
            let format = self.options.format();
            return Ok(Command::SavingsOf {
                input,
                choice,
                format,
            });
        }
        if self.options.has(Flag::Json) {
            return Err(Usage::JsonOfModule);
        }
        Ok(Command::Shorten {
            input,
            choice,
            output: self.output_at_end()?,
        })
    }

    /// What becomes of custom sections that depend on other bytes.
    fn shortening(&self) -> Result<shorten::Choice, Usage> {
        let (offsets, keeps_code) = (self.options.offsets(), self.options.has(Flag::KeepCode));
        if keeps_code && offsets == Offsets::LeaveOut {
            return Err(Usage::TwoTreatments);
        }
        Ok(shorten::Choice {
            offsets,
            keeps_code,
            build_id: self.options.build_id()?,
        })
    }

    fn completions(&mut self) -> Result<Command, Usage> {
        let word = self.words.next().ok_or(Usage::NoShell)?;
        match word.to_str().and_then(Shell::named) {
            Some(shell) => Ok(Command::Completions(shell)),
            None => Err(Usage::UnknownShell(word)),
        }
    }

    fn help(&mut self) -> Result<Command, Usage> {
        let is_page = self.options.has(Flag::Man);
        let Some(word) = self.words.next() else {
            return Ok(if is_page {
                Command::ManPage
            } else {
                Command::Help(None)
            });
        };
        if is_page {
            return Err(Usage::PageOfCommand);
        }
        match word.to_str().and_then(Manual::named) {
            None => Err(Usage::UnknownCommand(word)),
            manual => Ok(Command::Help(manual)),
        }
    }

    fn input(&mut self) -> Result<Input, Usage> {
        let word = self.words.next().ok_or(Usage::NoInput(self.command))?;
        Ok(Input::from(word))
    }

    /// The files that all words are. Standard input can be read once.
    fn inputs(&mut self) -> Result<Vec<Input>, Usage> {
        let mut inputs = vec![self.input()?];
        inputs.extend(self.words.by_ref().map(Input::from));
        match inputs.iter().filter(|it| **it == Input::Standard).count() {
            0 | 1 => Ok(inputs),
            _ => Err(Usage::StandardTwice),
        }
    }

    /// Checks that there is no further word.
    fn end(&mut self) -> Result<(), Usage> {
        match self.words.next() {
            None => Ok(()),
            Some(word) => Err(Usage::WordTooMany(word)),
        }
    }

    fn output(&self) -> Result<Output, Usage> {
        let word = self.options.values(Flag::Output).next();
        match word.map(Output::from) {
            None => Err(Usage::NoOutput(self.command)),
            Some(Output::Standard) if self.options.has(Flag::Force) => Ok(Output::Forced),
            Some(output) => Ok(output),
        }
    }

    /// The output of a command that takes no word after the input, which is the first error.
    fn output_at_end(&mut self) -> Result<Output, Usage> {
        self.end()?;
        self.output()
    }

    /// Which custom sections to remove and to keep.
    fn choice(&mut self) -> Result<Choice, Usage> {
        Ok(Choice {
            all: self.options.has(Flag::All),
            debug: self.options.has(Flag::Debug),
            named: names(self.words.by_ref())?,
            kept: names(self.options.values(Flag::Keep))?,
        })
    }
}

/// The command of the first word.
fn command(mut words: Vec<OsString>, options: Options) -> Result<Request, Usage> {
    if words.is_empty() {
        return Err(Usage::NoCommand);
    }
    let word = words.remove(0);
    let Some(manual) = word.to_str().and_then(Manual::named) else {
        return Err(Usage::UnknownCommand(word));
    };
    let command = manual.name;
    if let Some(option) = options.other_than(manual.options) {
        let name = option.name();
        return Err(match manual.option(option.long) {
            Some(own) if own.has_value() => Usage::NoValueOf(name),
            _ => Usage::NoOptionOf {
                command,
                option: name,
            },
        });
    }
    let color = options.color(manual)?;
    let words = Words {
        command,
        words: words.into_iter(),
        options,
    };
    let command = words.read(manual.verb)?;
    Ok(Request { command, color })
}

/// Splits an option from its value: `-oFILE`, `--output=FILE`.
fn split(word: &str) -> (&str, Option<OsString>) {
    match word.strip_prefix("-o") {
        Some(value) if !value.is_empty() => ("-o", Some(value.into())),
        _ => match word.split_once('=') {
            Some((option, value)) => (option, Some(value.into())),
            None => (word, None),
        },
    }
}

/// Returns the option of a word, and the value in the word. Commands may have different options of
/// a name: one before the command has a value only if that is in the word.
fn option(word: &str, manual: Option<&Manual>) -> Option<(&'static Explained, Option<OsString>)> {
    let (name, value) = split(word);
    let is_named = |it: &&Explained| it.long == name || it.short == Some(name);
    let is_own = |it: &&Explained| manual.is_some_and(|manual| manual.options.contains(&it.flag));
    let is_alike = |it: &&Explained| it.has_value() == value.is_some();
    let named = || OPTIONS.iter().filter(is_named);
    let option = named().find(is_own).or_else(|| named().find(is_alike));
    let option = option.or_else(|| named().next())?;
    match (option.given, &value) {
        (Given::Alone, Some(_)) => None,
        _ => Some((option, value)),
    }
}

/// The help of the command that is the first word, or else of the program.
fn help_of(first: Option<OsString>) -> Command {
    let first = first.as_ref().and_then(|word| word.to_str());
    Command::Help(first.and_then(Manual::named))
}

/// Whether a word is an option, and neither a file nor a name.
fn is_option(word: &str) -> bool {
    word.starts_with('-') && word != "-"
}

/// The command of the words, even if other words are wrong.
fn manual_of(words: &[OsString]) -> Option<&'static Manual> {
    let mut words = words.iter();
    loop {
        let word = words.next()?.to_str()?;
        if !is_option(word) {
            return Manual::named(word);
        }
        if option(word, None).is_some_and(|(option, value)| option.has_value() && value.is_none()) {
            words.next();
        }
    }
}

/// The command of the first word that is no option, if it is known already.
fn named(words: &[OsString]) -> Option<&'static Manual> {
    words.first()?.to_str().and_then(Manual::named)
}

/// Reads what the words ask for. Options may be anywhere before `--`.
pub fn read(words: impl Iterator<Item = OsString>) -> Result<Request, Misuse> {
    let words: Vec<OsString> = words.collect();
    read_words(words.iter().cloned()).map_err(|why| Misuse::new(why, manual_of(&words)))
}

fn read_words(mut words: impl Iterator<Item = OsString>) -> Result<Request, Usage> {
    let (mut others, mut options) = (Vec::new(), Options::default());
    while let Some(word) = words.next() {
        let text = match word.to_str() {
            Some("--") => {
                others.extend(words.by_ref());
                break;
            }
            Some(text) if is_option(text) => text,
            _ => {
                others.push(word);
                continue;
            }
        };
        let Some((option, value)) = option(text, named(&others)) else {
            return Err(Usage::UnknownOption(word));
        };
        match option.flag {
            Flag::Help => return Ok(help_of(others.into_iter().chain(words).next()).into()),
            Flag::Version => return Ok(Command::Version.into()),
            _ => {}
        }
        let value = if option.has_value() {
            let value = value.or_else(|| words.next());
            value.ok_or(Usage::NoValueOf(option.name()))?
        } else {
            OsString::new()
        };
        options.add(option, value)?;
    }
    command(others, options)
}
