//! Colors of listings and tables: offsets are dim, and names bright.
use std::env;
use std::fmt::{self, Display, Formatter};
use std::io::{self, IsTerminal};
use std::sync::atomic::{AtomicBool, Ordering};

/// When there are colors.
#[derive(Clone, Copy, PartialEq, Eq, Debug)]
pub enum Color {
    /// On a terminal, unless the variable `NO_COLOR` is set to some text.
    Auto,
    Always,
    Never,
}

/// Whether there are colors. The program has one standard output, and decides once.
static IS_ON: AtomicBool = AtomicBool::new(false);

const DIM: &str = "\x1b[2m";
const BRIGHT: &str = "\x1b[1m";
const END: &str = "\x1b[0m";

impl Color {
    pub const ALL: [Color; 3] = [Color::Auto, Color::Always, Color::Never];

    /// What the option has.
    pub fn word(self) -> &'static str {
        match self {
            Color::Auto => "auto",
            Color::Always => "always",
            Color::Never => "never",
        }
    }

    /// Decides whether the texts after this call have colors.
    pub fn decide(self) {
        let is_on = match self {
            Color::Auto => io::stdout().is_terminal() && !is_unwanted(),
            Color::Always => true,
            Color::Never => false,
        };
        IS_ON.store(is_on, Ordering::Relaxed);
    }
}

/// Whether there are colors.
pub fn is_on() -> bool {
    IS_ON.load(Ordering::Relaxed)
}

/// Whether the environment says that there are no colors.
fn is_unwanted() -> bool {
    env::var_os("NO_COLOR").is_some_and(|value| !value.is_empty())
}

/// Writes a text between two sequences, if there are colors.
fn colored(f: &mut Formatter<'_>, begin: &str, text: &impl Display) -> fmt::Result {
    if !is_on() {
        return text.fmt(f);
    }
    f.write_str(begin)?;
    text.fmt(f)?;
    f.write_str(END)
}

/// Prints as a dim text.
pub struct Dim<T>(pub T);

impl<T: Display> Display for Dim<T> {
    fn fmt(&self, f: &mut Formatter<'_>) -> fmt::Result {
        colored(f, DIM, &self.0)
    }
}

/// Prints as a bright text.
pub struct Bright<T>(pub T);

impl<T: Display> Display for Bright<T> {
    fn fmt(&self, f: &mut Formatter<'_>) -> fmt::Result {
        colored(f, BRIGHT, &self.0)
    }
}
