//! The completions of shells.

/// A shell with completions.
#[derive(Clone, Copy, PartialEq, Eq, Debug)]
pub enum Shell {
    Bash,
    Zsh,
    Fish,
    Powershell,
}

impl Shell {
    pub const ALL: [Shell; 4] = [Shell::Bash, Shell::Zsh, Shell::Fish, Shell::Powershell];

    /// What an argument calls the shell.
    pub fn word(self) -> &'static str {
        match self {
            Shell::Bash => "bash",
            Shell::Zsh => "zsh",
            Shell::Fish => "fish",
            Shell::Powershell => "powershell",
        }
    }

    /// Returns the shell of a word.
    pub fn named(word: &str) -> Option<Self> {
        Shell::ALL.into_iter().find(|shell| shell.word() == word)
    }

    /// The file that completes the program's words.
    pub fn completions(self) -> &'static str {
        match self {
            Shell::Bash => include_str!("../../../completions/dolzhytik.bash"),
            Shell::Zsh => include_str!("../../../completions/_dolzhytik"),
            Shell::Fish => include_str!("../../../completions/dolzhytik.fish"),
            Shell::Powershell => include_str!("../../../completions/dolzhytik.ps1"),
        }
    }
}
