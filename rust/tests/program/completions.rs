//! The completions for shells have each command and option of the help.
use crate::program::{Answer, Folder};
use crate::tools;
use std::collections::{BTreeMap, BTreeSet};
use std::process::Command;

const BASH: &str = include_str!("../../completions/dolzhytik.bash");
const ZSH: &str = include_str!("../../completions/_dolzhytik");
const FISH: &str = include_str!("../../completions/dolzhytik.fish");
const POWERSHELL: &str = include_str!("../../completions/dolzhytik.ps1");

/// The options of each command.
type Commands = BTreeMap<String, BTreeSet<String>>;

fn help(words: &[&str]) -> String {
    let answer = Folder::new("completions").call(words, b"");
    String::from_utf8(answer.out).unwrap()
}

/// The options that a help explains: `-o` and `--output` of `-o FILE, --output FILE   the module`.
fn options(help: &str) -> BTreeSet<String> {
    let lines = help.lines().filter(|line| line.starts_with('-'));
    let words = lines.flat_map(|line| line.split("  ").next().unwrap().split([' ', ',']));
    words
        .filter(|word| word.starts_with('-'))
        .map(String::from)
        .collect()
}

/// The commands and their options, as the program has them.
fn commands() -> Commands {
    let help_of_all = help(&["help"]);
    let lines = help_of_all
        .lines()
        .filter(|line| line.starts_with(|c: char| c.is_ascii_lowercase()));
    let names = lines
        .filter_map(|line| line.split_once("  "))
        .map(|(name, _)| name);
    let commands: Commands = names
        .map(|name| (name.into(), options(&help(&[name, "--help"]))))
        .collect();
    assert_eq!(commands.len(), 8);
    commands
}

/// The words between two texts, after each of which the first one is.
fn between<'a>(text: &'a str, before: &str, after: &str) -> Vec<&'a str> {
    let parts = text.split(before).skip(1);
    parts.filter_map(|part| part.split(after).next()).collect()
}

fn words<'a>(words: impl IntoIterator<Item = &'a str>) -> BTreeSet<String> {
    words.into_iter().map(String::from).collect()
}

#[test]
fn bash() {
    for (command, options) in commands() {
        let found = between(BASH, &format!("    {command}) words='"), "'");
        assert_eq!(words(found[0].split(' ')), options, "{command}");
    }
    let names = commands().into_keys().collect();
    assert_eq!(
        words(between(BASH, "local commands='", "'")[0].split(' ')),
        names
    );
    assert!(BASH.contains("\"$commands -h --help -V --version\""));
}

#[test]
fn zsh() {
    let list = |name: &str| between(ZSH, &format!("\n{name}=("), ")\n")[0];
    let given = |text: &str| {
        words(
            between(text, "'-", "[")
                .into_iter()
                .chain(between(text, "'*-", "[")),
        )
    };
    let dashed =
        |names: BTreeSet<String>| names.into_iter().map(|name| format!("-{name}")).collect();
    for (command, options) in commands() {
        let text = between(ZSH, &format!("\n{command})\n"), ";;")[0];
        let mut found: BTreeSet<String> = dashed(given(text));
        for (variable, name) in [
            ("$help", "help"),
            ("$output", "output"),
            ("$color", "color"),
        ] {
            if text.contains(variable) {
                found.append(&mut dashed(given(list(name))));
            }
        }
        assert_eq!(found, options, "{command}");
    }
    let described = between(list("commands"), "'", ":");
    let names: BTreeSet<String> = described.into_iter().step_by(2).map(String::from).collect();
    assert_eq!(names, commands().into_keys().collect());
    assert!(ZSH.contains("'-V[print the version]' '--version[print the version]'"));
}

#[test]
fn fish() {
    let options_of = |line: &str| {
        let short = between(line, " -s ", " ")
            .into_iter()
            .map(|name| format!("-{name}"));
        let long = between(line, " -l ", " ")
            .into_iter()
            .map(|name| format!("--{name}"));
        short.chain(long).collect::<Vec<_>>()
    };
    for (command, options) in commands() {
        let is_for = |line: &&str| {
            let from = between(line, "__fish_seen_subcommand_from ", "'");
            let all = line.starts_with("complete -c dolzhytik -s ");
            all || from
                .iter()
                .any(|names| names.split(' ').any(|name| name == command))
        };
        let found: BTreeSet<String> = FISH.lines().filter(is_for).flat_map(options_of).collect();
        assert_eq!(found, options, "{command}");
    }
    let names = words(between(FISH, "-n $none -f -a ", " "));
    assert_eq!(names, commands().into_keys().collect());
    assert!(FISH.contains("-n $none -s V -l version "));
}

#[test]
fn powershell() {
    for (command, options) in commands() {
        let found = between(POWERSHELL, &format!("        '{command}' = '"), "'");
        assert_eq!(words(found[0].split(' ')), options, "{command}");
    }
    let names = between(POWERSHELL, "$commands = '", "'")[0];
    assert_eq!(words(names.split(' ')), commands().into_keys().collect());
    assert!(POWERSHELL.contains("\"$commands -h --help -V --version\""));
}

/// The program prints the files.
#[test]
fn of_shells() {
    let folder = Folder::new("completions_of");
    for (shell, text) in [
        ("bash", BASH),
        ("zsh", ZSH),
        ("fish", FISH),
        ("powershell", POWERSHELL),
    ] {
        assert_eq!(folder.call(&["completions", shell], b""), Answer::of(text));
        for file in [BASH, ZSH, FISH, POWERSHELL] {
            assert!(file.contains(shell), "{shell}");
        }
    }
}

/// Bash completes words by the file.
#[test]
fn words_of_bash() {
    let complete = |words: &str, last: usize| {
        let script = format!(
            "COMP_WORDS=({words}); COMP_CWORD={last}; _dolzhytik; echo \"${{COMPREPLY[*]}}\""
        );
        let mut bash = Command::new("bash");
        tools::printed(bash.args(["-c", &format!("{BASH}\n{script}")]))
    };
    for (words, last, expected) in [
        ("dolzhytik s", 1, "size strip shorten"),
        (
            "dolzhytik completions ''",
            2,
            "-h --help bash zsh fish powershell",
        ),
        ("dolzhytik completions f", 2, "fish"),
        ("dolzhytik size --f", 2, "--functions --fail-above"),
        ("dolzhytik size a", 2, ""),
    ] {
        let Some(printed) = complete(words, last) else {
            return;
        };
        assert_eq!(printed.trim_end(), expected, "{words}");
    }
}

#[test]
fn every_option_is_an_option_of_a_command_or_of_all() {
    let mut found: BTreeSet<String> = commands().into_values().flatten().collect();
    found.extend(["-V".into(), "--version".into()]);
    assert_eq!(found, options(&help(&["help"])));
}
