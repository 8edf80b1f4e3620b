//! The man page, of the text of the help.
use crate::help::{ABOUT, Explained, LAST, MANUALS, Manual, OPTIONS};

/// The title, and the name of the program.
const HEAD: &str = concat!(
    ".TH DOLZHYTIK 1 \"\" \"dolzhytik ",
    env!("CARGO_PKG_VERSION"),
    "\" \"User Commands\"\n",
);

/// How the program is called without a command.
const OTHERS: &str = r#".SY "dolzhytik \-\-help"
.YS
.SY "dolzhytik \-\-version"
.YS
"#;

/// Returns the source of the page `dolzhytik.1`, in the macros of man.
pub fn page() -> String {
    let synopsis: String = MANUALS.iter().map(synopsis).collect();
    let commands: String = MANUALS.iter().map(command).collect();
    format!(
        "{HEAD}.SH NAME\ndolzhytik \\- {}\n.SH SYNOPSIS\n{synopsis}{OTHERS}.SH COMMANDS\n{commands}\
         .SH OPTIONS OF ALL COMMANDS\n{}{}",
        plain(ABOUT),
        options(|it| it.flag.is_of_all()),
        notes()
    )
}

/// How a command is called.
fn synopsis(manual: &Manual) -> String {
    // A line does not end within a word, and a point at its end is not that of a sentence.
    let word = |it: &&str| plain(it).replace(' ', "\\ ") + "\\&";
    let words: Vec<String> = manual.usage.iter().map(word).collect();
    format!(
        ".SY \"dolzhytik {}\"\n{}\n.YS\n",
        manual.name,
        words.join("\n")
    )
}

/// What a command does, and its options.
fn command(manual: &Manual) -> String {
    let mut text = format!(".SS {}\n", manual.name);
    text += &format!("{}\n", plain(manual.says));
    text + &options(|it| manual.options.contains(&it.flag))
}

/// The options that are selected.
fn options(is_selected: impl Fn(&Explained) -> bool) -> String {
    let selected = OPTIONS.iter().filter(|it| is_selected(it));
    let option = |it: &Explained| format!(".TP\n.B {}\n{}\n", plain(&it.shown()), plain(it.says));
    selected.map(option).collect()
}

/// The last lines of the help: standard input and output, and the exit status.
fn notes() -> String {
    let lines = LAST.lines().filter(|line| !line.is_empty());
    let notes: Vec<String> = lines.map(plain).collect();
    format!(".SH NOTES\n{}\n", notes.join("\n.PP\n"))
}

/// A line of text in roff, which prints as it is.
fn plain(text: &str) -> String {
    let escaped = text.replace('\\', "\\e").replace('-', "\\-");
    match escaped.starts_with(['.', '\'']) {
        true => format!("\\&{escaped}"),
        false => escaped,
    }
}

#[cfg(test)]
#[test]
fn lines_of_text() {
    for (text, expected) in [
        ("--all", "\\-\\-all"),
        ("a.b", "a.b"),
        (".debug_*", "\\&.debug_*"),
        ("'a'", "\\&'a'"),
        ("a\\nb", "a\\enb"),
    ] {
        assert_eq!(plain(text), expected);
    }
}
