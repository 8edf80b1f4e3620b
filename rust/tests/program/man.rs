//! `dolzhytik help --man`.
use crate::program::{COMMANDS, Folder, answer_of};
use std::process::Command;
use std::{env, fs, iter};

fn page() -> String {
    let answer = Folder::new("man").call(&["help", "--man"], b"");
    assert_eq!((&*answer.err, answer.status), ("", 0));
    String::from_utf8(answer.out).unwrap()
}

#[test]
fn front() {
    let front = concat!(
        ".TH DOLZHYTIK 1 \"\" \"dolzhytik ",
        env!("CARGO_PKG_VERSION"),
        r#"" "User Commands"
.SH NAME
dolzhytik \- lists, measures, strips, minimizes and builds WebAssembly modules
.SH SYNOPSIS
.SY "dolzhytik outline"
"#
    );
    assert!(page().starts_with(front), "{}", page());
}

/// The usage and the words of a command, and its options.
#[test]
fn a_command() {
    let page = page();
    let usage = r#".SY "dolzhytik build"
RECIPE\&
\-o\ FILE\&
[\-\-force]\&
.YS
"#;
    assert!(page.contains(usage), "{page}");
    let text = r#".SS build
writes the module of a recipe: lines of text that each add an item.
.TP
.B \-o FILE, \-\-output FILE
the module that is written. The file is replaced as a whole, or not at all; it may be the input.
.TP
.B \-\-force
writes a module to standard output even if that is a terminal.
.SS completions
"#;
    assert!(page.contains(text), "{page}");
    let end = r#".SH OPTIONS OF ALL COMMANDS
.TP
.B \-h, \-\-help
prints this.
.TP
.B \-V, \-\-version
prints the version, and how it was built.
.SH NOTES
The file \- is standard input or standard output.
.PP
Exit status: 0 success, 1 error, 2 usage.
"#;
    assert!(page.ends_with(end), "{page}");
}

/// The words of each help, in their order.
#[test]
fn the_page_has_the_words_of_each_help() {
    let page = page().replace("\\-", "-").replace("\\&", "");
    let folder = Folder::new("man_words");
    for command in COMMANDS {
        let help = String::from_utf8(folder.call(&["help", command], b"").out).unwrap();
        let parts: Vec<&str> = help.split("\n\n").collect();
        let says: Vec<&str> = parts[1].split_whitespace().collect();
        let section = format!("\n.SS {command}\n{}\n", says.join(" "));
        assert!(page.contains(&section), "{section}");
        let (_, after) = page.split_once(&section).unwrap();
        let (options, _) = after.split_once(".S").unwrap();
        let shown = parts[2].lines().filter(|line| line.starts_with('-'));
        for option in shown.filter(|line| !line.starts_with("-h")) {
            let name = option.split("  ").next().unwrap();
            assert!(
                options.contains(&format!(".B {name}\n")),
                "{command} {name}"
            );
        }
    }
}

/// groff prints no warning. Where it is missing, a test prints so, and passes.
#[test]
fn the_page_has_no_warning() {
    let mut groff = Command::new("groff");
    if groff.arg("--version").output().is_err() {
        eprintln!("there is no groff");
        return;
    }
    let mut groff = Command::new("groff");
    groff.args(["-man", "-Tascii", "-ww", "-P-cbou"]);
    let answer = answer_of(&mut groff, page().as_bytes());
    assert_eq!((&*answer.err, answer.status), ("", 0));
    let text = String::from_utf8(answer.out).unwrap();
    assert!(text.contains("\n   completions\n"), "{text}");
    assert!(text.contains("\n       -o FILE, --output FILE\n"), "{text}");
}

/// Whether `man` is that of man-db.
fn is_man_db() -> bool {
    let answer = Command::new("man").arg("--version").output();
    answer.is_ok_and(|it| it.stdout.starts_with(b"man 2."))
}

/// `man` finds the page where PROGRAMS.md installs it: beside the folder `bin` with the program.
/// Where man-db is missing, the test prints so, and passes.
#[test]
fn man_finds_the_page() {
    if !is_man_db() {
        eprintln!("there is no man-db");
        return;
    }
    let folder = Folder::new("man_installed");
    let (bin, pages) = (folder.path("bin"), folder.path("share/man/man1"));
    let installed = pages.join("dolzhytik.1");
    fs::create_dir_all(&bin).unwrap();
    fs::create_dir_all(&pages).unwrap();
    fs::write(&installed, page()).unwrap();
    let path = env::var_os("PATH").unwrap_or_default();
    let folders = iter::once(bin).chain(env::split_paths(&path));
    let mut man = Command::new("man");
    man.args(["-w", "dolzhytik"]).env_remove("MANPATH");
    man.env("PATH", env::join_paths(folders).unwrap());
    let answer = answer_of(&mut man, b"");
    let found = String::from_utf8(answer.out).unwrap();
    assert_eq!(found.trim_end(), installed.to_str().unwrap());
}
