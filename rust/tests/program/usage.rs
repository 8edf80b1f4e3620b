//! Words that ask for nothing, help and the version.
use crate::program::{Answer, COMMANDS, Folder};

/// The usage of each command.
const USAGES: [&str; 8] = [
    "\
usage: dolzhytik outline FILE.. [--why] [--strict] [--json | --color WHEN]
",
    "\
usage: dolzhytik dump FILE [FUNCTION] [--section NUMBER|NAME].. [--id ID]..
                 [--relocations] [--json | --color WHEN]
",
    "\
usage: dolzhytik size (FILE [--why FUNCTION] | OLD NEW) [--functions N]
                 [--fail-above N|N%] [--json | --color WHEN]
",
    "\
usage: dolzhytik strip FILE [NAME..] [--debug] [--all] [--keep NAME].. -o FILE
                 [--force]
",
    "\
usage: dolzhytik shorten FILE (-o FILE | --dry-run [--json])
                 [--drop-offsets | --keep-code] [--build-id keep|drop] [--force]
",
    "\
usage: dolzhytik build RECIPE -o FILE [--force]
",
    "\
usage: dolzhytik completions bash | zsh | fish | powershell
",
    "\
usage: dolzhytik help [COMMAND | --man]
",
];

/// The usage without a command.
const USAGE: &str = "\
usage: dolzhytik outline | dump | size | strip | shorten | build FILE ..
       dolzhytik completions bash | zsh | fish | powershell
       dolzhytik help [COMMAND | --man]
       dolzhytik --help | --version
";

fn usage_of(command: &str) -> &'static str {
    let front = format!("usage: dolzhytik {command} ");
    let mut usages = USAGES.into_iter();
    usages.find(|usage| usage.starts_with(&front)).unwrap()
}

/// Checks the error, and the usage below it.
#[track_caller]
fn check_with(usage: &str, words: &[&str], why: &str) {
    let folder = Folder::new("usage");
    let expected = Answer {
        out: Vec::new(),
        err: format!("dolzhytik: {why}\n{usage}"),
        status: 2,
    };
    assert_eq!(folder.call(words, b""), expected);
    assert!(folder.names().is_empty());
}

/// Checks the error of a command, and its usage.
#[track_caller]
fn check(words: &[&str], why: &str) {
    check_with(usage_of(words[0]), words, why);
}

#[test]
fn errors() {
    check_with(USAGE, &[], "no command");
    check_with(USAGE, &["-o", "b"], "no command");
    check_with(USAGE, &["-"], "no such command: -");
    check_with(USAGE, &["list", "a"], "no such command: list");
    check_with(USAGE, &["--hex", "list"], "no such option: --hex");
    check(&["outline", "--hex", "a"], "no such option: --hex");
    check(&["shorten", "a", "-o"], "-o needs a value");
    // The command is the first word that is no option and no value.
    let words = ["--output", "size", "shorten", "a", "--build-id", "x"];
    let why = "--build-id needs keep or drop, and not x";
    check_with(usage_of("shorten"), &words, why);
    let words = ["--json", "--functions=x", "size", "a"];
    check_with(usage_of("size"), &words, "not a number: x");
    check(&["build", "a", "--output"], "-o needs a value");
    check(&["strip", "a", "-ob", "--keep"], "--keep needs a value");
    let twice = ["shorten", "a", "-o", "b", "--output=c"];
    check(&twice, "-o is given twice");
    let twice = ["size", "a", "--functions", "1", "--functions", "2"];
    check(&twice, "--functions is given twice");
    check(&["size", "a", "--functions", "x"], "not a number: x");
    check(&["size", "a", "--functions=-1"], "not a number: -1");
    let limit = |word| ["size", "a", "b", "--fail-above", word];
    for word in ["x", "-1", "5.5%", "%", "", "1k"] {
        let why = "--fail-above needs a number of bytes, or of percent as 5%, and not";
        check(&limit(word), &format!("{why} {word}"));
    }
    check(&limit("")[..4], "--fail-above needs a value");
    let twice = [&limit("5")[..], &["--fail-above=5%"]].concat();
    check(&twice, "--fail-above is given twice");
    // Of outline it has no value. Before the command it has one only in the word.
    for words in [&["size", "a", "--why"][..], &["--why", "size", "a"]] {
        check_with(usage_of("size"), words, "--why needs a value");
    }
    let twice = ["--why=0", "size", "a", "--why", "1"];
    check_with(usage_of("size"), &twice, "--why is given twice");
    let valued = "no such option: --why=a; did you mean --why?";
    check(&["outline", "a", "--why=a"], valued);
    check(&["dump", "a", "--id=256"], "not an id of 0 to 255: 256");
    check(
        &["dump", "a", "--id", "code"],
        "not an id of 0 to 255: code",
    );
    let color = |word| ["dump", "a", "--color", word];
    for word in ["x", "", "Auto", "yes"] {
        let why = "--color needs auto, always or never, and not";
        check(&color(word), &format!("{why} {word}"));
    }
    check(&color("")[..3], "--color needs a value");
    let with_json = ["size", "a", "--color=x", "--json"];
    let why = "--color needs auto, always or never, and not x";
    check(&with_json, why);
    let build_id = |word| ["shorten", "a", "-ob", "--build-id", word];
    check(
        &build_id("kept"),
        "--build-id needs keep or drop, and not kept",
    );
    check(&build_id(""), "--build-id needs keep or drop, and not ");
    let value = "--build-id needs a value";
    check(&build_id("")[..4], value);
    let twice = [&build_id("keep")[..], &["--build-id=keep"]].concat();
    check(&twice, "--build-id is given twice");
}

#[test]
fn missing_and_unexpected_arguments() {
    for command in ["outline", "dump", "size"] {
        check(&[command], &format!("{command} needs a file"));
    }
    for command in ["strip", "shorten", "build"] {
        check(&[command, "-ob"], &format!("{command} needs a file"));
        check(&[command, "a"], &format!("{command} needs -o FILE"));
    }
    check(&["size", "a", "b", "c"], "unexpected argument: c");
    let standard = "only one of the files can be standard input";
    check(&["outline", "-", "a", "-"], standard);
    check(&["size", "-", "-"], standard);
    let limit = "size takes --fail-above only with two files";
    check(&["size", "a", "--fail-above=5%"], limit);
    let one = "size takes --why only with one file";
    check(&["size", "a", "b", "--why=f"], one);
    check(&["size", "a", "--why=f", "--fail-above=5%"], limit);
    check(&["dump", "a", "b", "c"], "unexpected argument: c");
    let both = "dump takes a function or sections, and not both";
    check(&["dump", "a", "b", "--id=10"], both);
    check(&["dump", "--section=code", "a", "0"], both);
    check(&["shorten", "a", "b", "-o", "c"], "unexpected argument: b");
    check(&["build", "a", "b", "-o", "c"], "unexpected argument: b");
    check(&["help", "size", "b"], "unexpected argument: b");
    check(&["help", "it"], "no such command: it");
    let shells = "completions needs bash, zsh, fish or powershell";
    check(&["completions"], shells);
    check(&["completions", "tcsh"], "no such shell: tcsh");
    let near = "no such shell: bas; did you mean bash?";
    check(&["completions", "bas"], near);
    let more = "unexpected argument: zsh";
    check(&["completions", "bash", "zsh"], more);
    check(&["completions", "--json"], "completions takes no --json");
    check(&["help", "--json"], "help takes no --json");
    let page = "help takes --man only without a command";
    check(&["help", "size", "--man"], page);
    check(&["dump", "a", "--man"], "dump takes no --man");
    // After `--` there are no options.
    check(&["size", "--", "a", "b", "-h"], "unexpected argument: -h");
}

/// A word may be like a command, or like an option of the command.
#[test]
fn words_that_were_probably_meant() {
    let commands = [
        ("shortn", "shorten"),
        ("shroten", "shorten"),
        ("outlines", "outline"),
        ("dmup", "dump"),
        ("siz", "size"),
        ("Strip", "strip"),
    ];
    for (word, meant) in commands {
        let why = format!("no such command: {word}; did you mean {meant}?");
        check_with(usage_of(meant), &[word, "a"], &why);
    }
    let why = "no such command: sizes; did you mean size?";
    check(&["help", "sizes"], why);
    let options = [
        (&["strip", "a", "--debg"][..], "--debug"),
        (&["strip", "--al", "a"], "--all"),
        (&["strip", "a", "--all=b"], "--all"),
        (&["dump", "a", "--sectoin=1"], "--section"),
        (&["outline", "a", "--help=b"], "--help"),
        (&["size", "--versoin"], "--version"),
    ];
    for (words, meant) in options {
        let word = words.iter().find(|word| word.starts_with('-')).unwrap();
        let why = format!("no such option: {word}; did you mean {meant}?");
        check(words, &why);
    }
    // An option of other commands.
    check(&["build", "--debg"], "no such option: --debg");
    let why = "no such option: --debg; did you mean --debug?";
    check_with(USAGE, &["--debg"], why);
}

#[test]
fn options_of_other_commands() {
    check(&["outline", "a", "-o", "b"], "outline takes no -o");
    check(&["size", "a", "-ob"], "size takes no -o");
    let json = ["strip", "a", "-ob", "--json"];
    check(&json, "strip takes no --json");
    let dropped = ["outline", "a", "--drop-offsets"];
    check(&dropped, "outline takes no --drop-offsets");
    let dropped = ["build", "a", "-o", "b", "--drop-offsets"];
    check(&dropped, "build takes no --drop-offsets");
    let kept = ["shorten", "a", "-o", "b", "--keep", "c"];
    check(&kept, "shorten takes no --keep");
    check(&["size", "a", "--all"], "size takes no --all");
    check(&["strip", "a", "-ob", "--why"], "strip takes no --why");
    check(&["dump", "a", "--strict"], "dump takes no --strict");
    let limit = ["shorten", "a", "--dry-run", "--fail-above=5"];
    check(&limit, "shorten takes no --fail-above");
    let section = ["outline", "a", "--section=b"];
    check(&section, "outline takes no --section");
    check(&["outline", "a", "--id=1"], "outline takes no --id");
    check(&["outline", "a", "--debug"], "outline takes no --debug");
    let functions = ["strip", "a", "-o", "b", "--functions=1"];
    check(&functions, "strip takes no --functions");
    check(&["dump", "a", "--force"], "dump takes no --force");
    let kept = ["strip", "a", "-ob", "--keep-code"];
    check(&kept, "strip takes no --keep-code");
    let build_id = ["strip", "a", "-ob", "--build-id=drop"];
    check(&build_id, "strip takes no --build-id");
    let color = ["strip", "a", "-ob", "--color=never"];
    check(&color, "strip takes no --color");
    let dry = ["build", "a", "-ob", "--dry-run"];
    check(&dry, "build takes no --dry-run");
    let json = "shorten takes --json only with --dry-run";
    check(&["shorten", "a", "-ob", "--json"], json);
    let two = "shorten takes only one of --drop-offsets and --keep-code";
    let both = ["shorten", "a", "--keep-code", "--drop-offsets", "-ob"];
    check(&both, two);
    check(
        &["shorten", "a", "--keep-code", "--drop-offsets", "--dry-run"],
        two,
    );
}

#[test]
fn version() {
    let folder = Folder::new("version");
    let text = concat!(
        "dolzhytik ",
        env!("CARGO_PKG_VERSION"),
        "
The source of its encoders and decoders is proved in Rattle. rustc compiled this
build from it, and no proof covers that step.
"
    );
    for words in [&["--version"][..], &["-V"], &["outline", "-V", "--hex"]] {
        assert_eq!(folder.call(words, b""), Answer::of(text));
    }
}

const FIRST: &str = "\
dolzhytik lists, measures, strips, minimizes and builds WebAssembly modules.
";

#[test]
fn help() {
    let folder = Folder::new("help");
    let help = folder.call(&["--help"], b"");
    let text = String::from_utf8(help.out.clone()).unwrap();
    let usages = USAGES.concat().replace("\nusage:", "\n      ");
    let front = format!("{FIRST}\n{usages}       dolzhytik --help | --version\n\noutline      ");
    assert!(text.starts_with(&front));
    for line in [
        "outline   ",
        "dump   ",
        "size   ",
        "strip   ",
        "shorten   ",
        "build   ",
        "completions  ",
        "help   ",
        "-o FILE, --output FILE ",
        "--force ",
        "--functions N ",
        "--fail-above N|N% ",
        "--all ",
        "--debug ",
        "--keep NAME ",
        "--section NUMBER|NAME ",
        "--id ID ",
        "-r, --relocations ",
        "--why ",
        "--why FUNCTION ",
        "--strict ",
        "--dry-run ",
        "--json ",
        "--color WHEN ",
        "--drop-offsets ",
        "--keep-code ",
        "--build-id keep|drop ",
        "--man ",
    ] {
        assert!(text.contains(&format!("\n{line}")), "{line}");
    }
    assert!(text.ends_with("\nExit status: 0 success, 1 error, 2 usage.\n"));
    assert_eq!(help, Answer::of(text));
    for words in [
        &["-h"][..],
        &["help"],
        &["shortn", "-h"],
        &["--help", "--hex"],
    ] {
        assert_eq!(folder.call(words, b""), help);
    }
}

#[test]
fn help_of_commands() {
    let folder = Folder::new("help_of");
    let text = "usage: dolzhytik size (FILE [--why FUNCTION] | OLD NEW) [--functions N]
                 [--fail-above N|N%] [--json | --color WHEN]

prints the sizes of the sections in bytes and in percent, and of the ten largest
functions and data segments, the largest first. If names of functions have ::,
it prints groups of functions by the part before that: ten, the others, and the
sum. Of two builds it prints what grew and shrank: the sections, ten functions
and ten data segments, the largest change first. Functions are matched by name,
then by equal body, and data segments by name, or by index without one.

--why FUNCTION           prints why a function, an index or a name, is in the
                         module: a shortest path of references to it from an
                         export, the start function, an element segment, a
                         global or a table. Then it prints the functions that
                         are reachable only through it.
--functions N            how many functions size prints, by default 10, and how
                         many data segments and groups.
--fail-above N|N%        the status is 1 if NEW is larger than OLD by more than
                         this, in bytes or in percent of OLD.
--json                   prints JSON, for other programs, with offsets and sizes
                         in decimal.
--color WHEN             auto, always or never: when offsets are dim and names
                         bright. auto, the default, is on a terminal, unless the
                         variable NO_COLOR is set. JSON has no colors.
-h, --help               prints this.

The file - is standard input or standard output.
Exit status: 0 success, 1 error, 2 usage.
";
    for words in [
        &["size", "--help"][..],
        &["size", "a", "-h"],
        &["size", "--json", "-h", "--hex"],
        &["--help", "size"],
        &["help", "size"],
    ] {
        assert_eq!(folder.call(words, b""), Answer::of(text), "{words:?}");
    }
}

/// A line has at most 80 columns.
#[test]
fn all_help_fits_a_terminal() {
    let folder = Folder::new("help_fits");
    let mut texts = vec![folder.call(&["help"], b"").out];
    for command in COMMANDS {
        let help = folder.call(&[command, "-h"], b"").out;
        assert!(help.starts_with(usage_of(command).as_bytes()), "{command}");
        texts.extend([help, folder.call(&[command, "--hex"], b"").err.into()]);
    }
    texts.extend([
        folder.call(&[], b"").err.into(),
        folder.call(&["-V"], b"").out,
    ]);
    for text in texts {
        let text = String::from_utf8(text).unwrap();
        assert!(text.lines().all(|line| line.len() <= 80), "{text}");
        assert!(
            !text.contains("nverified") && !text.contains(" \n"),
            "{text}"
        );
    }
}
