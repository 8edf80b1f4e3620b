//! What `dolzhytik shorten` makes of a module, and what it reports.
use crate::program::{Answer, Folder};
use crate::samples::module;

/// Checks what the sections become with these options, the end of the report, and the lines before
/// it for sections that do not decode. With `--dry-run` the report is the same.
#[track_caller]
pub fn check_shortened(
    sections: &[&str],
    options: &[&str],
    expected: &[&str],
    told: &str,
    undecoded: &[&str],
) {
    let folder = Folder::new("shortened");
    let (before, after) = (module(sections), module(expected));
    folder.write("a.wasm", &before);
    let sizes = format!(
        "a.wasm: {} bytes before, {} after; {told}",
        before.len(),
        after.len(),
    );
    let words = [&["shorten", "a.wasm"], options].concat();
    let expected = |line: &str| Answer::told(line).keeping("a.wasm", undecoded);
    let answer = folder.call(&[&words[..], &["-ob.wasm"]].concat(), b"");
    assert_eq!(answer, expected(&sizes), "{options:?}");
    assert_eq!(folder.read("b.wasm"), after);
    let answer = folder.call(&[&words[..], &["--dry-run"]].concat(), b"");
    assert_eq!(answer.err, expected(&(sizes + " (dry run)")).err);
}
