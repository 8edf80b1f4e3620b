//! What is being done, where that may take a while and somebody looks on.
use std::io::{self, IsTerminal, Write};
use std::sync::atomic::{AtomicBool, Ordering};

/// Inputs of more than this many bytes have a line.
const LARGE: usize = 50_000_000;

/// Takes the line away again.
const CLEAR: &str = "\r\x1b[K";

/// Whether the terminal has a line.
static HAS_LINE: AtomicBool = AtomicBool::new(false);

/// A line on the terminal, which is gone when this is dropped.
pub struct Progress {
    bytes: usize,
    is_shown: bool,
}

/// The line for a step.
fn line(step: &str, bytes: usize) -> String {
    format!("{CLEAR}dolzhytik: {step} {:.1} MB", bytes as f64 / 1e6)
}

/// Removes the line, if there is one. Call it before a message.
pub fn clear() {
    if HAS_LINE.swap(false, Ordering::Relaxed) {
        show(CLEAR);
    }
}

fn show(text: &str) {
    let mut err = io::stderr();
    // A terminal that is gone needs no line.
    let _ = err.write_all(text.as_bytes()).and_then(|()| err.flush());
}

impl Progress {
    /// Returns the progress over an input of this number of bytes.
    pub fn of(bytes: usize) -> Self {
        let is_shown = bytes > LARGE && io::stderr().is_terminal();
        Progress { bytes, is_shown }
    }

    /// Returns the progress of a step that prints: it is shown only if standard output is no
    /// terminal, which would have both.
    pub fn of_printing(bytes: usize) -> Self {
        let is_shown = Progress::of(bytes).is_shown && !io::stdout().is_terminal();
        Progress { bytes, is_shown }
    }

    /// Begins a step, as `shortening`.
    pub fn begin(&self, step: &str) {
        if self.is_shown {
            HAS_LINE.store(true, Ordering::Relaxed);
            show(&line(step, self.bytes));
        }
    }
}

impl Drop for Progress {
    fn drop(&mut self) {
        clear();
    }
}

#[cfg(test)]
#[test]
fn lines() {
    assert_eq!(
        line("reading", 17_250_000),
        "\r\x1b[Kdolzhytik: reading 17.2 MB"
    );
    assert!(!Progress::of(LARGE).is_shown);
}
