//! The program, in a folder of its own.
use std::env;
use std::fs;
use std::io::Write;
use std::path::PathBuf;
use std::process::{self, Command, Stdio};
use std::sync::atomic::{AtomicUsize, Ordering};

/// The commands of the program.
pub const COMMANDS: [&str; 8] = [
    "outline",
    "dump",
    "size",
    "strip",
    "shorten",
    "build",
    "completions",
    "help",
];

/// What the program wrote, and its status.
#[derive(PartialEq, Eq, Debug)]
pub struct Answer {
    pub out: Vec<u8>,
    pub err: String,
    pub status: i32,
}

impl Answer {
    /// Nothing but what stands on standard output.
    pub fn of(out: impl Into<Vec<u8>>) -> Self {
        Answer {
            out: out.into(),
            err: String::new(),
            status: 0,
        }
    }

    /// Nothing but a line on standard error.
    pub fn told(line: &str) -> Self {
        Answer {
            out: Vec::new(),
            err: format!("dolzhytik: {line}\n"),
            status: 0,
        }
    }

    /// The same after the lines for sections of a file that do not decode and are kept.
    pub fn keeping(self, file: &str, sections: &[&str]) -> Self {
        let lines = sections.iter();
        let lines = lines.map(|it| format!("dolzhytik: {file}: section {it}; copied undecoded\n"));
        Answer {
            err: lines.collect::<String>() + &self.err,
            ..self
        }
    }

    /// A fault.
    pub fn fault(line: &str) -> Self {
        Answer {
            status: 1,
            ..Answer::told(line)
        }
    }
}

/// A folder that is empty at first, outside of the repository, and gone when this is dropped.
pub struct Folder(PathBuf);

impl Drop for Folder {
    fn drop(&mut self) {
        let _ = fs::remove_dir_all(&self.0);
    }
}

impl Folder {
    pub fn new(name: &str) -> Self {
        static FOLDERS: AtomicUsize = AtomicUsize::new(0);
        let number = FOLDERS.fetch_add(1, Ordering::Relaxed);
        let own = format!("dolzhytik-{}-{number}-{name}", process::id());
        let folder = env::temp_dir().join(own);
        fs::create_dir(&folder).unwrap();
        Folder(folder)
    }

    pub fn path(&self, name: &str) -> PathBuf {
        self.0.join(name)
    }

    pub fn write(&self, name: &str, bytes: impl AsRef<[u8]>) {
        fs::write(self.path(name), bytes).unwrap();
    }

    pub fn read(&self, name: &str) -> Vec<u8> {
        fs::read(self.path(name)).unwrap()
    }

    /// The names of all files.
    pub fn names(&self) -> Vec<String> {
        let name = |entry: fs::DirEntry| entry.file_name().into_string().unwrap();
        let entries = fs::read_dir(&self.0).unwrap();
        let mut names: Vec<_> = entries.map(|entry| name(entry.unwrap())).collect();
        names.sort();
        names
    }

    /// Calls the program with the words, in this folder.
    pub fn call(&self, words: &[&str], input: &[u8]) -> Answer {
        let mut command = Command::new(env!("CARGO_BIN_EXE_dolzhytik"));
        answer_of(command.args(words).current_dir(&self.0), input)
    }
}

/// Runs a command with this input.
pub fn answer_of(command: &mut Command, input: &[u8]) -> Answer {
    command.stdin(Stdio::piped());
    command.stdout(Stdio::piped()).stderr(Stdio::piped());
    let mut child = command.spawn().unwrap();
    // One that does not read its input may be gone.
    let _ = child.stdin.take().unwrap().write_all(input);
    let output = child.wait_with_output().unwrap();
    Answer {
        out: output.stdout,
        err: String::from_utf8(output.stderr).unwrap(),
        status: output.status.code().unwrap(),
    }
}
