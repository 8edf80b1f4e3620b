//! Where bytes come from, and where they go.
use crate::failure::Failure;
use std::ffi::OsString;
use std::fmt;
use std::fs::{self, File, OpenOptions, Permissions};
use std::io::{self, BufWriter, ErrorKind, IsTerminal, Read, Write};
use std::path::{Path, PathBuf};
use std::process;

/// Where bytes come from.
#[derive(Clone, PartialEq, Eq, Debug)]
pub enum Input {
    Standard,
    File(PathBuf),
}

/// Where bytes go.
#[derive(Clone, PartialEq, Eq, Debug)]
pub enum Output {
    Standard,
    /// Standard output, even for a module on a terminal.
    Forced,
    File(PathBuf),
}

impl From<OsString> for Input {
    fn from(word: OsString) -> Self {
        if word == "-" {
            Input::Standard
        } else {
            Input::File(word.into())
        }
    }
}

impl From<OsString> for Output {
    fn from(word: OsString) -> Self {
        if word == "-" {
            Output::Standard
        } else {
            Output::File(word.into())
        }
    }
}

impl fmt::Display for Input {
    fn fmt(&self, f: &mut fmt::Formatter<'_>) -> fmt::Result {
        match self {
            Input::Standard => f.write_str("standard input"),
            Input::File(path) => write!(f, "{}", path.display()),
        }
    }
}

impl fmt::Display for Output {
    fn fmt(&self, f: &mut fmt::Formatter<'_>) -> fmt::Result {
        match self {
            Output::Standard | Output::Forced => f.write_str("standard output"),
            Output::File(path) => write!(f, "{}", path.display()),
        }
    }
}

impl Input {
    /// All bytes.
    pub fn read(&self) -> Result<Vec<u8>, Failure> {
        let read = match self {
            Input::Standard => read_standard(),
            Input::File(path) => fs::read(path),
        };
        read.map_err(|error| Failure::Unread {
            input: self.clone(),
            error,
        })
    }
}

fn read_standard() -> io::Result<Vec<u8>> {
    let mut bytes = Vec::new();
    io::stdin().lock().read_to_end(&mut bytes)?;
    Ok(bytes)
}

impl Output {
    /// Fails if a module would be written to a terminal, which nobody can read. Call it before the
    /// module is made.
    pub fn accept_module(&self) -> Result<(), Failure> {
        if *self == Output::Standard && io::stdout().is_terminal() {
            return Err(Failure::Terminal);
        }
        Ok(())
    }

    /// Writes all bytes. A file has all of them then, or is as it was.
    pub fn write(&self, bytes: &[u8]) -> Result<(), Failure> {
        self.write_parts(&[bytes])
    }

    /// Writes the bytes of all parts, one after another.
    pub fn write_parts(&self, parts: &[&[u8]]) -> Result<(), Failure> {
        let written = match self {
            Output::Standard | Output::Forced => write_all(io::stdout().lock(), parts),
            Output::File(path) => write_file(path, parts),
        };
        written.map_err(|error| Failure::Unwritten {
            output: self.clone(),
            error,
        })
    }
}

fn write_all(out: impl Write, parts: &[&[u8]]) -> io::Result<()> {
    let mut out = BufWriter::new(out);
    parts.iter().try_for_each(|part| out.write_all(part))?;
    out.flush()
}

/// Replaces a file, or makes one; what is none, as a device or a pipe, is written to.
fn write_file(path: &Path, parts: &[&[u8]]) -> io::Result<()> {
    match fs::metadata(path) {
        Ok(found) => {
            // Nothing is written yet, but what may not be written is refused here.
            let opened = OpenOptions::new().write(true).open(path)?;
            if !found.is_file() {
                return write_all(opened, parts);
            }
            drop(opened);
            replace(&fs::canonicalize(path)?, parts, Some(found.permissions()))
        }
        Err(error) if error.kind() == ErrorKind::NotFound => replace(path, parts, None),
        Err(error) => Err(error),
    }
}

/// Writes a temporary file beside the path, and renames it to the path when it has all bytes.
fn replace(path: &Path, parts: &[&[u8]], permissions: Option<Permissions>) -> io::Result<()> {
    let (beside, file) = create_beside(path)?;
    let written = fill(&file, parts, permissions).and_then(|()| fs::rename(&beside, path));
    if written.is_err() {
        // What is told is why it was not written.
        let _ = fs::remove_file(&beside);
    }
    written
}

fn fill(file: &File, parts: &[&[u8]], permissions: Option<Permissions>) -> io::Result<()> {
    write_all(file, parts)?;
    if let Some(permissions) = permissions {
        file.set_permissions(permissions)?;
    }
    file.sync_all()
}

/// How many names are tried for a file beside another.
const MOST_NAMES: u32 = 100;

/// A new file in the folder of the path.
fn create_beside(path: &Path) -> io::Result<(PathBuf, File)> {
    let mut number = 0;
    loop {
        let name = format!(".dolzhytik-{}-{number}", process::id());
        let beside = path.with_file_name(name);
        match File::create_new(&beside) {
            Err(error) if error.kind() == ErrorKind::AlreadyExists && number < MOST_NAMES => {
                number += 1;
            }
            made => return made.map(|file| (beside, file)),
        }
    }
}
