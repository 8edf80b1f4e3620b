//! Files that are read and replaced.
use crate::program::{Answer, Folder};
use crate::samples::{PADDED, SHORT, module};
use std::fs;
use std::process::Command;

/// The system's error for a file that does not exist. Windows has another error if the folder of
/// the file does not exist either.
fn not_found(folder: &Folder, name: &str) -> String {
    let error = fs::metadata(folder.path(name)).unwrap_err();
    format!("{name}: {error}")
}

#[test]
fn the_output_may_be_the_input() {
    let folder = Folder::new("same");
    folder.write("a.wasm", module(&PADDED));
    let words = ["shorten", "a.wasm", "-o", "a.wasm"];
    assert_eq!(folder.call(&words, b"").status, 0);
    assert_eq!(folder.read("a.wasm"), module(&SHORT));
    assert_eq!(folder.names(), ["a.wasm"]);
}

#[test]
fn inputs_that_are_not_there() {
    let folder = Folder::new("lacking");
    for words in [
        &["outline", "a"][..],
        &["shorten", "a", "-o", "b"],
        &["build", "a", "-o", "b"],
    ] {
        let fault = Answer::fault(&not_found(&folder, "a"));
        assert_eq!(folder.call(words, b""), fault);
    }
    assert!(folder.names().is_empty());
    // A folder is no file.
    let fault = folder.call(&["outline", "."], b"");
    let error = fs::read(folder.path(".")).unwrap_err();
    assert_eq!(fault, Answer::fault(&format!(".: {error}")));
}

#[test]
fn outputs_that_cannot_be_written() {
    let folder = Folder::new("unwritten");
    folder.write("a.wasm", module(&PADDED));
    let fault = folder.call(&["shorten", "a.wasm", "-o", "no/b.wasm"], b"");
    let told = Answer::fault(&not_found(&folder, "no/b.wasm"));
    assert_eq!(fault, told);
    fs::create_dir(folder.path("folder")).unwrap();
    let fault = folder.call(&["shorten", "a.wasm", "-o", "folder"], b"");
    let error = fs::write(folder.path("folder"), b"").unwrap_err();
    assert_eq!(fault, Answer::fault(&format!("folder: {error}")));
    assert_eq!(folder.names(), ["a.wasm", "folder"]);
}

#[test]
fn options_stand_anywhere_and_files_behind_dashes() {
    let folder = Folder::new("dashes");
    folder.write("-h", module(&PADDED));
    let words = ["--output=-V", "shorten", "--", "-h"];
    assert_eq!(folder.call(&words, b"").status, 0);
    assert_eq!(folder.read("-V"), module(&SHORT));
    let words = ["-o", "b", "--drop-offsets", "shorten", "./-h"];
    assert_eq!(folder.call(&words, b"").status, 0);
    assert_eq!(folder.read("b"), module(&SHORT));
}

#[cfg(unix)]
mod on_unix {
    use super::*;
    use std::os::unix::fs::{FileTypeExt, PermissionsExt, symlink};
    use std::process::Command;

    #[test]
    fn a_link_stays_and_its_file_is_replaced_with_its_permissions() {
        let folder = Folder::new("link");
        folder.write("a.wasm", module(&PADDED));
        folder.write("b.wasm", "old");
        let mode = fs::Permissions::from_mode(0o640);
        fs::set_permissions(folder.path("b.wasm"), mode).unwrap();
        symlink("b.wasm", folder.path("link")).unwrap();
        let words = ["shorten", "a.wasm", "-o", "link"];
        assert_eq!(folder.call(&words, b"").status, 0);
        let found = fs::symlink_metadata(folder.path("link")).unwrap();
        assert!(found.is_symlink());
        assert_eq!(folder.read("b.wasm"), module(&SHORT));
        let found = fs::metadata(folder.path("b.wasm")).unwrap();
        assert_eq!(found.permissions().mode() & 0o777, 0o640);
        assert_eq!(folder.names(), ["a.wasm", "b.wasm", "link"]);
    }

    #[test]
    fn a_device_is_written_to_and_not_replaced() {
        let folder = Folder::new("device");
        folder.write("a.wasm", module(&PADDED));
        let words = ["shorten", "a.wasm", "-o", "/dev/null"];
        assert_eq!(folder.call(&words, b"").status, 0);
        let found = fs::metadata("/dev/null").unwrap();
        assert!(found.file_type().is_char_device());
    }

    /// A file may have 512 or 1024 bytes here, as the shell counts, and the module has 2059.
    #[test]
    fn what_is_written_in_part_is_taken_away() {
        let folder = Folder::new("part");
        let section = format!("0e 8010 {}", "00".repeat(2048));
        folder.write("a.wasm", module(&[&section]));
        folder.write("b.wasm", "as it was");
        let script = "trap '' XFSZ; ulimit -f 1; exec \"$0\" shorten a.wasm -o b.wasm";
        let mut command = Command::new("sh");
        command.args(["-c", script, env!("CARGO_BIN_EXE_dolzhytik")]);
        let output = command.current_dir(folder.path("")).output().unwrap();
        assert_eq!(output.status.code(), Some(1));
        assert!(output.stderr.starts_with(b"dolzhytik: b.wasm: "));
        assert_eq!(folder.read("b.wasm"), b"as it was");
        assert_eq!(folder.names(), ["a.wasm", "b.wasm"]);
    }

    /// The file systems of macOS have no such names.
    #[test]
    #[cfg(not(target_os = "macos"))]
    fn a_name_that_is_no_text() {
        use std::ffi::OsStr;
        use std::os::unix::ffi::OsStrExt;

        let folder = Folder::new("bytes");
        let name = OsStr::from_bytes(b"\xff.wasm");
        fs::write(folder.path("").join(name), module(&PADDED)).unwrap();
        let mut command = Command::new(env!("CARGO_BIN_EXE_dolzhytik"));
        command.current_dir(folder.path("")).arg("shorten");
        let status = command.arg(name).args(["-o", "b"]).output().unwrap().status;
        assert!(status.success());
        assert_eq!(folder.read("b"), module(&SHORT));
    }
}

#[cfg(target_os = "linux")]
#[test]
fn a_full_device_is_told() {
    let folder = Folder::new("full");
    folder.write("a.wasm", module(&PADDED));
    let fault = folder.call(&["shorten", "a.wasm", "-o", "/dev/full"], b"");
    let error = fs::write("/dev/full", b"a").unwrap_err();
    assert_eq!(fault, Answer::fault(&format!("/dev/full: {error}")));
}

/// The command of util-linux makes a terminal, on which lines end with `\r\n`.
#[cfg(target_os = "linux")]
#[test]
fn no_module_is_written_to_a_terminal() {
    let folder = Folder::new("terminal");
    folder.write("a.wasm", module(&PADDED));
    folder.write("a.txt", "func 0");
    let program = env!("CARGO_BIN_EXE_dolzhytik");
    let call = |words: &str| {
        let mut command = Command::new("script");
        command.args(["-qec", &format!("'{program}' {words}"), "/dev/null"]);
        command
            .current_dir(folder.path(""))
            .stdin(std::process::Stdio::null());
        let output = command.output().unwrap();
        (
            String::from_utf8_lossy(&output.stdout).into_owned(),
            output.status.code(),
        )
    };
    let refused =
        "dolzhytik: standard output is a terminal: write the module to a file, or give --force\r\n";
    for words in [
        "shorten a.wasm -o -",
        "strip a.wasm -o-",
        "build a.txt --output=-",
    ] {
        assert_eq!(call(words), (refused.into(), Some(1)), "{words}");
    }
    let (forced, status) = call("build a.txt -o - --force");
    assert_eq!(
        (&*forced, status),
        ("\0asm\u{1}\0\0\0\u{3}\u{2}\u{1}\0", Some(0))
    );
    let (outline, status) = call("outline a.wasm");
    assert!(outline.starts_with("section  id "), "{outline}");
    assert_eq!(status, Some(0));
}

#[test]
fn outputs_that_nobody_reads() {
    let folder = Folder::new("closed");
    folder.write("a.wasm", module(&PADDED));
    let (reader, writer) = std::io::pipe().unwrap();
    drop(reader);
    let mut command = Command::new(env!("CARGO_BIN_EXE_dolzhytik"));
    command
        .args(["outline", "a.wasm"])
        .current_dir(folder.path(""));
    let output = command.stdout(writer).output().unwrap();
    assert!(output.status.success());
    assert_eq!(output.stderr, b"");
}
