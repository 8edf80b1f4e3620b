//! Tools that tests run where the machine has them: clang and wasm-ld, and node. Elsewhere a test
//! prints what is missing, and passes.
//!
//! The environment variables `CLANG` and `WASM_LD` select other versions, such as `clang-19`.
use std::env;
use std::ffi::OsString;
use std::path::{Path, PathBuf};
use std::process::{Command, Output};

/// Returns the name of a tool: the value of the variable, or the default.
fn tool(variable: &str, default: &str) -> OsString {
    env::var_os(variable).unwrap_or_else(|| default.into())
}

/// Returns what a tool printed to standard output, or `None` if it is missing. Panics if it failed.
pub fn printed(command: &mut Command) -> Option<String> {
    let Ok(Output {
        status,
        stdout,
        stderr,
    }) = command.output()
    else {
        eprintln!("there is no {}", command.get_program().display());
        return None;
    };
    let stderr = String::from_utf8_lossy(&stderr);
    assert!(status.success(), "{command:?}: {status}\n{stderr}");
    Some(String::from_utf8_lossy(&stdout).into_owned())
}

/// Returns the path of a file that a test writes.
pub fn temporary(name: &str) -> PathBuf {
    Path::new(env!("CARGO_TARGET_TMPDIR")).join(name)
}

/// Compiles a C file of `rust/tests` to an object for wasm32, and returns its path.
pub fn compile(source: &str, options: &[&str], object: &str) -> Option<PathBuf> {
    let clang = tool("CLANG", "clang");
    let targets = printed(Command::new(&clang).arg("--print-targets"))?;
    if !targets.contains("wasm32") {
        eprintln!("{} has no target wasm32", clang.display());
        return None;
    }
    let object = temporary(object);
    let source = Path::new(env!("CARGO_MANIFEST_DIR"))
        .join("tests")
        .join(source);
    let mut compiler = Command::new(&clang);
    compiler.args(["--target=wasm32", "-c"]).args(options);
    printed(compiler.arg(source).arg("-o").arg(&object))?;
    Some(object)
}

/// Links objects to a module without an entry function, and returns its path.
pub fn link(objects: &[&Path], options: &[&str], module: &str) -> Option<PathBuf> {
    let module = temporary(module);
    let mut linker = Command::new(tool("WASM_LD", "wasm-ld"));
    linker.arg("--no-entry").args(options).args(objects);
    printed(linker.arg("-o").arg(&module))?;
    Some(module)
}

/// Returns what node prints of a program, in which `module` is the compiled module.
pub fn run(module: &[u8], program: &str) -> Option<String> {
    let digits: String = module.iter().map(|byte| format!("{byte:02x}")).collect();
    let read = "const module = new WebAssembly.Module(Buffer.from(process.argv[1], 'hex'));";
    let program = format!("{read}\n{program}");
    printed(Command::new("node").args(["-e", &program, "--", &digits]))
}
