//! Measures the workloads of `crates/wasm_bench`. `README.md` in this folder describes the
//! measurements.

mod leb128;

use leb128::{signed, unsigned};
use std::env;
use std::hint::black_box;
use std::process::exit;
use std::time::{Duration, Instant};

/// The workloads in the build by rustc.
#[cfg(feature = "rust")]
extern crate dolzhytik_bench as _;

unsafe extern "C" {
    fn wb_code(
        words: *const u32,
        words_len: usize,
        mode: u32,
        phase: u32,
        out: *mut u8,
        out_len: usize,
    ) -> u64;
    fn wb_line(
        operands: *const u32,
        operands_len: usize,
        phase: u32,
        out: *mut u8,
        out_len: usize,
    ) -> u64;
    fn wb_types(
        words: *const u32,
        words_len: usize,
        phase: u32,
        out: *mut u8,
        out_len: usize,
    ) -> u64;
    fn wb_functions(
        types: *const u32,
        types_len: usize,
        phase: u32,
        out: *mut u8,
        out_len: usize,
    ) -> u64;
    fn wb_exports(
        names: *const u8,
        names_len: usize,
        lens: *const u32,
        lens_len: usize,
        kinds: *const u8,
        kinds_len: usize,
        indices: *const u32,
        indices_len: usize,
        phase: u32,
        out: *mut u8,
        out_len: usize,
    ) -> u64;
    fn wb_imports(
        names: *const u8,
        names_len: usize,
        lens: *const u32,
        lens_len: usize,
        kinds: *const u8,
        kinds_len: usize,
        indices: *const u32,
        indices_len: usize,
        phase: u32,
        out: *mut u8,
        out_len: usize,
    ) -> u64;
    fn wb_names(
        names: *const u8,
        names_len: usize,
        lens: *const u32,
        lens_len: usize,
        indices: *const u32,
        indices_len: usize,
        phase: u32,
        out: *mut u8,
        out_len: usize,
    ) -> u64;
    fn wb_data(
        bytes: *const u8,
        bytes_len: usize,
        segment: u32,
        phase: u32,
        out: *mut u8,
        out_len: usize,
    ) -> u64;
}

const NO_ANSWER: u64 = u64::MAX;
const HEADER: [u8; 8] = *b"\0asm\x01\0\0\0";
const SIZES: [usize; 3] = [10_000, 100_000, 1_000_000];
const NAMES: [&str; 11] = [
    "calls",
    "values",
    "line",
    "types",
    "functions",
    "exports",
    "imports",
    "names",
    "segments",
    "pages",
    "block",
];
const INSTRUCTIONS_OF_A_FUNCTION: usize = 50;
const CALLS_OF_A_ROW: usize = 8;
const BYTES_OF_A_SEGMENT: usize = 64;
const WINDOW: Duration = Duration::from_secs(3);

/// Names that lie one after another, and a kind and an index for each entry.
#[derive(Clone, Default)]
struct Entries {
    names: Vec<u8>,
    lens: Vec<u32>,
    kinds: Vec<u8>,
    indices: Vec<u32>,
}

/// What a workload reads.
enum Input {
    Code { words: Vec<u32>, mode: u32 },
    Line(Vec<u32>),
    Types(Vec<u32>),
    Functions(Vec<u32>),
    Exports(Entries),
    Imports(Entries),
    Names(Entries),
    Data { bytes: Vec<u8>, segment: u32 },
}

impl Input {
    /// Calls the library.
    fn call(&self, phase: u32, out: &mut [u8]) -> u64 {
        let (o, n) = (out.as_mut_ptr(), out.len());
        unsafe {
            match self {
                Input::Code { words, mode } => {
                    wb_code(words.as_ptr(), words.len(), *mode, phase, o, n)
                }
                Input::Line(operands) => wb_line(operands.as_ptr(), operands.len(), phase, o, n),
                Input::Types(words) => wb_types(words.as_ptr(), words.len(), phase, o, n),
                Input::Functions(types) => wb_functions(types.as_ptr(), types.len(), phase, o, n),
                Input::Exports(e) => wb_exports(
                    e.names.as_ptr(),
                    e.names.len(),
                    e.lens.as_ptr(),
                    e.lens.len(),
                    e.kinds.as_ptr(),
                    e.kinds.len(),
                    e.indices.as_ptr(),
                    e.indices.len(),
                    phase,
                    o,
                    n,
                ),
                Input::Imports(e) => wb_imports(
                    e.names.as_ptr(),
                    e.names.len(),
                    e.lens.as_ptr(),
                    e.lens.len(),
                    e.kinds.as_ptr(),
                    e.kinds.len(),
                    e.indices.as_ptr(),
                    e.indices.len(),
                    phase,
                    o,
                    n,
                ),
                Input::Names(e) => wb_names(
                    e.names.as_ptr(),
                    e.names.len(),
                    e.lens.as_ptr(),
                    e.lens.len(),
                    e.indices.as_ptr(),
                    e.indices.len(),
                    phase,
                    o,
                    n,
                ),
                Input::Data { bytes, segment } => {
                    wb_data(bytes.as_ptr(), bytes.len(), *segment, phase, o, n)
                }
            }
        }
    }

    /// Returns the bytes before the entries, by the straight encoder below: their number, or the
    /// section's own name; and the bytes of the entries.
    fn entries(&self) -> (Vec<u8>, Vec<u8>) {
        match self {
            Input::Code { words, .. } => (number(words[0] as usize), straight_code(words)),
            Input::Line(operands) => (number(1), straight_line(operands)),
            Input::Types(words) => (number(words.len()), straight_types(words)),
            Input::Functions(types) => (number(types.len()), straight_functions(types)),
            Input::Exports(e) => (number(e.kinds.len()), straight_exports(e)),
            Input::Imports(e) => (number(e.kinds.len()), straight_imports(e)),
            Input::Names(e) => (b"\x04name".to_vec(), straight_names(e)),
            Input::Data { bytes, segment } => {
                let segment = *segment as usize;
                (
                    number(bytes.len().div_ceil(segment)),
                    straight_data(bytes, segment),
                )
            }
        }
    }

    /// The id of the section.
    fn id(&self) -> u8 {
        match self {
            Input::Code { .. } | Input::Line(_) => 10,
            Input::Types(_) => 1,
            Input::Functions(_) => 3,
            Input::Exports(_) => 7,
            Input::Imports(_) => 2,
            Input::Names(_) => 0,
            Input::Data { .. } => 11,
        }
    }

    /// The section.
    #[inline(never)]
    fn section(&self) -> Vec<u8> {
        let (front, entries) = self.entries();
        framed(self.id(), &front, &entries)
    }
}

// ---- a straight encoder, by the core specification and without the library

fn number(n: usize) -> Vec<u8> {
    let mut number = Vec::new();
    unsigned(&mut number, n as u64);
    number
}

fn framed(id: u8, front: &[u8], entries: &[u8]) -> Vec<u8> {
    let mut section = vec![id];
    unsigned(&mut section, (front.len() + entries.len()) as u64);
    section.extend_from_slice(front);
    section.extend_from_slice(entries);
    section
}

fn memory_argument(body: &mut Vec<u8>, offset: u32, align: u32, memory: u32) {
    if memory == 0 {
        unsigned(body, u64::from(align));
    } else {
        unsigned(body, u64::from(align) | 0x40);
        unsigned(body, u64::from(memory));
    }
    unsigned(body, u64::from(offset));
}

/// Appends an instruction, and returns its number of words.
fn straight_instruction(body: &mut Vec<u8>, w: &[u32]) -> usize {
    let plain = |body: &mut Vec<u8>, op: u8| {
        body.push(op);
        1
    };
    let indexed = |body: &mut Vec<u8>, op: u8| {
        body.push(op);
        unsigned(body, u64::from(w[1]));
        2
    };
    match w[0] {
        0 => indexed(body, 0x20),
        1 => indexed(body, 0x21),
        2 => indexed(body, 0x22),
        3 => {
            body.push(0x41);
            signed(body, i64::from(w[1] as i32));
            2
        }
        4 => {
            body.push(0x42);
            signed(body, (u64::from(w[1]) | u64::from(w[2]) << 32) as i64);
            3
        }
        5 => {
            body.push(0x44);
            body.extend_from_slice(&w[1].to_le_bytes());
            body.extend_from_slice(&w[2].to_le_bytes());
            3
        }
        6 => plain(body, 0x6A),
        7 => plain(body, 0x6B),
        8 => plain(body, 0x7C),
        9 => plain(body, 0x45),
        10 | 11 => {
            body.push(if w[0] == 10 { 0x28 } else { 0x36 });
            memory_argument(body, w[1], w[2], w[3]);
            4
        }
        12 => indexed(body, 0x10),
        13 => {
            body.push(0x11);
            unsigned(body, u64::from(w[2]));
            unsigned(body, u64::from(w[1]));
            3
        }
        14 => indexed(body, 0x0D),
        15 => {
            body.extend_from_slice(&[0x02, 0x40]);
            1
        }
        16 => {
            body.extend_from_slice(&[0x02, 0x7F]);
            1
        }
        17 => {
            body.push(0x04);
            signed(body, i64::from(w[1]));
            2
        }
        18 => plain(body, 0x0B),
        19 => plain(body, 0x1A),
        20 => plain(body, 0x1B),
        21 => indexed(body, 0x23),
        22 => indexed(body, 0x24),
        23 => {
            let labels = w[1] as usize;
            body.push(0x0E);
            for &n in &w[1..labels + 3] {
                unsigned(body, u64::from(n));
            }
            labels + 3
        }
        24 => indexed(body, 0xD2),
        25 => {
            body.push(0x43);
            body.extend_from_slice(&w[1].to_le_bytes());
            2
        }
        26 => plain(body, 0x0F),
        _ => {
            body.extend_from_slice(&[0xFD, 0x0C]);
            body.extend_from_slice(&u128::from(w[1]).to_le_bytes());
            2
        }
    }
}

fn straight_code(words: &[u32]) -> Vec<u8> {
    let mut entries = Vec::new();
    let mut at = 1;
    for _ in 0..words[0] {
        let mut body = vec![2, 2, 0x7F, 1, 0x7C];
        let count = words[at];
        at += 1;
        for _ in 0..count {
            at += straight_instruction(&mut body, &words[at..]);
        }
        unsigned(&mut entries, body.len() as u64);
        entries.extend_from_slice(&body);
    }
    entries
}

fn straight_line(operands: &[u32]) -> Vec<u8> {
    let mut body = vec![0];
    for row in operands.chunks_exact(4) {
        let call = |body: &mut Vec<u8>, op: u8, n: u32| {
            body.push(op);
            unsigned(body, u64::from(n));
        };
        call(&mut body, 0x20, row[0]);
        body.push(0x41);
        signed(&mut body, i64::from(row[1] as i32));
        body.push(0x6A);
        call(&mut body, 0x10, row[2]);
        call(&mut body, 0x21, row[0]);
        body.push(0x28);
        memory_argument(&mut body, row[3], 2, 0);
        call(&mut body, 0x0D, 1);
        body.push(0x0B);
    }
    let mut entries = Vec::new();
    unsigned(&mut entries, body.len() as u64);
    entries.extend_from_slice(&body);
    entries
}

/// Types of functions of three parameters and a result, each a byte of a word.
fn straight_types(words: &[u32]) -> Vec<u8> {
    let mut entries = Vec::new();
    for word in words {
        let [a, b, c, result] = word.to_le_bytes().map(|code| 0x7F - code);
        entries.extend_from_slice(&[0x60, 3, a, b, c, 1, result]);
    }
    entries
}

fn straight_functions(types: &[u32]) -> Vec<u8> {
    let mut entries = Vec::new();
    for &n in types {
        unsigned(&mut entries, u64::from(n));
    }
    entries
}

fn name<'a>(entries: &mut Vec<u8>, names: &'a [u8], len: u32) -> &'a [u8] {
    let (name, rest) = names.split_at(len as usize);
    unsigned(entries, u64::from(len));
    entries.extend_from_slice(name);
    rest
}

fn straight_exports(e: &Entries) -> Vec<u8> {
    let mut entries = Vec::new();
    let mut rest = &e.names[..];
    for i in 0..e.kinds.len() {
        rest = name(&mut entries, rest, e.lens[i]);
        entries.push(e.kinds[i]);
        unsigned(&mut entries, u64::from(e.indices[i]));
    }
    entries
}

fn straight_imports(e: &Entries) -> Vec<u8> {
    let mut entries = Vec::new();
    let mut rest = &e.names[..];
    for i in 0..e.kinds.len() {
        rest = name(&mut entries, rest, e.lens[2 * i]);
        rest = name(&mut entries, rest, e.lens[2 * i + 1]);
        entries.push(e.kinds[i]);
        match e.kinds[i] {
            1 => entries.extend_from_slice(&[0x70, 0x00]),
            2 | 4 => entries.push(0x00),
            3 => {
                entries.extend_from_slice(&[0x7E, (e.indices[i] % 2) as u8]);
                continue;
            }
            _ => {}
        }
        unsigned(&mut entries, u64::from(e.indices[i]));
    }
    entries
}

fn straight_names(e: &Entries) -> Vec<u8> {
    let mut names = Vec::new();
    let mut rest = &e.names[..];
    for i in 0..e.indices.len() {
        unsigned(&mut names, u64::from(e.indices[i]));
        rest = name(&mut names, rest, e.lens[i]);
    }
    framed(1, &number(e.indices.len()), &names)
}

fn straight_data(bytes: &[u8], segment: usize) -> Vec<u8> {
    let mut entries = Vec::new();
    for (i, part) in bytes.chunks(segment).enumerate() {
        entries.extend_from_slice(&[0x00, 0x41]);
        signed(&mut entries, (i * segment) as i64);
        entries.push(0x0B);
        unsigned(&mut entries, part.len() as u64);
        entries.extend_from_slice(part);
    }
    entries
}

// ---- inputs

/// Numbers that look random, and are the same in each run.
struct Numbers(u64);

impl Numbers {
    fn below(&mut self, limit: u32) -> u32 {
        self.0 = self
            .0
            .wrapping_mul(6364136223846793005)
            .wrapping_add(1442695040888963407);
        (((self.0 >> 32) * u64::from(limit)) >> 32) as u32
    }

    /// An index: three of four have one byte, most others two.
    fn index(&mut self) -> u32 {
        match self.below(16) {
            0..12 => self.below(128),
            12..15 => self.below(16384),
            _ => self.below(1 << 28),
        }
    }

    /// A constant: small of either sign, or of any size.
    fn constant(&mut self) -> u32 {
        match self.below(4) {
            0..3 => self.below(128).wrapping_sub(64),
            _ => self.below(u32::MAX),
        }
    }
}

/// The codes that an instruction is taken from. Those of common instructions are repeated.
const CODES: [u32; 64] = [
    0, 0, 0, 0, 0, 0, 0, 0, 0, 0, 0, 0, 0, 1, 1, 1, 1, 1, 2, 2, 2, 3, 3, 3, 3, 3, 3, 3, 4, 4, 5, 6,
    6, 6, 6, 7, 7, 8, 9, 9, 10, 10, 10, 10, 11, 11, 11, 12, 12, 12, 13, 14, 14, 15, 16, 17, 18, 18,
    18, 19, 20, 21, 22, 23,
];

fn push_instruction(words: &mut Vec<u32>, numbers: &mut Numbers) {
    // One of 128 instructions is one of the rarest.
    let code = match numbers.below(128) {
        0 => 24 + numbers.below(4),
        _ => CODES[numbers.below(64) as usize],
    };
    words.push(code);
    match code {
        0..=2 | 12 | 14 | 17 | 21 | 22 | 24 => words.push(numbers.index()),
        3 => words.push(numbers.constant()),
        4 | 5 => {
            let low = numbers.constant();
            words.push(low);
            words.push(if code == 4 && low < 64 {
                0
            } else {
                numbers.constant()
            });
        }
        10 | 11 => {
            words.push(numbers.index());
            words.push(numbers.below(4));
            words.push(if numbers.below(64) == 0 { 1 } else { 0 });
        }
        13 => {
            words.push(0);
            words.push(numbers.index());
        }
        23 => {
            let labels = numbers.below(6);
            words.push(labels);
            for _ in 0..labels + 1 {
                words.push(numbers.below(8));
            }
        }
        25 | 27 => words.push(numbers.below(u32::MAX)),
        _ => {}
    }
}

fn code_words(items: usize) -> Vec<u32> {
    let mut numbers = Numbers(1);
    let functions = items / INSTRUCTIONS_OF_A_FUNCTION;
    let mut words = vec![functions as u32];
    for _ in 0..functions {
        words.push(INSTRUCTIONS_OF_A_FUNCTION as u32);
        for _ in 0..INSTRUCTIONS_OF_A_FUNCTION {
            push_instruction(&mut words, &mut numbers);
        }
    }
    words
}

fn line_operands(items: usize) -> Vec<u32> {
    let mut numbers = Numbers(2);
    let mut operands = Vec::new();
    for _ in 0..items / CALLS_OF_A_ROW {
        operands.extend_from_slice(&[
            numbers.index(),
            numbers.constant(),
            numbers.index(),
            numbers.index(),
        ]);
    }
    operands
}

fn entries(items: usize, with_modules: bool) -> Entries {
    let mut numbers = Numbers(3);
    let mut e = Entries::default();
    for i in 0..items {
        if with_modules {
            let module = ["env", "wasi_snapshot_preview1"][i % 2];
            e.names.extend_from_slice(module.as_bytes());
            e.lens.push(module.len() as u32);
        }
        let name = format!("name_of_{}", numbers.below(1_000_000_000));
        e.names.extend_from_slice(name.as_bytes());
        e.lens.push(name.len() as u32);
        e.kinds
            .push([0, 0, 0, 1, 2, 3, 3, 4][numbers.below(8) as usize]);
        e.indices.push(numbers.index());
    }
    e
}

fn input(name: &str, items: usize) -> Input {
    let mut numbers = Numbers(4);
    match name {
        "calls" => Input::Code {
            words: code_words(items),
            mode: 0,
        },
        "values" => Input::Code {
            words: code_words(items),
            mode: 1,
        },
        "line" => Input::Line(line_operands(items)),
        "types" => Input::Types((0..items).map(|_| numbers.index() & 0x0303_0303).collect()),
        "functions" => Input::Functions((0..items).map(|_| numbers.index()).collect()),
        "exports" => Input::Exports(entries(items, false)),
        "imports" => Input::Imports(entries(items, true)),
        "names" => Input::Names(entries(items, false)),
        "segments" | "pages" | "block" => Input::Data {
            bytes: (0..items * BYTES_OF_A_SEGMENT)
                .map(|_| numbers.below(256) as u8)
                .collect(),
            segment: match name {
                "segments" => BYTES_OF_A_SEGMENT as u32,
                "pages" => 65536,
                _ => u32::MAX,
            },
        },
        _ => fail(&format!(
            "no workload is named {name}: there are {}",
            NAMES.join(", ")
        )),
    }
}

// ---- checks

fn fail(message: &str) -> ! {
    eprintln!("driver: {message}");
    exit(1);
}

/// The checksum FNV-1a of 64 bits.
fn checksum(bytes: &[u8]) -> u64 {
    bytes.iter().fold(0xcbf29ce484222325, |sum, &byte| {
        (sum ^ u64::from(byte)).wrapping_mul(0x100000001b3)
    })
}

/// Checks that the library's result of the phase is these bytes.
fn check_bytes(name: &str, input: &Input, phase: u32, expected: &[u8]) {
    let mut out = vec![0; expected.len() + 1];
    let n = input.call(phase, &mut out);
    if n != expected.len() as u64 {
        fail(&format!(
            "{name}, phase {phase}: {n} bytes where {} are right",
            expected.len()
        ));
    }
    if checksum(&out[..expected.len()]) != checksum(expected) || out[expected.len()] != 0 {
        fail(&format!("{name}, phase {phase}: wrong bytes"));
    }
    let mut short = vec![0; expected.len() - 1];
    if input.call(phase, &mut short) != n || short.iter().any(|&byte| byte != 0) {
        fail(&format!(
            "{name}, phase {phase}: something was written where there is no room"
        ));
    }
}

fn check(name: &str, input: &Input, section: &[u8]) {
    if input.call(0, &mut []) != input.entries().1.len() as u64 {
        fail(&format!("{name}, phase 0: a wrong number of bytes"));
    }
    check_bytes(name, input, 1, section);
    check_bytes(name, input, 2, &[&HEADER, section].concat());
    if input.call(3, &mut []) != NO_ANSWER {
        fail(&format!("{name}: phase 3 has an answer"));
    }
}

fn check_wrong(what: &str, input: Input) {
    for phase in 0..3 {
        if input.call(phase, &mut []) != NO_ANSWER {
            fail(&format!("{what} has an answer"));
        }
    }
}

fn check_wrong_inputs() {
    let code = |words: &[u32], mode| Input::Code {
        words: words.to_vec(),
        mode,
    };
    check_wrong("mode 2", code(&[1, 1, 18], 2));
    check_wrong("no word", code(&[], 0));
    check_wrong("a word too many", code(&[1, 1, 18, 0], 0));
    check_wrong("code 28", code(&[1, 1, 28], 1));
    check_wrong("a missing operand", code(&[1, 1, 0], 1));
    check_wrong("missing labels", code(&[1, 1, 23, 4, 0, 0], 0));
    check_wrong("three operands", Input::Line(vec![1, 2, 3]));
    let one = entries(1, false);
    let mut wrong = one.clone();
    wrong.kinds[0] = 5;
    check_wrong("kind 5", Input::Exports(wrong.clone()));
    wrong = one.clone();
    wrong.indices.push(0);
    check_wrong("an index too many", Input::Exports(wrong.clone()));
    wrong = one.clone();
    wrong.lens[0] -= 1;
    check_wrong("a byte too many", Input::Exports(wrong.clone()));
    wrong = one.clone();
    wrong.names[0] = 0xFF;
    check_wrong("a name that is no UTF-8", Input::Exports(wrong.clone()));
    let bytes = vec![7; 9];
    check_wrong("a segment of no bytes", Input::Data { bytes, segment: 0 });
    check_wrong("a name without an index", {
        let mut wrong = one.clone();
        wrong.indices.clear();
        Input::Names(wrong)
    });
    check_wrong("a byte too many of names", {
        let mut wrong = one.clone();
        wrong.lens[0] -= 1;
        Input::Names(wrong)
    });
    check_wrong("one length an import", Input::Imports(one));
}

// ---- measures

/// Returns the shortest run of each, in nanoseconds. Runs alternate, so that other load of the
/// machine affects all of them.
fn best<const N: usize>(mut runs: [&mut dyn FnMut(); N]) -> [f64; N] {
    let begin = Instant::now();
    let mut best = [Duration::MAX; N];
    let mut rounds = 0;
    while rounds < 5 || begin.elapsed() < WINDOW {
        for (run, best) in runs.iter_mut().zip(&mut best) {
            let start = Instant::now();
            run();
            *best = start.elapsed().min(*best);
        }
        rounds += 1;
    }
    best.map(|time| time.as_nanos() as f64)
}

fn measure(name: &str, items: usize) {
    let input = input(name, items);
    let section = input.section();
    check(name, &input, &section);
    let phase = |phase| {
        black_box(input.call(phase, &mut []));
    };
    // Few bytes are copied many times a run.
    let mut target = vec![0u8; section.len()];
    let copies = 1 + 100_000 / section.len();
    let [build, append, module, straight, copy] = best([
        &mut || phase(0),
        &mut || phase(1),
        &mut || phase(2),
        &mut || drop(black_box(input.section())),
        &mut || {
            for _ in 0..copies {
                black_box(&mut target).copy_from_slice(black_box(&section));
            }
        },
    ]);
    let of_an_item = |time: f64| time / items as f64;
    println!(
        "| {name} | {items} | {:.2} | {:.2} | {:.2} | {:.2} | {:.0} | {:.1} | {:.2} |",
        section.len() as f64 / items as f64,
        of_an_item(build),
        of_an_item(append),
        of_an_item(module),
        section.len() as f64 * 1000.0 / append,
        append * copies as f64 / copy,
        of_an_item(straight),
    );
}

fn measure_all(names: &[impl AsRef<str>]) {
    check_wrong_inputs();
    println!(
        "| workload | items | bytes | build | append | module | MB/s | to a copy | straight |"
    );
    println!("|---|---|---|---|---|---|---|---|---|");
    for name in names {
        for items in SIZES {
            measure(name.as_ref(), items);
        }
    }
}

/// Runs a phase, or the straight encoder for the section or its entries, or nothing. Returns the
/// number of bytes.
fn run_once(input: &Input, phase: &str) -> u64 {
    match phase {
        "straight" => input.section().len() as u64,
        "entries" => input.entries().1.len() as u64,
        "nothing" => 0,
        _ => match phase.parse() {
            Ok(phase) => input.call(phase, &mut []),
            Err(_) => fail("a phase is 0, 1, 2, straight, entries or nothing"),
        },
    }
}

fn main() {
    let arguments: Vec<String> = env::args().skip(1).collect();
    match &arguments[..] {
        [once, name, items, phase] if once == "once" => {
            let Ok(items) = items.parse() else {
                fail("the number of items is a number");
            };
            println!("{}", run_once(&input(name, items), phase));
        }
        [] => measure_all(&NAMES),
        names if names.iter().all(|name| NAMES.contains(&name.as_str())) => measure_all(names),
        _ => fail("usage: driver [WORKLOAD..] or driver once WORKLOAD ITEMS PHASE"),
    }
}
