//! Workloads over the names at the root of the package.
//!
//!     root WORKLOAD ITEMS [module | keep]
//!
//! makes this many items, in a section or in the bodies of a code section. With `module` the
//! section is appended to a module. With `keep` it is never freed, so that its memory is in use at
//! the end. All names are those of `wasm-encoder`, so that the same workloads can measure that
//! crate. The difference of two runs is counted, so that the start of the program cancels out.
use dolzhytik as wasm_encoder;

use std::borrow::Cow;
use std::env;
use std::hint::black_box;
use std::mem;
use wasm_encoder::{
    BlockType, BranchHint, BranchHints, CodeSection, ConstExpr, CoreDumpInstancesSection,
    CustomSection, DataCountSection, DataSection, ElementSection, Elements, Encode, EntityType,
    ExportKind, ExportSection, Function, FunctionSection, GlobalSection, GlobalType, HeapType,
    Ieee32, Ieee64, ImportCompact, ImportSection, Imports, IndirectNameMap, Instruction,
    InstructionSink, MemArg, MemArgTarget, MemorySection, MemoryType, Module, NameMap, NameSection,
    RawSection, RefType, Section, StartSection, TableSection, TableType, TagKind, TagSection,
    TagType, TypeSection, ValType,
};

/// The calls of a function body.
const CALLS_OF_A_BODY: usize = 4000;

/// The elements of a segment, and the bytes of data segments of two sizes.
const ELEMENTS_OF_A_SEGMENT: usize = 16;
const SHORT_DATA: usize = 64;
const LONG_DATA: usize = 65536;

/// The bodies of a section that is cloned.
const CLONED_BODIES: usize = 1000;

/// The use of a finished section.
enum Output {
    /// It is dropped.
    Nothing,
    /// It is appended to a module.
    Module(Module),
    /// It is never freed.
    Kept,
}

impl Output {
    /// Takes a finished section.
    fn section(&mut self, section: impl Section) {
        match self {
            Output::Nothing => _ = black_box(section),
            Output::Module(module) => _ = module.section(&section),
            Output::Kept => mem::forget(section),
        }
    }
}

/// Numbers that cost next to nothing: operands, indices and lengths.
struct Numbers(u32);

impl Numbers {
    /// The next number: of 6 bits, and one time of 16 of 12.
    fn next(&mut self) -> u32 {
        self.0 = self.0.wrapping_mul(0x0019_660D).wrapping_add(0x3C6E_F35F);
        let bits = if self.0 >> 28 == 0 { 16 } else { 26 };
        self.0 >> bits
    }

    /// A number of 64 bits.
    fn wide(&mut self) -> u64 {
        u64::from(self.next()) << 24 | u64::from(self.next())
    }

    /// An argument of an access to memory.
    fn mem_arg(&mut self) -> MemArg {
        MemArg {
            offset: u64::from(self.next()),
            align: 2,
            target: MemArgTarget::Memory(0),
            ordering: None,
        }
    }
}

/// Writes the body of a function: this many calls, each made by a closure of its index.
fn bodies(items: usize, output: &mut Output, mut call: impl FnMut(&mut Function, usize)) {
    let mut code = CodeSection::new();
    for first in (0..items).step_by(CALLS_OF_A_BODY) {
        let mut body = Function::new([(2, ValType::I32), (1, ValType::F64)]);
        for place in first..items.min(first + CALLS_OF_A_BODY) {
            call(&mut body, place);
        }
        code.function(&body);
    }
    output.section(code);
}

/// As `bodies`, with one sink for all calls of a body.
fn sinks(items: usize, output: &mut Output, mut call: impl FnMut(&mut InstructionSink, usize)) {
    let mut code = CodeSection::new();
    for first in (0..items).step_by(CALLS_OF_A_BODY) {
        let mut body = Function::new([(2, ValType::I32), (1, ValType::F64)]);
        let mut sink = body.instructions();
        for place in first..items.min(first + CALLS_OF_A_BODY) {
            call(&mut sink, place);
        }
        code.function(&body);
    }
    output.section(code);
}

/// Makes one of 28 named calls.
fn named_call(sink: &mut InstructionSink, place: usize, numbers: &mut Numbers) {
    match place % 28 {
        0 => sink.local_get(numbers.next()),
        1 => sink.local_set(numbers.next()),
        2 => sink.local_tee(numbers.next()),
        3 => sink.i32_const(numbers.next().cast_signed()),
        4 => sink.i64_const(numbers.wide().cast_signed()),
        5 => sink.f64_const(Ieee64::new(numbers.wide())),
        6 => sink.i32_add(),
        7 => sink.i32_sub(),
        8 => sink.i64_add(),
        9 => sink.i32_eqz(),
        10 => sink.i32_load(numbers.mem_arg()),
        11 => sink.i32_store(numbers.mem_arg()),
        12 => sink.call(numbers.next()),
        13 => sink.call_indirect(0, numbers.next()),
        14 => sink.br_if(numbers.next()),
        15 => sink.block(BlockType::Empty),
        16 => sink.block(BlockType::Result(ValType::I32)),
        17 => sink.if_(BlockType::FunctionType(numbers.next())),
        18 => sink.end(),
        19 => sink.drop(),
        20 => sink.select(),
        21 => sink.global_get(numbers.next()),
        22 => sink.global_set(numbers.next()),
        23 => sink.br_table([1, 2, 300], numbers.next()),
        24 => sink.ref_func(numbers.next()),
        25 => sink.f32_const(Ieee32::new(numbers.next())),
        26 => sink.return_(),
        _ => sink.v128_const(i128::from(numbers.next())),
    };
}

/// The instruction of the same number.
fn value(place: usize, numbers: &mut Numbers) -> Instruction<'static> {
    match place % 28 {
        0 => Instruction::LocalGet(numbers.next()),
        1 => Instruction::LocalSet(numbers.next()),
        2 => Instruction::LocalTee(numbers.next()),
        3 => Instruction::I32Const(numbers.next().cast_signed()),
        4 => Instruction::I64Const(numbers.wide().cast_signed()),
        5 => Instruction::F64Const(Ieee64::new(numbers.wide())),
        6 => Instruction::I32Add,
        7 => Instruction::I32Sub,
        8 => Instruction::I64Add,
        9 => Instruction::I32Eqz,
        10 => Instruction::I32Load(numbers.mem_arg()),
        11 => Instruction::I32Store(numbers.mem_arg()),
        12 => Instruction::Call(numbers.next()),
        13 => Instruction::CallIndirect {
            table_index: 0,
            type_index: numbers.next(),
        },
        14 => Instruction::BrIf(numbers.next()),
        15 => Instruction::Block(BlockType::Empty),
        16 => Instruction::Block(BlockType::Result(ValType::I32)),
        17 => Instruction::If(BlockType::FunctionType(numbers.next())),
        18 => Instruction::End,
        19 => Instruction::Drop,
        20 => Instruction::Select,
        21 => Instruction::GlobalGet(numbers.next()),
        22 => Instruction::GlobalSet(numbers.next()),
        23 => Instruction::BrTable(Cow::Borrowed(&[1, 2, 300]), numbers.next()),
        24 => Instruction::RefFunc(numbers.next()),
        25 => Instruction::F32Const(Ieee32::new(numbers.next())),
        26 => Instruction::Return,
        _ => Instruction::V128Const(i128::from(numbers.next())),
    }
}

/// Makes one of four named calls that have no proved call.
fn unproved_call(sink: &mut InstructionSink, place: usize, numbers: &mut Numbers) {
    match place % 4 {
        0 => sink.table_get(numbers.next()),
        1 => sink.i32_ge_u(),
        2 => sink.i64_load(numbers.mem_arg()),
        _ => sink.struct_new(numbers.next()),
    };
}

/// The instruction of the same number.
fn unproved_value(place: usize, numbers: &mut Numbers) -> Instruction<'static> {
    match place % 4 {
        0 => Instruction::TableGet(numbers.next()),
        1 => Instruction::I32GeU,
        2 => Instruction::I64Load(numbers.mem_arg()),
        _ => Instruction::StructNew(numbers.next()),
    }
}

/// Named calls of a sink that is made for each of them, and values between.
fn mixed(items: usize, output: &mut Output, numbers: &mut Numbers) {
    bodies(items, output, |body, place| {
        if place % 4 == 3 {
            body.instruction(&Instruction::LocalSet(numbers.next()));
            return;
        }
        match place % 8 {
            0 => body.instructions().local_get(numbers.next()),
            1 => body.instructions().i32_const(numbers.next().cast_signed()),
            2 => body.instructions().i32_add(),
            4 => body.instructions().call(numbers.next()),
            5 => body.instructions().i32_load(numbers.mem_arg()),
            _ => body.instructions().end(),
        };
    });
}

const NAMES: [&str; 8] = [
    "memory",
    "_start",
    "__wasm_call_ctors",
    "fd_write",
    "environ_sizes_get",
    "malloc",
    "wasi_snapshot_preview1",
    "a",
];

const KINDS: [ExportKind; 5] = [
    ExportKind::Func,
    ExportKind::Table,
    ExportKind::Memory,
    ExportKind::Global,
    ExportKind::Tag,
];

fn exports(items: usize, output: &mut Output, numbers: &mut Numbers) {
    let mut section = ExportSection::new();
    for place in 0..items {
        section.export(NAMES[place % 8], KINDS[place % 5], numbers.next());
    }
    output.section(section);
}

fn entity(place: usize, number: u32) -> EntityType {
    match place % 5 {
        0 => EntityType::Function(number),
        1 => EntityType::Table(table(number)),
        2 => EntityType::Memory(memory(number)),
        3 => EntityType::Global(global()),
        _ => EntityType::Tag(tag(number)),
    }
}

fn table(minimum: u32) -> TableType {
    TableType {
        element_type: RefType::FUNCREF,
        table64: false,
        minimum: u64::from(minimum),
        maximum: None,
        shared: false,
    }
}

fn memory(minimum: u32) -> MemoryType {
    MemoryType {
        minimum: u64::from(minimum),
        maximum: Some(65536),
        memory64: false,
        shared: false,
        page_size_log2: None,
    }
}

fn global() -> GlobalType {
    GlobalType {
        val_type: ValType::I32,
        mutable: true,
        shared: false,
    }
}

fn tag(func_type_idx: u32) -> TagType {
    TagType {
        kind: TagKind::Exception,
        func_type_idx,
    }
}

fn imports(items: usize, output: &mut Output, numbers: &mut Numbers) {
    let mut section = ImportSection::new();
    for place in 0..items {
        let (module, name) = (NAMES[place % 7], NAMES[place % 8]);
        section.import(module, name, entity(place, numbers.next()));
    }
    output.section(section);
}

fn functions(items: usize, output: &mut Output, numbers: &mut Numbers) {
    let mut section = FunctionSection::new();
    for _ in 0..items {
        section.function(numbers.next());
    }
    output.section(section);
}

fn name_map(items: usize, output: &mut Output) {
    let mut map = NameMap::new();
    for place in 0..items {
        map.append(place as u32, NAMES[place % 8]);
    }
    let mut names = NameSection::new();
    if !matches!(output, Output::Nothing) {
        names.functions(&map);
    }
    output.section(names);
    black_box(map);
}

/// Segments of this many bytes, this many of them in a section.
fn data(items: usize, output: &mut Output, size: usize, segments: usize) {
    let bytes = black_box(vec![0x2A; size]);
    for _ in 0..items / segments {
        let mut section = DataSection::new();
        for _ in 0..segments {
            section.passive(bytes.iter().copied());
        }
        output.section(section);
    }
}

fn data_from_vec(items: usize, output: &mut Output) {
    let bytes = black_box(vec![0x2A; SHORT_DATA]);
    let mut section = DataSection::new();
    for _ in 0..items {
        section.passive(bytes.clone());
    }
    output.section(section);
}

const TYPES: [ValType; 4] = [ValType::I32, ValType::I64, ValType::EXTERNREF, ValType::F64];

fn types(items: usize, output: &mut Output) {
    let mut section = TypeSection::new();
    for place in 0..items {
        let params = TYPES[..place % 5].iter().copied();
        let results = TYPES[..place % 2].iter().copied();
        section.ty().function(params, results);
    }
    output.section(section);
}

fn elements_of_functions(items: usize, output: &mut Output, numbers: &mut Numbers) {
    let offset = ConstExpr::i32_const(1);
    let mut section = ElementSection::new();
    let mut indices = [0; ELEMENTS_OF_A_SEGMENT];
    for _ in 0..items / ELEMENTS_OF_A_SEGMENT {
        indices.fill_with(|| numbers.next());
        let elements = Elements::Functions(Cow::Borrowed(&indices));
        section.active(None, &offset, elements);
    }
    output.section(section);
}

fn elements_of_expressions(items: usize, output: &mut Output, numbers: &mut Numbers) {
    let offset = ConstExpr::i32_const(1);
    let mut section = ElementSection::new();
    for _ in 0..items / ELEMENTS_OF_A_SEGMENT {
        let expressions = (0..ELEMENTS_OF_A_SEGMENT).map(|_| ConstExpr::ref_func(numbers.next()));
        let expressions: Vec<_> = expressions.collect();
        let elements = Elements::Expressions(RefType::FUNCREF, Cow::Owned(expressions));
        section.active(None, &offset, elements);
    }
    output.section(section);
}

fn globals(items: usize, output: &mut Output, mut first: impl FnMut() -> ConstExpr) {
    let mut section = GlobalSection::new();
    for _ in 0..items {
        section.global(global(), &first());
    }
    output.section(section);
}

fn globals_with(items: usize, output: &mut Output, numbers: &mut Numbers) {
    globals(items, output, || {
        ConstExpr::global_get(numbers.next())
            .with_i32_const(numbers.next().cast_signed())
            .with_i32_add()
    });
}

fn globals_extended(items: usize, output: &mut Output, numbers: &mut Numbers) {
    globals(items, output, || {
        ConstExpr::extended([
            Instruction::GlobalGet(numbers.next()),
            Instruction::I32Const(numbers.next().cast_signed()),
            Instruction::I32Add,
        ])
    });
}

fn customs(items: usize, output: &mut Output) {
    let data = black_box([0x2A; 32]);
    let mut bytes = Vec::new();
    for place in 0..items {
        let section = CustomSection {
            name: Cow::Borrowed(NAMES[place % 8]),
            data: Cow::Borrowed(&data),
        };
        match output {
            Output::Module(module) => _ = module.section(&section),
            _ => section.encode(&mut bytes),
        }
    }
    black_box(bytes);
}

fn declarations(items: usize, output: &mut Output, numbers: &mut Numbers) {
    let mut tables = TableSection::new();
    let mut memories = MemorySection::new();
    let mut tags = TagSection::new();
    for place in 0..items {
        match place % 3 {
            0 => _ = tables.table(table(numbers.next())),
            1 => _ = memories.memory(memory(numbers.next())),
            _ => _ = tags.tag(tag(numbers.next())),
        }
    }
    output.section(tables);
    output.section(memories);
    output.section(tags);
}

/// A section of this many bodies of this many bytes.
fn raw_bodies(items: usize, size: usize) -> CodeSection {
    let body = black_box(vec![0x01; size]);
    let mut section = CodeSection::new();
    for _ in 0..items {
        section.raw(&body);
    }
    section
}

fn clones(items: usize) {
    let section = raw_bodies(CLONED_BODIES, 16);
    for _ in 0..items / CLONED_BODIES {
        black_box(section.clone());
    }
}

/// Small bodies that are kept together, before a section has them.
fn small_bodies(items: usize, output: &mut Output) {
    let mut bodies = Vec::with_capacity(items);
    for _ in 0..items {
        let mut body = Function::new([]);
        body.instructions()
            .local_get(0)
            .i32_const(1)
            .i32_add()
            .end();
        bodies.push(body);
    }
    match output {
        Output::Kept => mem::forget(bodies),
        _ => _ = black_box(bodies),
    }
}

/// A line of calls with a sink that is made once.
fn line(items: usize, output: &mut Output, numbers: &mut Numbers) {
    sinks(items, output, |sink, place| {
        match place % 8 {
            0 => sink.local_get(numbers.next()),
            1 => sink.i32_const(numbers.next().cast_signed()),
            2 => sink.i32_add(),
            3 => sink.call(numbers.next()),
            4 => sink.local_set(numbers.next()),
            5 => sink.i32_load(numbers.mem_arg()),
            6 => sink.br_if(1),
            _ => sink.end(),
        };
    });
}

/// As `line`, with operands of two bytes.
fn wide_line(items: usize, output: &mut Output, numbers: &mut Numbers) {
    sinks(items, output, |sink, place| {
        let number = 128 + numbers.next();
        match place % 8 {
            0 => sink.local_get(number),
            1 => sink.i32_const(number.cast_signed()),
            2 => sink.global_get(number),
            3 => sink.call(number),
            4 => sink.local_set(number),
            5 => sink.i32_load(MemArg {
                offset: u64::from(number),
                ..numbers.mem_arg()
            }),
            6 => sink.br_if(number),
            _ => sink.local_tee(number),
        };
    });
}

/// Blocks of each kind of type, and a select with a type.
fn blocks(items: usize, output: &mut Output, numbers: &mut Numbers) {
    sinks(items, output, |sink, place| {
        match place % 5 {
            0 => sink.block(BlockType::Empty),
            1 => sink.loop_(BlockType::Result(ValType::I64)),
            2 => sink.if_(BlockType::FunctionType(numbers.next())),
            3 => sink.block(BlockType::Result(ValType::FUNCREF)),
            _ => sink.typed_select(ValType::F64),
        };
    });
}

/// Numbers by `encode`: 32 bits as they are drawn, or all lengths up to 64 bits.
fn numbers_alone(items: usize, is_wide: bool, numbers: &mut Numbers) {
    let mut bytes = Vec::new();
    for place in 0..items {
        if is_wide {
            let number = numbers.wide() << (place % 32);
            number.cast_signed().encode(&mut bytes);
        } else {
            numbers.next().encode(&mut bytes);
        }
    }
    black_box(bytes);
}

/// The names of a map that is cloned.
const CLONED_NAMES: usize = 64;

fn name_map_clones(items: usize) {
    let mut map = NameMap::new();
    for place in 0..CLONED_NAMES {
        map.append(place as u32, NAMES[place % 8]);
    }
    for _ in 0..items / CLONED_NAMES {
        black_box(map.clone());
    }
}

/// A map of two names for each function.
fn locals(items: usize, output: &mut Output) {
    let mut functions = IndirectNameMap::new();
    for place in 0..items {
        let mut map = NameMap::new();
        map.append(0, NAMES[place % 8]);
        map.append(1, "x");
        functions.append(place as u32, &map);
    }
    let mut names = NameSection::new();
    if !matches!(output, Output::Nothing) {
        names.locals(&functions);
    }
    output.section(names);
    black_box(functions);
}

/// Appends a section to a module, or to bytes.
fn append(section: &impl Section, output: &mut Output, bytes: &mut Vec<u8>) {
    match output {
        Output::Module(module) => _ = module.section(section),
        _ => section.append_to(bytes),
    }
}

fn starts(items: usize, output: &mut Output, numbers: &mut Numbers) {
    let mut bytes = Vec::new();
    for _ in 0..items / 2 {
        let function_index = numbers.next();
        append(&StartSection { function_index }, output, &mut bytes);
        let count = numbers.next();
        append(&DataCountSection { count }, output, &mut bytes);
    }
    black_box(bytes);
}

fn raw_sections(items: usize, output: &mut Output) {
    let data = &black_box([0x2A; 32]);
    let mut bytes = Vec::new();
    for _ in 0..items {
        append(&RawSection { id: 10, data }, output, &mut bytes);
    }
    black_box(bytes);
}

fn hints(items: usize, output: &mut Output) {
    let mut section = BranchHints::new();
    for place in 0..items {
        let hint = |branch_func_offset, branch_hint_value| BranchHint {
            branch_func_offset,
            branch_hint_value,
        };
        section.function_hints(place as u32, [hint(5, 1), hint(300, 0)]);
    }
    output.section(section);
}

fn core_instances(items: usize, output: &mut Output) {
    let mut section = CoreDumpInstancesSection::new();
    for place in 0..items {
        section.instance(place as u32, [0, 1], [2]);
    }
    output.section(section);
}

fn elements_of_three(items: usize, output: &mut Output, numbers: &mut Numbers) {
    let offset = ConstExpr::i32_const(1);
    let mut section = ElementSection::new();
    for _ in 0..items {
        let indices = [numbers.next(), 1, 2];
        section.active(None, &offset, Elements::Functions(Cow::Borrowed(&indices)));
    }
    output.section(section);
}

fn compact_imports(items: usize, output: &mut Output, numbers: &mut Numbers) {
    let mut section = ImportSection::new();
    for place in 0..items {
        let items = [0, 1, 2, 3].map(|i| ImportCompact {
            name: NAMES[(place + i) % 8],
            ty: EntityType::Function(numbers.next()),
        });
        section.imports(Imports::Compact1 {
            module: "env",
            items: Cow::Borrowed(&items),
        });
    }
    output.section(section);
}

/// Runs the workload of this name, and returns whether there is one.
fn work(name: &str, items: usize, output: &mut Output) -> bool {
    let numbers = &mut Numbers(1);
    match name {
        "calls" => sinks(items, output, |sink, i| named_call(sink, i, numbers)),
        "calls-unproved" => sinks(items, output, |sink, i| unproved_call(sink, i, numbers)),
        "values" => bodies(items, output, |body, i| {
            body.instruction(&value(i, numbers));
        }),
        "values-unproved" => bodies(items, output, |body, i| {
            body.instruction(&unproved_value(i, numbers));
        }),
        "mixed" => mixed(items, output, numbers),
        "line" => line(items, output, numbers),
        "exports" => exports(items, output, numbers),
        "imports" => imports(items, output, numbers),
        "functions" => functions(items, output, numbers),
        "name-map" => name_map(items, output),
        "data" => data(items, output, SHORT_DATA, items),
        "data-vec" => data_from_vec(items, output),
        "data-64k" => data(items, output, LONG_DATA, 20),
        "types" => types(items, output),
        "elements" => elements_of_functions(items, output, numbers),
        "expressions" => elements_of_expressions(items, output, numbers),
        "globals" => globals(items, output, || ConstExpr::ref_null(HeapType::FUNC)),
        "globals-with" => globals_with(items, output, numbers),
        "globals-extended" => globals_extended(items, output, numbers),
        "customs" => customs(items, output),
        "declarations" => declarations(items, output, numbers),
        "raw-bodies" => output.section(raw_bodies(items, 40)),
        "clones" => clones(items),
        "bodies" => small_bodies(items, output),
        _ => return small_work(name, items, output),
    }
    true
}

/// Runs the workload of small values of this name, and returns whether there is one.
fn small_work(name: &str, items: usize, output: &mut Output) -> bool {
    let numbers = &mut Numbers(1);
    match name {
        "wide-line" => wide_line(items, output, numbers),
        "blocks" => blocks(items, output, numbers),
        "u32-encode" => numbers_alone(items, false, numbers),
        "i64-encode" => numbers_alone(items, true, numbers),
        "name-map-clones" => name_map_clones(items),
        "locals" => locals(items, output),
        "starts" => starts(items, output, numbers),
        "raw-sections" => raw_sections(items, output),
        "hints" => hints(items, output),
        "core-instances" => core_instances(items, output),
        "data-2" => data(items, output, 2, items),
        "elements-3" => elements_of_three(items, output, numbers),
        "compact1" => compact_imports(items, output, numbers),
        _ => return false,
    }
    true
}

/// Returns the use that the last argument selects.
fn output_of(words: &[String]) -> Option<Output> {
    match words {
        [] => Some(Output::Nothing),
        [word] if word == "module" => Some(Output::Module(Module::new())),
        [word] if word == "keep" => Some(Output::Kept),
        _ => None,
    }
}

fn main() {
    let words: Vec<String> = env::args().skip(1).collect();
    let Some((name, rest)) = words.split_first() else {
        return eprintln!("usage: root WORKLOAD ITEMS [module | keep]");
    };
    let items = rest.first().and_then(|items| items.parse().ok());
    let (Some(items), Some(mut output)) = (items, rest.get(1..).and_then(output_of)) else {
        return eprintln!("root: no number of items, or no such output");
    };
    if !work(name, items, &mut output) {
        eprintln!("root: no such workload");
    }
    if let Output::Module(module) = output {
        black_box(module.finish());
    }
}
