//! A module, and the parts of modules.
use dolzhytik::fallible::{Export, Global, Vec as List};
use dolzhytik::reader::{Outlined, Standard, outline, read_whole};
use dolzhytik::{
    BlockType, CodeSection, ConstExpr, CustomSection, DataCountSection, DataSection, EntityType,
    ExportKind, ExportSection, Function, FunctionSection, GlobalSection, GlobalType, ImportSection,
    MemorySection, MemoryType, Module, StartSection, TypeSection, ValType,
};

/// Returns the outline of a module.
pub fn outline_of(module: &[u8]) -> List<Outlined<'_>> {
    outline(Global, module).expect("a module")
}

/// Returns the payload of the section with this id.
pub fn payload_of(module: &[u8], id: u8) -> &[u8] {
    let sections = outline_of(module);
    let section = sections.iter().find(|section| section.id == id);
    let section = section.expect("a section");
    &module[section.offset..section.offset + section.size as usize]
}

/// Returns the exports of a module.
pub fn exports_of(module: &[u8]) -> List<Export<'_>> {
    read_whole::<_, Global, Standard>(payload_of(module, 7), Global).expect("exports")
}

pub fn global(val_type: ValType, mutable: bool) -> GlobalType {
    GlobalType {
        val_type,
        mutable,
        shared: false,
    }
}

/// `main`: calls the function 2 as often as its argument says. The body has a local.
fn main_body() -> Function {
    let mut main = Function::new([(1, ValType::I32)]);
    let mut body = main.instructions();
    body.local_get(0).local_set(1);
    body.block(BlockType::Empty).loop_(BlockType::Empty);
    body.local_get(1).i32_eqz().br_if(1);
    body.local_get(1).i32_const(1).i32_sub().local_set(1);
    body.call(2).br(0).end().end().end();
    main
}

/// The bodies of the functions 1 to 4.
pub fn bodies() -> CodeSection {
    let mut twice = Function::new([]);
    twice.instructions().call(0).call(0).end();
    let mut unused = Function::new([]);
    unused.instructions().unreachable().end();
    let mut start = Function::new([]);
    start.instructions().global_get(0).i64_extend_i32_s();
    start
        .instructions()
        .i64_const(1)
        .i64_add()
        .global_set(1)
        .end();
    let mut code = CodeSection::new();
    code.function(&main_body()).function(&twice);
    code.function(&unused).function(&start);
    code
}

/// Returns a module of these functions, with an imported function and an imported global before
/// them, and sections of all positions.
pub fn module_of_builders() -> Vec<u8> {
    let mut types = TypeSection::new();
    types.ty().function([], []);
    types.ty().function([ValType::I32], []);
    let mut imports = ImportSection::new();
    imports.import("env", "step", EntityType::Function(0));
    imports.import("env", "base", global(ValType::I32, false));
    let mut functions = FunctionSection::new();
    functions.function(1).function(0).function(0).function(0);
    let mut memories = MemorySection::new();
    memories.memory(MemoryType {
        minimum: 1,
        maximum: None,
        memory64: false,
        shared: false,
        page_size_log2: None,
    });
    let mut globals = GlobalSection::new();
    globals.global(global(ValType::I64, true), &ConstExpr::i64_const(0));
    let mut exports = ExportSection::new();
    exports.export("main", ExportKind::Func, 1);
    exports.export("own", ExportKind::Global, 1);
    let mut data = DataSection::new();
    data.passive([1, 2, 3]);
    let note = CustomSection {
        name: "note".into(),
        data: (&[0xFF]).into(),
    };
    let mut module = Module::new();
    module.section(&types).section(&imports).section(&functions);
    module.section(&memories).section(&note).section(&globals);
    module
        .section(&exports)
        .section(&StartSection { function_index: 4 });
    module
        .section(&DataCountSection { count: 1 })
        .section(&bodies());
    module.section(&data).section(&note);
    module.finish()
}
