//! A module of one exported function, by the names at the root of the package.
use alloc::vec::Vec;
use dolzhytik::{
    CodeSection, ExportKind, ExportSection, Function, FunctionSection, Module, TypeSection, ValType,
};

/// The bytes of a module whose function `add` returns the sum of its parameters.
pub fn module() -> Vec<u8> {
    let mut types = TypeSection::new();
    types
        .ty()
        .function([ValType::I32, ValType::I32], [ValType::I32]);
    let mut functions = FunctionSection::new();
    functions.function(0);
    let mut exports = ExportSection::new();
    exports.export("add", ExportKind::Func, 0);
    let mut body = Function::new([]);
    body.instructions()
        .local_get(0)
        .local_get(1)
        .i32_add()
        .end();
    let mut code = CodeSection::new();
    code.function(&body);

    let mut module = Module::new();
    module.section(&types).section(&functions);
    module.section(&exports).section(&code);
    module.finish()
}
