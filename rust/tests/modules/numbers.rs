//! A module whose sizes, counts and indices are the largest number in turn. On 32-bit targets a sum
//! with it would exceed `usize`.
use dolzhytik::fallible::{Global, Vec};
use dolzhytik::reader::{ModuleFault, Offsets, ReadFault, list_module, outline, shorten_module};
use dolzhytik::*;

/// 4294967295.
const LARGEST: [u8; 5] = [0xFF, 0xFF, 0xFF, 0xFF, 0x0F];

fn types_and_imports(module: &mut Module) {
    let mut types = TypeSection::new();
    types.ty().function([ValType::I32; 2], [ValType::I64]);
    types.ty().rec([SubType {
        is_final: false,
        supertype_idx: Some(0),
        composite_type: CompositeType {
            inner: CompositeInnerType::Func(FuncType::new([], [])),
            shared: false,
            descriptor: None,
            describes: None,
        },
    }]);
    let mut imports = ImportSection::new();
    imports.import("m", "f", EntityType::Function(0));
    let mut functions = FunctionSection::new();
    functions.function(0);
    module.section(&types).section(&imports).section(&functions);
}

fn elements_and_data(module: &mut Module) {
    let offset = ConstExpr::i32_const(0);
    let mut elements = ElementSection::new();
    elements.active(Some(1), &offset, Elements::Functions([0, 1][..].into()));
    let expressions = [ConstExpr::ref_func(0)];
    elements.passive(Elements::Expressions(
        RefType::FUNCREF,
        expressions[..].into(),
    ));
    let mut code = CodeSection::new();
    let mut body = Function::new([(2, ValType::I32), (1, ValType::F64)]);
    let mut calls = body.instructions();
    calls.block(BlockType::Empty).br_table([0, 1], 0);
    calls.end().end();
    code.function(&body);
    let mut data = DataSection::new();
    data.active(1, &offset, *b"abc").passive(*b"de");
    module.section(&elements).section(&code).section(&data);
}

fn custom_sections(module: &mut Module) {
    let mut map = NameMap::new();
    map.append(0, "f");
    let mut locals = IndirectNameMap::new();
    locals.append(0, &map);
    let mut names = NameSection::new();
    names.module("m");
    names.functions(&map);
    names.locals(&locals);
    let mut field = ProducersField::new();
    field.value("a", "1");
    let mut producers = ProducersSection::new();
    producers.field("sdk", &field);
    let mut stack = CoreDumpStackSection::new("main");
    stack.frame(0, 1, 2, [CoreDumpValue::I32(3)], []);
    module.section(&names).section(&producers).section(&stack);
}

fn module() -> Module {
    let mut module = Module::new();
    types_and_imports(&mut module);
    elements_and_data(&mut module);
    custom_sections(&mut module);
    module
}

/// Reads bytes in each way: a section that is listed or outlined is in the bytes, and no allocation
/// fails.
fn check(bytes: &[u8]) {
    match outline(Global, bytes) {
        Ok(lines) => {
            for line in &lines {
                assert!(line.size as usize <= bytes.len() - line.offset);
            }
        }
        Err((_, fault)) => assert_ne!(fault, ReadFault::Memory),
    }
    if let Err((_, fault)) = list_module(Global, bytes) {
        assert_ne!(fault, ReadFault::Memory);
    }
    let mut sink = Vec::new(Global);
    match shorten_module(Global, bytes, Offsets::LeaveOut, &mut sink) {
        Ok(_) => assert!(sink.len() <= bytes.len() && outline(Global, &sink).is_ok()),
        Err(ModuleFault::Section { fault, .. }) => assert_ne!(fault, ReadFault::Memory),
        Err(fault) => panic!("{fault:?}"),
    }
}

#[test]
fn the_largest_number_at_each_place() {
    let bytes = module().finish();
    check(&bytes);
    assert_eq!(list_module(Global, &bytes).unwrap().len(), 9);
    for place in 0..bytes.len() {
        let (front, rest) = bytes.split_at(place);
        check(&[front, &LARGEST, &rest[1..]].concat());
        check(&[front, &LARGEST].concat());
    }
}
