//! An example of each section, and the bytes that the formats give for it, worked out by hand.
use crate::checks::{bytes_of, encoded, section};
use dolzhytik::{
    AbstractHeapType, BlockType, BranchHint, BranchHints, Catch, CodeSection, CompositeInnerType,
    CompositeType, ConstExpr, ContType, CoreDumpInstancesSection, CoreDumpModulesSection,
    CoreDumpSection, CoreDumpStackSection, CoreDumpValue, CustomSection, DataCountSection,
    DataSection, DataSegment, DataSegmentMode, DataSymbolDefinition, ElementMode, ElementSection,
    ElementSegment, Elements, EntityType, ExportKind, ExportSection, FieldType, FuncType, Function,
    FunctionSection, GlobalSection, GlobalType, Handle, HeapType, Ieee32, Import, ImportCompact,
    ImportSection, Imports, IndirectNameMap, Instruction, LinkingSection, MemArg, MemArgOrdering,
    MemArgTarget, MemorySection, MemoryType, Module, NameMap, NameSection, Ordering,
    ProducersField, ProducersSection, RawCustomSection, RawSection, RefType, StartSection,
    StorageType, StructType, SubType, SymbolTable, TableSection, TableType, TagKind, TagSection,
    TagType, TypeSection, ValType,
};
use std::borrow::Cow;

/// Bytes, some of which are text.
fn joined(parts: &[&[u8]]) -> Vec<u8> {
    parts.concat()
}

fn table(element_type: RefType, minimum: u64) -> TableType {
    TableType {
        element_type,
        table64: false,
        minimum,
        maximum: None,
        shared: false,
    }
}

fn memory(minimum: u64) -> MemoryType {
    MemoryType {
        minimum,
        maximum: None,
        memory64: false,
        shared: false,
        page_size_log2: None,
    }
}

#[test]
fn a_module_of_one_function() {
    let mut functions = FunctionSection::new();
    functions.function(0);
    let mut exports = ExportSection::new();
    exports.export("f", ExportKind::Func, 0);
    let mut body = Function::new([]);
    body.instruction(&Instruction::LocalGet(0))
        .instruction(&Instruction::LocalGet(1))
        .instruction(&Instruction::I32Add)
        .instruction(&Instruction::End);
    let mut code = CodeSection::new();
    code.function(&body);
    let types = RawSection {
        id: 1,
        data: &[1, 0x60, 2, 0x7F, 0x7F, 1, 0x7F],
    };

    let mut module = Module::new();
    module
        .section(&types)
        .section(&functions)
        .section(&exports)
        .section(&code);
    assert_eq!(
        module.finish(),
        bytes_of(
            "0061736d01000000 010701 60027f7f017f 03020100 0705010166 0000 0a09010700200020016a0b"
        )
    );
}

#[test]
fn types() {
    let mut types = TypeSection::new();
    types
        .ty()
        .function([ValType::I32, ValType::I32], [ValType::I64]);
    section(&types, 1, &[7, 1, 0x60, 2, 0x7F, 0x7F, 1, 0x7E]);
    let func = FuncType::new([ValType::I32, ValType::I32], [ValType::I64]);
    let mut same = TypeSection::new();
    same.ty().func_type(&func);
    assert_eq!(encoded(&same), encoded(&types));

    let mut types = TypeSection::new();
    types.ty().array(&StorageType::I8, true);
    types.ty().struct_([FieldType {
        element_type: ValType::F32.into(),
        mutable: false,
    }]);
    assert_eq!(types.len(), 2);
    section(&types, 1, &[8, 2, 0x5E, 0x78, 1, 0x5F, 1, 0x7D, 0]);
    let mut types = TypeSection::new();
    types.ty().cont(&ContType(64));
    section(&types, 1, &[4, 1, 0x5D, 0xC0, 0x00]);

    let ty = |is_final, supertype_idx| SubType {
        is_final,
        supertype_idx,
        composite_type: CompositeType {
            inner: CompositeInnerType::Func(FuncType::new([], [])),
            shared: false,
            descriptor: None,
            describes: None,
        },
    };
    let described = CompositeType {
        inner: CompositeInnerType::Struct(StructType {
            fields: Box::new([FieldType {
                element_type: StorageType::I16,
                mutable: true,
            }]),
        }),
        shared: true,
        descriptor: Some(2),
        describes: Some(1),
    };
    assert_eq!(
        encoded(&described),
        [0x65, 0x4C, 1, 0x4D, 2, 0x5F, 1, 0x77, 1]
    );

    let mut types = TypeSection::new();
    types.ty().rec([ty(false, None), ty(true, Some(0))]);
    types.ty().subtype(&ty(true, None));
    assert_eq!(types.len(), 2);
    section(
        &types,
        1,
        &[
            17, 2, 0x4E, 2, 0x50, 0, 0x60, 0, 0, 0x4F, 1, 0, 0x60, 0, 0, 0x60, 0, 0,
        ],
    );
}

#[test]
fn code() {
    section(&CodeSection::new(), 10, &[1, 0]);

    let mut body = Function::new([]);
    body.instructions().end();
    let raw = body.clone().into_raw_body();
    assert_eq!(raw, [0, 11]);
    let mut code = CodeSection::new();
    code.raw(&raw);
    assert_eq!((code.len(), code.byte_len()), (1, 3));
    section(&code, 10, &[4, 1, 2, 0, 11]);
    let mut other = CodeSection::new();
    other.function(&body);
    section(&other, 10, &[4, 1, 2, 0, 11]);

    let mut code = CodeSection::new();
    code.raw(&[0, 65, 0, 11]);
    section(&code, 10, &[6, 1, 4, 0, 65, 0, 11]);

    let mut body = Function::new([(1, ValType::I32), (1, ValType::F32)]);
    body.instruction(&Instruction::End);
    let mut code = CodeSection::new();
    code.function(&body);
    section(&code, 10, &[8, 1, 6, 2, 1, 127, 1, 125, 11]);
}

#[test]
fn locals_and_bodies() {
    use ValType::{F32, I32, I64};
    let typed = Function::new_with_locals_types([I32, I32, I64, F32, F32, F32, I32, I64, I64]);
    let counted = Function::new([(2, I32), (1, I64), (3, F32), (1, I32), (2, I64)]);
    assert_eq!(typed, counted);
    assert_eq!(
        typed.into_raw_body(),
        bytes_of("05 02 7f 01 7e 03 7d 01 7f 02 7e")
    );
    assert_eq!(Function::new_with_locals_types([]).into_raw_body(), [0]);

    let mut body = Function::new([]);
    body.instructions().i32_const(1);
    assert_eq!(body.byte_len(), 3);
    body.instructions().if_(BlockType::Empty).end().end();
    assert_eq!(
        body.clone().into_raw_body(),
        bytes_of("00 41 01 04 40 0b 0b")
    );
    assert_eq!(encoded(&body), bytes_of("07 00 41 01 04 40 0b 0b"));

    let mut body = Function::new([]);
    body.raw([65]).raw([1, 11]);
    assert_eq!(body.into_raw_body(), [0, 65, 1, 11]);
}

#[test]
fn constant_expressions() {
    let sum = ConstExpr::i32_const(42).with_i32_const(1).with_i32_add();
    assert_eq!(encoded(&sum), bytes_of("41 2a 41 01 6a 0b"));
    assert_eq!(encoded(&ConstExpr::empty()), [0x0B]);
    let same = ConstExpr::extended([
        Instruction::I32Const(42),
        Instruction::I32Const(1),
        Instruction::I32Add,
    ]);
    assert_eq!(encoded(&same), encoded(&sum));

    let all = [
        ConstExpr::global_get(1).with_ref_func(2),
        ConstExpr::ref_func(3).with_global_get(4),
        ConstExpr::ref_null(HeapType::FUNC).with_ref_null(HeapType::EXTERN),
        ConstExpr::i32_const(-1).with_i64_const(-2),
        ConstExpr::i64_const(64).with_i32_const(64),
        ConstExpr::f32_const(1.0.into()).with_f64_const(1.0.into()),
        ConstExpr::f64_const(2.0.into()).with_f32_const(2.0.into()),
        ConstExpr::v128_const(1).with_v128_const(-1),
        ConstExpr::empty()
            .with_i32_add()
            .with_i32_sub()
            .with_i32_mul(),
        ConstExpr::raw([0x01])
            .with_i64_add()
            .with_i64_sub()
            .with_i64_mul(),
    ];
    let expected = [
        "23 01 d2 02 0b",
        "d2 03 23 04 0b",
        "d0 70 d0 6f 0b",
        "41 7f 42 7e 0b",
        "42 c0 00 41 c0 00 0b",
        "43 0000803f 44 000000000000f03f 0b",
        "44 0000000000000040 43 00000040 0b",
        "fd 0c 01000000000000000000000000000000 fd 0c ffffffffffffffffffffffffffffffff 0b",
        "6a 6b 6c 0b",
        "01 7c 7d 7e 0b",
    ];
    assert_eq!(all.each_ref().map(encoded), expected.map(bytes_of));

    assert_eq!(
        ConstExpr::ref_func(3).with_i32_add().get_ref_func(),
        Some(3)
    );
    assert_eq!(ConstExpr::empty().get_ref_func(), None);
    assert_eq!(ConstExpr::raw([0xD2]).get_ref_func(), None);
    assert_eq!(ConstExpr::raw([0xD2, 0x83, 0x00]).get_ref_func(), Some(3));
    let too_large = ConstExpr::raw([0xD2, 0x80, 0x80, 0x80, 0x80, 0x10]);
    assert_eq!(too_large.get_ref_func(), None);
}

#[test]
fn data() {
    let mut data = DataSection::new();
    data.active(0, &ConstExpr::i32_const(42), *b"hello");
    section(&data, 11, &joined(&[&[11, 1, 0, 65, 42, 11, 5], b"hello"]));

    let offset = ConstExpr::i32_const(0);
    let mut data = DataSection::new();
    data.segment(DataSegment {
        mode: DataSegmentMode::Active {
            memory_index: 1,
            offset: &offset,
        },
        data: [9],
    });
    section(&data, 11, &[8, 1, 2, 1, 65, 0, 11, 1, 9]);

    let mut data = DataSection::new();
    data.passive(vec![0; 128]);
    section(
        &data,
        11,
        &joined(&[&[0x84, 0x01, 0x01, 0x01, 0x80, 0x01], &[0; 128]]),
    );

    let mut data = DataSection::new();
    data.segment(DataSegment {
        mode: DataSegmentMode::Passive,
        data: b"a".iter().copied(),
    })
    .raw(&[1, 0]);
    section(&data, 11, &[6, 2, 1, 1, 97, 1, 0]);
    section(&DataCountSection { count: 128 }, 12, &[2, 128, 1]);
}

/// A section of one active segment at 0 without elements, for each of these tables.
fn empty_elements(elements: Elements<'_>) -> [Vec<u8>; 2] {
    [None, Some(0)].map(|table| {
        let mut section = ElementSection::new();
        section.active(table, &ConstExpr::i32_const(0), elements.clone());
        encoded(&section)
    })
}

#[test]
fn elements() {
    assert_eq!(
        empty_elements(Elements::Functions(Cow::Borrowed(&[]))),
        [
            vec![6, 1, 0, 65, 0, 11, 0],
            vec![8, 1, 2, 0, 65, 0, 11, 0, 0]
        ]
    );
    let of = |ty| Elements::Expressions(ty, Cow::Owned(vec![]));
    assert_eq!(
        empty_elements(of(RefType::FUNCREF)),
        [
            vec![6, 1, 4, 65, 0, 11, 0],
            vec![8, 1, 6, 0, 65, 0, 11, 112, 0]
        ]
    );
    assert_eq!(
        empty_elements(of(RefType::EXTERNREF)),
        [
            vec![8, 1, 6, 0, 65, 0, 11, 111, 0],
            vec![8, 1, 6, 0, 65, 0, 11, 111, 0]
        ]
    );

    let mut declared = ElementSection::new();
    declared.declared(Elements::Functions((&[7][..]).into()));
    section(&declared, 9, &[5, 1, 3, 0, 1, 7]);
    let functions = [ConstExpr::ref_func(3)];
    for list in [
        Cow::Borrowed(&functions[..]),
        Cow::Owned(functions.to_vec()),
    ] {
        let mut passive = ElementSection::new();
        passive.passive(Elements::Expressions(RefType::FUNCREF, list));
        section(&passive, 9, &[7, 1, 5, 112, 1, 210, 3, 11]);
    }
    let mut raw = ElementSection::new();
    raw.raw(&[1, 0, 0]);
    section(&raw, 9, &[4, 1, 1, 0, 0]);

    let offset = ConstExpr::i32_const(1);
    let mut segments = ElementSection::new();
    segments.segment(ElementSegment {
        mode: ElementMode::Active {
            table: Some(2),
            offset: &offset,
        },
        elements: Elements::Functions(vec![3, 4].into()),
    });
    section(&segments, 9, &[10, 1, 2, 2, 65, 1, 11, 0, 2, 3, 4]);
}

#[test]
fn functions_exports_and_start() {
    let mut functions = FunctionSection::new();
    functions.function(1).function(128);
    section(&functions, 3, &[4, 2, 1, 128, 1]);

    let mut exports = ExportSection::new();
    exports.export("foo", ExportKind::Func, 0);
    section(&exports, 7, &joined(&[&[7, 1, 3], b"foo", &[0, 0]]));
    section(
        &StartSection {
            function_index: 300,
        },
        8,
        &[2, 172, 2],
    );
}

#[test]
fn globals() {
    let ty = GlobalType {
        val_type: ValType::I32,
        mutable: false,
        shared: false,
    };
    let mut globals = GlobalSection::new();
    globals.global(ty, &ConstExpr::i32_const(42));
    section(&globals, 6, &[6, 1, 127, 0, 65, 42, 11]);

    let one_end_too_many = ConstExpr::extended([
        Instruction::I32Const(1),
        Instruction::End,
        Instruction::I32Const(2),
    ]);
    let mut globals = GlobalSection::new();
    globals.global(ty, &one_end_too_many);
    section(&globals, 6, &[9, 1, 127, 0, 65, 1, 11, 65, 2, 11]);

    let mut globals = GlobalSection::new();
    globals.raw(&[127, 0, 65, 42, 11]);
    section(&globals, 6, &[6, 1, 127, 0, 65, 42, 11]);
}

#[test]
fn imports() {
    let mut imports = ImportSection::new();
    imports.import("env", "memory", memory(1));
    section(
        &imports,
        2,
        &joined(&[&[15, 1, 3], b"env", &[6], b"memory", &[2, 0, 1]]),
    );

    let mut imports = ImportSection::new();
    imports.imports(Imports::Single(Import {
        module: "m",
        name: "",
        ty: EntityType::Function(5),
    }));
    section(&imports, 2, &[6, 1, 1, 109, 0, 0, 5]);

    let mut imports = ImportSection::new();
    imports.imports(Imports::Compact1 {
        module: "m",
        items: Cow::Borrowed(&[ImportCompact {
            name: "a",
            ty: EntityType::Function(0),
        }]),
    });
    section(&imports, 2, &[10, 1, 1, 109, 0, 127, 1, 1, 97, 0, 0]);

    let mut imports = ImportSection::new();
    imports.imports(Imports::Compact1 {
        module: "m",
        items: vec![].into(),
    });
    assert_eq!(imports.len(), 1);
    section(&imports, 2, &[6, 1, 1, 109, 0, 127, 0]);

    let mut imports = ImportSection::new();
    imports.imports(Imports::Compact2 {
        module: "m",
        ty: EntityType::Function(0),
        names: vec!["a", "b"].into(),
    });
    assert_eq!(imports.len(), 1);
    section(&imports, 2, &[12, 1, 1, 109, 0, 126, 0, 0, 2, 1, 97, 1, 98]);

    let mut imports = ImportSection::new();
    imports.import("m", "f", EntityType::FunctionExact(5));
    section(&imports, 2, &[7, 1, 1, 109, 1, 102, 32, 5]);
}

#[test]
fn tables_memories_and_tags() {
    let mut tables = TableSection::new();
    tables.table(table(RefType::FUNCREF, 128));
    section(&tables, 4, &[5, 1, 112, 0, 128, 1]);
    let mut tables = TableSection::new();
    tables.table_with_init(
        table(RefType::FUNCREF, 0),
        &ConstExpr::ref_null(HeapType::FUNC),
    );
    section(&tables, 4, &[9, 1, 64, 0, 112, 0, 0, 208, 112, 11]);
    let wide = TableType {
        table64: true,
        maximum: Some(2),
        ..table(RefType::FUNCREF, 1)
    };
    assert_eq!(wide.index_type(), ValType::I64);
    let mut tables = TableSection::new();
    tables.table(wide);
    section(&tables, 4, &[5, 1, 112, 5, 1, 2]);

    let all = MemoryType {
        minimum: 1,
        maximum: Some(2),
        memory64: true,
        shared: true,
        page_size_log2: Some(0),
    };
    assert_eq!((all.page_size(), memory(0).page_size()), (1, 65536));
    let mut memories = MemorySection::new();
    memories.memory(all);
    section(&memories, 5, &[5, 1, 15, 1, 2, 0]);

    let mut tags = TagSection::new();
    tags.tag(TagType {
        kind: TagKind::Exception,
        func_type_idx: 3,
    });
    section(&tags, 13, &[3, 1, 0, 3]);
}

#[test]
fn custom_sections() {
    let custom = CustomSection {
        name: "test".into(),
        data: Cow::Borrowed(&[11, 22, 33, 44]),
    };
    let bytes = joined(&[&[9, 4], b"test", &[11, 22, 33, 44]]);
    section(&custom, 0, &bytes);
    section(&RawCustomSection(&bytes), 0, &bytes);
    section(
        &CustomSection {
            name: String::new().into(),
            data: vec![].into(),
        },
        0,
        &[1, 0],
    );
    section(&RawSection { id: 20, data: &[0] }, 20, &[1, 0]);
}

#[test]
fn names() {
    let mut names = NameSection::new();
    names.module("m");
    section(&names, 0, &joined(&[&[9, 4], b"name", &[0, 2, 1, 109]]));
    assert_eq!(
        names.as_custom(),
        CustomSection {
            name: "name".into(),
            data: Cow::Borrowed(&[0, 2, 1, 109]),
        }
    );

    let mut map = NameMap::new();
    assert!(map.is_empty());
    map.append(0, "t");
    let expected = joined(&[&[11, 4], b"name", &[11, 4, 1, 0, 1, 116]]);
    let mut names = NameSection::new();
    names.tag(&map);
    section(&names, 0, &expected);
    let mut names = NameSection::new();
    names.tags(&map);
    section(&names, 0, &expected);

    let mut locals = NameMap::new();
    locals.append(1, "x");
    let mut indirect = IndirectNameMap::new();
    indirect.append(0, &locals);
    let mut names = NameSection::new();
    names.locals(&indirect);
    section(
        &names,
        0,
        &joined(&[&[13, 4], b"name", &[2, 6, 1, 0, 1, 1, 1, 120]]),
    );
    let mut names = NameSection::new();
    names.raw(20, &[9]);
    section(&names, 0, &joined(&[&[8, 4], b"name", &[20, 1, 9]]));
}

/// A linking section of this one symbol table, and its bytes.
fn linking(symbols: &SymbolTable, expected: &[&[u8]]) {
    let mut linking = LinkingSection::new();
    linking.symbol_table(symbols);
    section(&linking, 0, &joined(expected));
}

/// A symbol table by itself is subsection 8 of a linking section, with its size.
#[test]
fn symbol_tables() {
    let mut symbols = SymbolTable::new();
    assert_eq!(encoded(&symbols), [8, 1, 0]);
    symbols.function(0, 1, Some("f"));
    assert_eq!(encoded(&symbols), [8, 6, 1, 0, 0, 1, 1, b'f']);
}

#[test]
fn linking_sections() {
    section(
        &LinkingSection::new(),
        0,
        &joined(&[&[9, 7], b"linking", &[2]]),
    );
    let flags = SymbolTable::WASM_SYM_BINDING_LOCAL | SymbolTable::WASM_SYM_EXPORTED;
    let mut symbols = SymbolTable::new();
    symbols.function(flags, 42, Some("my_exported_func"));
    linking(
        &symbols,
        &[
            &[32, 7],
            b"linking",
            &[2, 8, 21, 1, 0, 34, 42, 16],
            b"my_exported_func",
        ],
    );
    let mut symbols = SymbolTable::new();
    symbols.function(SymbolTable::WASM_SYM_UNDEFINED, 0, None);
    linking(&symbols, &[&[15, 7], b"linking", &[2, 8, 4, 1, 0, 16, 0]]);
    let mut symbols = SymbolTable::new();
    let definition = DataSymbolDefinition {
        index: 1,
        offset: 2,
        size: 3,
    };
    symbols.data(0, "d", Some(definition));
    linking(
        &symbols,
        &[&[19, 7], b"linking", &[2, 8, 8, 1, 1, 0, 1, 100, 1, 2, 3]],
    );

    let mut symbols = SymbolTable::new();
    symbols.global(0, 1, Some("g")).table(0, 2, Some("t"));
    symbols.data(SymbolTable::WASM_SYM_UNDEFINED, "d", None);
    assert_eq!(
        encoded(&symbols),
        [8, 15, 3, 2, 0, 1, 1, 103, 5, 0, 2, 1, 116, 1, 16, 1, 100]
    );

    let mut arch = LinkingSection::new();
    arch.target_arch("wasm32");
    section(
        &arch,
        0,
        &joined(&[&[18, 7], b"linking", &[2, 9, 7, 6], b"wasm32"]),
    );
}

#[test]
fn producers() {
    let mut field = ProducersField::new();
    field.value("clang", "14.0.4").value("rustc", "1.66.1");
    let mut producers = ProducersSection::new();
    producers.field("processed-by", &field);
    section(
        &producers,
        0,
        &joined(&[
            &[51, 9],
            b"producers",
            &[1, 12],
            b"processed-by",
            &[2, 5],
            b"clang",
            &[6],
            b"14.0.4",
            &[5],
            b"rustc",
            &[6],
            b"1.66.1",
        ]),
    );
}

#[test]
fn branch_hints() {
    let mut body = Function::new([]);
    body.instructions().i32_const(1);
    let hint = BranchHint {
        branch_func_offset: body.byte_len() as u32,
        branch_hint_value: 1,
    };
    let mut hints = BranchHints::new();
    assert!(hints.is_empty());
    hints.function_hints(0, [hint]);
    assert_eq!(hints.len(), 1);
    section(
        &hints,
        0,
        &joined(&[&[32, 25], b"metadata.code.branch_hint", &[1, 0, 1, 3, 1, 1]]),
    );

    let mut hints = BranchHints::new();
    let hint = BranchHint {
        branch_hint_value: 128,
        ..hint
    };
    hints.function_hints(0, [hint]);
    section(
        &hints,
        0,
        &joined(&[
            &[33, 25],
            b"metadata.code.branch_hint",
            &[1, 0, 1, 3, 1, 128, 1],
        ]),
    );
}

#[test]
fn core_dumps() {
    section(
        &CoreDumpSection::new("test"),
        0,
        &joined(&[&[11, 4], b"core", &[0, 4], b"test"]),
    );

    let mut modules = CoreDumpModulesSection::new();
    modules.module("mod1").module(String::from("mod2"));
    let data = joined(&[&[2, 0, 4], b"mod1", &[0, 4], b"mod2"]);
    section(&modules, 0, &joined(&[&[25, 11], b"coremodules", &data]));
    assert_eq!(modules.as_custom().data, data);
    assert_eq!(
        (modules.len(), modules.as_custom().name),
        (2, "coremodules".into())
    );

    let mut instances = CoreDumpInstancesSection::new();
    instances.instance(0, [42], [17]);
    let data = [1, 0, 0, 1, 42, 1, 17];
    section(
        &instances,
        0,
        &joined(&[&[21, 13], b"coreinstances", &data]),
    );
    assert_eq!(instances.as_custom().data, &data[..]);

    let mut stack = CoreDumpStackSection::new("main");
    stack.frame(0, 42, 51, [CoreDumpValue::I32(1)], [CoreDumpValue::I32(2)]);
    let data = joined(&[&[0, 4], b"main", &[1, 0, 0, 42, 51, 1, 127, 1, 1, 127, 2]]);
    section(&stack, 0, &joined(&[&[27, 9], b"corestack", &data]));
    assert_eq!(stack.as_custom().data, data);

    assert_eq!(encoded(&CoreDumpValue::Missing), [1]);
    assert_eq!(
        encoded(&CoreDumpValue::F32(Ieee32::new(1))),
        [0x7D, 1, 0, 0, 0]
    );
}

fn memarg(align: u32, offset: u64, target: MemArgTarget) -> MemArg {
    MemArg {
        offset,
        align,
        target,
        ordering: None,
    }
}

/// Instructions, and their bytes.
fn written(rows: &[(Instruction<'_>, &str)]) {
    for (instruction, expected) in rows {
        assert_eq!(encoded(instruction), bytes_of(expected), "{instruction:?}");
    }
}

#[test]
fn blocks_and_control() {
    let any = HeapType::Abstract {
        shared: false,
        ty: AbstractHeapType::Any,
    };
    let nullable = |heap_type| RefType {
        nullable: true,
        heap_type,
    };
    let result = BlockType::Result(ValType::Ref(nullable(any)));
    written(&[
        (Instruction::Block(BlockType::Empty), "02 40"),
        (Instruction::Block(BlockType::FunctionType(63)), "02 3f"),
        (Instruction::Block(BlockType::FunctionType(64)), "02 c0 00"),
        (
            Instruction::Block(BlockType::FunctionType(u32::MAX)),
            "02 ff ff ff ff 0f",
        ),
        (Instruction::Block(result), "02 63 6e"),
        (
            Instruction::BrTable(Cow::Borrowed(&[0, 1]), 2),
            "0e 02 00 01 02",
        ),
        (
            Instruction::CallIndirect {
                type_index: 1,
                table_index: 2,
            },
            "11 01 02",
        ),
        (
            Instruction::TryTable(
                BlockType::Empty,
                vec![Catch::One { tag: 0, label: 1 }, Catch::AllRef { label: 2 }].into(),
            ),
            "1f 40 02 00 00 01 03 02",
        ),
        (
            Instruction::ResumeThrow {
                cont_type_index: 0,
                tag_index: 2,
                resume_table: vec![Handle::OnLabel { tag: 3, label: 4 }].into(),
            },
            "e4 00 02 01 00 03 04",
        ),
        (Instruction::TypedSelect(ValType::I32), "1c 01 7f"),
        (
            Instruction::TypedSelectMulti(Cow::Borrowed(&[ValType::I32])),
            "1c 01 7f",
        ),
        (Instruction::TypedSelectMulti(Cow::Borrowed(&[])), "1c 00"),
        (
            Instruction::BrOnCast {
                relative_depth: 0,
                from_ref_type: nullable(any),
                to_ref_type: RefType::new_abstract(AbstractHeapType::Eq, false, false),
            },
            "fb 18 01 00 6e 6d",
        ),
    ]);
}

#[test]
fn references_and_constants() {
    let shared_any = HeapType::Abstract {
        shared: true,
        ty: AbstractHeapType::Any,
    };
    written(&[
        (Instruction::RefNull(HeapType::FUNC), "d0 70"),
        (Instruction::RefNull(HeapType::Concrete(64)), "d0 c0 00"),
        (Instruction::RefNull(HeapType::Exact(5)), "d0 62 05"),
        (Instruction::RefNull(shared_any), "d0 65 6e"),
        (Instruction::F32Const(1.0.into()), "43 00 00 80 3f"),
        (
            Instruction::V128Const(-1),
            "fd 0c ffffffffffffffffffffffffffffffff",
        ),
        (Instruction::I16x8Abs, "fd 80 01"),
        (Instruction::I8x16RelaxedSwizzle, "fd 80 02"),
        (Instruction::I32x4RelaxedDotI8x16I7x16AddS, "fd 93 02"),
        (
            Instruction::ArrayNewFixed {
                array_type_index: 1,
                array_size: 3,
            },
            "fb 08 01 03",
        ),
    ]);
}

#[test]
fn memory_arguments() {
    let ordered = |ordering| MemArg {
        ordering: Some(ordering),
        ..memarg(2, 0, MemArgTarget::default())
    };
    let lane = memarg(0, 1, MemArgTarget::Memory(0));
    written(&[
        (
            Instruction::I32Load(memarg(2, 4, MemArgTarget::Memory(0))),
            "28 02 04",
        ),
        (
            Instruction::I32Load(memarg(2, 4, MemArgTarget::Memory(1))),
            "28 42 01 04",
        ),
        (
            Instruction::I32Load(memarg(2, 4, MemArgTarget::Array(0))),
            "28 22 00 04",
        ),
        (
            Instruction::I32Load(memarg(16, 0, MemArgTarget::Memory(0))),
            "28 10 00",
        ),
        (
            Instruction::I32AtomicRmwAdd(ordered(MemArgOrdering::Rmw(Ordering::SeqCst))),
            "fe 1e 12 00 00",
        ),
        (
            Instruction::I32AtomicRmwAdd(ordered(MemArgOrdering::Op(Ordering::SeqCst))),
            "fe 1e 12 00 00",
        ),
        (
            Instruction::I32AtomicRmwAdd(ordered(MemArgOrdering::Rmw(Ordering::AcqRel))),
            "fe 1e 12 11 00",
        ),
        (
            Instruction::I32AtomicLoad(MemArg {
                ordering: Some(MemArgOrdering::Op(Ordering::AcqRel)),
                ..memarg(2, 8, MemArgTarget::Memory(3))
            }),
            "fe 10 52 03 01 08",
        ),
        (
            Instruction::V128Load8Lane {
                memarg: lane,
                lane: 3,
            },
            "fd 54 00 01 03",
        ),
        (Instruction::AtomicFence(Ordering::SeqCst), "fe 03 00"),
        (
            Instruction::StructAtomicGet {
                ordering: Ordering::AcqRel,
                struct_type_index: 1,
                field_index: 2,
            },
            "fe 5c 01 01 02",
        ),
    ]);
}

/// The order of these calls' parameters differs from that of the cases' fields, or of the bytes.
#[test]
fn calls_whose_parameters_have_an_order_of_their_own() {
    let mut bytes = Vec::new();
    dolzhytik::InstructionSink::new(&mut bytes)
        .call_indirect(2, 1)
        .return_call_indirect(4, 3)
        .memory_copy(2, 1)
        .memory_init(1, 2)
        .table_init(1, 2)
        .table_copy(2, 1);
    let expected = "11 01 02  13 03 04  fc 0a 02 01  fc 08 02 01  fc 0c 02 01  fc 0e 02 01";
    assert_eq!(bytes, bytes_of(expected));
    written(&[
        (
            Instruction::MemoryCopy {
                src_mem: 1,
                dst_mem: 2,
            },
            "fc 0a 02 01",
        ),
        (
            Instruction::MemoryInit {
                mem: 1,
                data_index: 2,
            },
            "fc 08 02 01",
        ),
        (
            Instruction::TableInit {
                elem_index: 2,
                table: 1,
            },
            "fc 0c 02 01",
        ),
        (
            Instruction::TableCopy {
                src_table: 1,
                dst_table: 2,
            },
            "fc 0e 02 01",
        ),
    ]);
}
