//! Each public function and impl of the Rust crate's section layer, called or named once. The named
//! calls of the sink are in `cases`.
//!
//! Left out, since the package does not have it:
//!
//! - `Reencode` and its items, which read with `wasmparser`: `reader::shorten` minimizes a section.
//! - Conversions from the types of `wasmparser`: `reader::read_section` returns the package's own.
//! - Components, and the sections and types of them.
use crate::checks::encoded;
use dolzhytik::*;
use std::borrow::Cow;
use std::fmt::Debug;
use std::hash::Hash;

/// Asks for traits of types, by lists.
macro_rules! has {
    ($($traits:path),+: $($type:ty),+ $(,)?) => {
        const _: () = {
            fn has<T: ?Sized $(+ $traits)+>() {}
            const fn of(_: fn()) {}
            has!(@each of has $($type)+);
        };
    };
    (@each $of:ident $has:ident $($type:ty)+) => { $( $of($has::<$type>); )+ };
}

has!(Clone, Copy, Debug, PartialEq, Eq, Hash: Ieee32, Ieee64, MemArgTarget, MemArgOrdering, Ordering);
has!(Clone, Copy, Debug, PartialEq, Eq, Hash: ExportKind, GlobalType, MemoryType, TableType);
has!(Clone, Copy, Debug, PartialEq, Eq, Hash, PartialOrd, Ord: AbstractHeapType, HeapType, RefType, ValType);
has!(Clone, Copy, Debug, PartialEq, Eq: EntityType, TagKind, TagType);
has!(Clone, Copy, Debug, PartialEq, Eq, PartialOrd, Ord: SectionId);
has!(Clone, Copy, Debug: BranchHint, MemArg, BlockType, DataCountSection, StartSection, RawSection<'static>);
has!(Clone, Copy, Debug, PartialEq, Eq, Hash: StorageType, FieldType, ArrayType, ContType);
has!(Clone, Debug, PartialEq, Eq, Hash: FuncType, StructType, CompositeInnerType, CompositeType, SubType);
has!(Clone, Debug: Instruction<'static>, Catch, Handle, ConstExpr, RawCustomSection<'static>);
has!(Clone, Debug: DataSegment<'static, [u8; 1]>, DataSegmentMode<'static>, CoreDumpValue);
has!(Clone, Debug: Elements<'static>, ElementMode<'static>, ElementSegment<'static>);
has!(Clone, Debug: Import<'static>, ImportCompact<'static>, Imports<'static>, DataSymbolDefinition);
has!(Clone, Debug, PartialEq, Eq: Function);
has!(Clone, Debug, PartialEq: CustomSection<'static>);
has!(Clone, Debug, Default: Module, TypeSection, ImportSection, FunctionSection, TableSection, MemorySection);
has!(Clone, Debug, Default: TagSection, GlobalSection, ExportSection, ElementSection, DataSection, CodeSection);
has!(Clone, Debug, Default: NameSection, NameMap, IndirectNameMap, LinkingSection, SymbolTable);
has!(Clone, Debug, Default: ProducersSection, ProducersField, CoreDumpSection, CoreDumpStackSection);
has!(Default, Debug: BranchHints);
has!(Debug: CoreDumpModulesSection, CoreDumpInstancesSection);
has!(Default: MemArgTarget);
has!(Debug: InstructionSink<'static>);
has!(Send, Sync: Module, CodeSection, Function, ConstExpr, DataSection, ElementSection, ImportSection);
has!(Send, Sync: NameSection, LinkingSection, TypeSection, Instruction<'static>, InstructionSink<'static>);

has!(Encode: u8, u32, u64, usize, i32, i64, str, [u32], &'static str, &'static [u8], Option<u32>);
has!(Encode: AbstractHeapType, HeapType, RefType, ValType, StorageType, FieldType, FuncType, SubType);
has!(Encode: Function, Ieee32, Ieee64, MemArg, MemArgOrdering, Ordering, BlockType, Instruction<'static>);
has!(Encode: Catch, Handle, ConstExpr, CoreDumpValue, ExportKind, GlobalType, EntityType, MemoryType);
has!(Encode: TableType, TagType, SymbolTable, NameMap, IndirectNameMap, ProducersField, SectionId);
has!(core::error::Error: fallible::AllocError, fallible::Refused, reader::ReadFault);
has!(Section: BranchHints, CodeSection, CustomSection<'static>, RawCustomSection<'static>, DataSection);
has!(Section: DataCountSection, CoreDumpSection, CoreDumpModulesSection, CoreDumpInstancesSection);
has!(Section: CoreDumpStackSection, ElementSection, ExportSection, FunctionSection, GlobalSection);
has!(Section: ImportSection, LinkingSection, MemorySection, NameSection, ProducersSection, StartSection);
has!(Section: TableSection, TagSection, TypeSection, RawSection<'static>);
has!(From<f32>: Ieee32);
has!(From<f64>: Ieee64);
has!(From<Ieee32>: f32);
has!(From<Ieee64>: f64);
has!(From<RefType>: ValType);
has!(From<TableType>: EntityType);
has!(From<MemoryType>: EntityType);
has!(From<GlobalType>: EntityType);
has!(From<TagType>: EntityType);
has!(From<SectionId>: u8);

// These can be asked in a constant.
const ONE: Ieee32 = Ieee32::new(0x3F80_0000);
const BITS: (u32, u64) = (ONE.bits(), Ieee64::new(7).bits());
const MEMORY: MemoryType = MemoryType {
    minimum: 1,
    maximum: None,
    memory64: false,
    shared: false,
    page_size_log2: None,
};
const PAGE: (u32, u32) = (MEMORY.page_size_log2(), MEMORY.page_size());

const TABLE: TableType = TableType {
    element_type: RefType::FUNCREF,
    table64: false,
    minimum: 0,
    maximum: None,
    shared: false,
};
const TAG: TagType = TagType {
    kind: TagKind::Exception,
    func_type_idx: 0,
};
const GLOBAL: GlobalType = GlobalType {
    val_type: ValType::I32,
    mutable: true,
    shared: false,
};

/// A section of one entry, its number of entries, and that it is not empty.
macro_rules! one_entry {
    ($section:ident) => {
        assert_eq!(($section.len(), $section.is_empty()), (1, false));
        assert_eq!(encoded(&$section.clone()), encoded(&$section));
        let mut bytes = Vec::new();
        $section.append_to(&mut bytes);
        assert_eq!(bytes[0], $section.id());
        assert_eq!(bytes[1..], encoded(&$section));
    };
}

#[test]
fn the_code_section() {
    let mut code: CodeSection = CodeSection::new();
    let mut body: Function = Function::new([]);
    let _: &mut Function = body.instruction(&Instruction::Nop).raw([0x01]);
    let _: InstructionSink<'_> = body.instructions();
    InstructionSink::new(&mut Vec::new()).nop();
    let len: usize = body.byte_len();
    assert_eq!(body, body.clone());
    let _: &mut CodeSection = code.function(&body);
    one_entry!(code);
    let bytes: usize = code.byte_len();
    let raw: Vec<u8> = Function::new_with_locals_types([ValType::I32]).into_raw_body();
    code.raw(&raw);
    assert_eq!((len, bytes, code.len()), (3, 4, 2));
    assert!(CodeSection::default().is_empty());
}

#[test]
fn constant_expressions() {
    let all = [
        ConstExpr::empty(),
        ConstExpr::raw([0x41, 0]),
        ConstExpr::extended([Instruction::Nop]),
        ConstExpr::global_get(0).with_global_get(0),
        ConstExpr::ref_null(HeapType::FUNC).with_ref_null(HeapType::EXTERN),
        ConstExpr::ref_func(0).with_ref_func(0),
        ConstExpr::i32_const(0).with_i32_const(0),
        ConstExpr::i64_const(0).with_i64_const(0),
        ConstExpr::f32_const(ONE).with_f32_const(1.0.into()),
        ConstExpr::f64_const(1.0.into()).with_f64_const(Ieee64::new(0)),
        ConstExpr::v128_const(0).with_v128_const(-1),
        ConstExpr::empty()
            .with_i32_add()
            .with_i32_sub()
            .with_i32_mul()
            .with_i64_add()
            .with_i64_sub()
            .with_i64_mul(),
    ];
    let lens = all.each_ref().map(|expression| encoded(expression).len());
    assert_eq!(lens, [1, 3, 2, 5, 5, 5, 5, 5, 11, 19, 37, 7]);
    let functions: Option<u32> = all[5].get_ref_func();
    assert_eq!(functions, Some(0));
    assert_eq!(encoded(&all[10].clone()), encoded(&all[10]));
}

#[test]
fn data_and_elements() {
    let offset = ConstExpr::i32_const(0);
    let mut data = DataSection::new();
    let _: &mut DataSection = data.active(0, &offset, [1, 2]);
    one_entry!(data);
    data.passive(vec![3]).raw(&[1, 0]).segment(DataSegment {
        mode: DataSegmentMode::Passive,
        data: "text".bytes(),
    });
    assert_eq!(data.len(), 4);
    assert_eq!(encoded(&DataCountSection { count: 4 }), [1, 4]);

    let functions = || Elements::Functions(Cow::Borrowed(&[1]));
    let mut elements = ElementSection::new();
    let _: &mut ElementSection = elements.active(None, &offset, functions());
    one_entry!(elements);
    elements
        .passive(functions())
        .declared(functions())
        .raw(&[1, 0, 0])
        .segment(ElementSegment {
            mode: ElementMode::Declared,
            elements: Elements::Expressions(RefType::FUNCREF, vec![ConstExpr::ref_func(1)].into()),
        });
    assert_eq!(elements.len(), 5);
}

#[test]
fn sections_of_records() {
    let init = ConstExpr::i32_const(0);
    let mut exports = ExportSection::new();
    let _: &mut ExportSection = exports.export("a", ExportKind::Memory, 0);
    one_entry!(exports);
    let mut functions = FunctionSection::new();
    let _: &mut FunctionSection = functions.function(0);
    one_entry!(functions);
    let mut globals = GlobalSection::new();
    let _: &mut GlobalSection = globals.global(GLOBAL, &init);
    one_entry!(globals);
    globals.raw(&[0x7F, 0, 0x0B]);
    let mut imports = ImportSection::new();
    let _: &mut ImportSection = imports.import("a", "b", TAG);
    one_entry!(imports);
    imports
        .import("a", "c", TABLE)
        .import("a", "d", MEMORY)
        .import("a", "e", GLOBAL)
        .import("a", "f", EntityType::Function(0))
        .imports(Imports::Single(Import {
            module: "a",
            name: "g",
            ty: EntityType::FunctionExact(0),
        }));
    assert_eq!(imports.len(), 6);
    let mut memories = MemorySection::new();
    let _: &mut MemorySection = memories.memory(MEMORY);
    one_entry!(memories);
    let mut tables = TableSection::new();
    let _: &mut TableSection = tables.table(TABLE);
    one_entry!(tables);
    let null = ConstExpr::ref_null(HeapType::FUNC);
    tables.table_with_init(TABLE, &null);
    assert_eq!(TABLE.index_type(), ValType::I32);
    let mut tags = TagSection::new();
    let _: &mut TagSection = tags.tag(TAG);
    one_entry!(tags);
    assert_eq!(encoded(&StartSection { function_index: 1 }), [1, 1]);
}

#[test]
fn types() {
    let mut types = TypeSection::new();
    types.ty().function([ValType::I32], []);
    one_entry!(types);
    let func = FuncType::new([ValType::I32], [ValType::I64]);
    assert_eq!(func.params(), [ValType::I32]);
    assert_eq!(func.results(), [ValType::I64]);
    assert_eq!(func, func.clone());
    types.ty().func_type(&func);
    types.ty().array(&StorageType::I16, false);
    types.ty().cont(&ContType(0));
    let field = FieldType {
        element_type: StorageType::Val(ValType::I32),
        mutable: false,
    };
    types.ty().struct_([field]);
    let inners = [
        CompositeInnerType::Func(func),
        CompositeInnerType::Array(ArrayType(field)),
        CompositeInnerType::Struct(StructType {
            fields: Box::new([field]),
        }),
        CompositeInnerType::Cont(ContType(0)),
    ];
    let subtypes = inners.map(|inner| SubType {
        is_final: true,
        supertype_idx: None,
        composite_type: CompositeType {
            inner,
            shared: false,
            descriptor: None,
            describes: None,
        },
    });
    types.ty().subtype(&subtypes[0]);
    let lens = subtypes.each_ref().map(|ty| encoded(ty).len());
    assert_eq!(lens, [5, 3, 4, 2]);
    types.ty().rec(subtypes);
    assert_eq!(types.len(), 7);
    let _ = types.ty();
    assert_eq!(types.len(), 7);
}

#[test]
fn custom_sections() {
    let mut hints = BranchHints::new();
    let () = hints.function_hints(
        0,
        [BranchHint {
            branch_func_offset: 0,
            branch_hint_value: 1,
        }],
    );
    assert_eq!((hints.len(), hints.is_empty(), hints.id()), (1, false, 0));

    let mut linking = LinkingSection::new();
    let mut symbols = SymbolTable::new();
    let _: &mut SymbolTable = symbols.function(0, 0, Some("a"));
    symbols
        .global(0, 0, Some("b"))
        .table(SymbolTable::WASM_SYM_UNDEFINED, 0, None)
        .data(SymbolTable::WASM_SYM_UNDEFINED, "c", None);
    let _: &mut LinkingSection = linking.symbol_table(&symbols).target_arch("wasm32");

    let mut producers = ProducersSection::new();
    let mut field = ProducersField::new();
    let _: &mut ProducersField = field.value("a", "1");
    let _: &mut ProducersSection = producers.field("language", &field);

    let mut modules = CoreDumpModulesSection::new();
    let _: &mut CoreDumpModulesSection = modules.module("a");
    let mut instances = CoreDumpInstancesSection::new();
    let _: &mut CoreDumpInstancesSection = instances.instance(0, [0], vec![]);
    let mut stack = CoreDumpStackSection::new("main");
    let _: &mut CoreDumpStackSection = stack.frame(0, 0, 0, [], vec![CoreDumpValue::Missing]);
    assert_eq!((modules.len(), instances.len()), (1, 1));
    for custom in [
        modules.as_custom(),
        instances.as_custom(),
        stack.as_custom(),
    ] {
        assert_eq!(custom, custom.clone());
    }
    assert_eq!(encoded(&modules.as_custom()), encoded(&modules));
    assert_eq!(encoded(&instances.as_custom()), encoded(&instances));
    assert_eq!(encoded(&stack.as_custom()), encoded(&stack));
    assert_eq!(
        encoded(&CoreDumpSection::default()),
        encoded(&CoreDumpSection::new(""))
    );
    assert_eq!(
        encoded(&CoreDumpStackSection::default()),
        encoded(&CoreDumpStackSection::new(String::new()))
    );
}

#[test]
fn names() {
    let mut map: NameMap = NameMap::new();
    let () = map.append(0, "a");
    let mut indirect: IndirectNameMap = IndirectNameMap::new();
    let () = indirect.append(0, &map);
    let mut names = NameSection::new();
    names.module("m");
    for call in [
        NameSection::functions,
        NameSection::types,
        NameSection::tables,
        NameSection::memories,
        NameSection::globals,
        NameSection::elements,
        NameSection::data,
        NameSection::tag,
        NameSection::tags,
    ] {
        call(&mut names, &map);
    }
    for call in [
        NameSection::locals,
        NameSection::labels,
        NameSection::fields,
        NameSection::parameters,
        NameSection::tag_parameters,
    ] {
        call(&mut names, &indirect);
    }
    names.raw(20, &[]);
    let data = names.as_custom().data.into_owned();
    // The ids of the subsections, each before its size.
    let mut ids = Vec::new();
    let mut rest = &data[..];
    while let [id, size, after @ ..] = rest {
        ids.push(*id);
        rest = &after[usize::from(*size)..];
    }
    assert_eq!(ids, [0, 1, 4, 5, 6, 7, 8, 9, 11, 11, 2, 3, 10, 12, 13, 20]);
    assert_eq!(encoded(&names.clone()), encoded(&names.as_custom()));
}

#[test]
fn modules_and_helpers() {
    let mut module = Module::new();
    assert_eq!(module.as_slice(), Module::HEADER);
    let _: &mut Module = module.section(&StartSection { function_index: 0 });
    assert_eq!((module.len(), module.clone().finish().len()), (11, 11));
    assert_eq!(Module::default().finish(), Module::HEADER);

    assert_eq!([0, 127, 128, u32::MAX].map(encoding_size), [1, 1, 2, 5]);
    let mut bytes = Vec::new();
    encode_section(&mut bytes, 1, &[7]);
    encode_vec([1_u32, 300], &mut bytes);
    encode_vec(["a", "b"], &mut bytes);
    assert_eq!(bytes, [2, 1, 7, 2, 1, 0xAC, 0x02, 2, 1, 97, 1, 98]);
    let sorts = [
        CORE_FUNCTION_SORT,
        CORE_TABLE_SORT,
        CORE_MEMORY_SORT,
        CORE_GLOBAL_SORT,
        CORE_TAG_SORT,
        CORE_FUNCTION_EXACT_SORT,
    ];
    assert_eq!(sorts, [0, 1, 2, 3, 4, 0x20]);
    assert_eq!((BITS, PAGE), ((0x3F80_0000, 7), (16, 65536)));
}

#[test]
fn values() {
    assert_eq!(encoded(&7_u8), [7]);
    assert_eq!(encoded(&300_u32), [0xAC, 0x02]);
    assert_eq!(encoded(&u64::MAX).len(), 10);
    assert_eq!(encoded(&300_usize), [0xAC, 0x02]);
    assert_eq!(encoded(&-64_i32), [0x40]);
    assert_eq!(encoded(&64_i64), [0xC0, 0x00]);
    assert_eq!(encoded("ab"), [2, 97, 98]);
    assert_eq!(encoded(&&&"ab"), [2, 97, 98]);
    assert_eq!(encoded(&[1_u32, 2][..]), [2, 1, 2]);
    assert_eq!(encoded(&[Some(1_u32), None][..]), [2, 1, 1, 0]);

    assert_eq!(f32::from(Ieee32::from(1.5)), 1.5);
    assert_eq!(f64::from(Ieee64::from(-0.0)).to_bits(), 1 << 63);
    let ids = [SectionId::Custom, SectionId::Type, SectionId::Import];
    assert_eq!(ids.map(|id| id as u8), [0, 1, 2]);
    assert_eq!(
        (SectionId::DataCount as u8, u8::from(SectionId::Tag)),
        (12, 13)
    );
    assert_eq!(encoded(&SectionId::Code), [10]);
    let kinds = [
        ExportKind::Func,
        ExportKind::Table,
        ExportKind::Memory,
        ExportKind::Global,
        ExportKind::Tag,
    ];
    assert_eq!(kinds.map(|kind| kind as u8), [0, 1, 2, 3, 4]);
    assert_eq!(TagKind::Exception as u8, 0);
    let _: Lane = 3;

    assert!(ValType::I32 < ValType::V128 && ValType::V128 < ValType::FUNCREF);
    assert!(ValType::EXTERNREF.is_reference() && ValType::F64.is_numeric());
    assert!(ValType::V128.is_vector() && !ValType::V128.is_numeric());
    assert_eq!(ValType::from(RefType::FUNCREF), ValType::FUNCREF);
    assert_eq!(StorageType::I8.unpack(), ValType::I32);
    assert!(HeapType::FUNC < HeapType::Concrete(0) && HeapType::Concrete(9) < HeapType::Exact(0));
    assert!(SectionId::Type < SectionId::Tag);
}

#[test]
fn what_proved_calls_have_built() -> Result<(), fallible::Refused> {
    use fallible::Global;
    let mut body = fallible::Function::new(Global, [])?;
    body.instructions().end()?;
    let mut proved = fallible::CodeSection::new(Global);
    proved.function(&body)?;
    let mut code = CodeSection::from(proved);
    code.function(&body.into());
    assert_eq!(encoded(&code), [7, 2, 2, 0, 11, 2, 0, 11]);

    let offset: ConstExpr = fallible::ConstExpr::i32_const(Global, 7)?.into();
    assert_eq!(encoded(&offset), [0x41, 7, 11]);
    let mut proved = fallible::DataSection::new(Global);
    proved.passive([1])?;
    assert_eq!(DataSection::from(proved).len(), 1);
    let mut proved = fallible::TypeSection::new(Global);
    proved.ty().function([], [])?;
    assert_eq!(TypeSection::from(proved).len(), 1);
    let mut proved = fallible::NameMap::new(Global);
    proved.append(0, "a")?;
    assert_eq!(encoded(&NameMap::from(proved)), [1, 0, 1, 97]);
    let module: Module = fallible::Module::new(Global)?.into();
    assert_eq!(module.as_slice(), Module::HEADER);
    Ok(())
}

/// A `match` on all sections needs no arm for the rest.
#[test]
fn all_section_ids() {
    let order = |id| match id {
        SectionId::Custom => "anywhere",
        SectionId::Type | SectionId::Import | SectionId::Function => "first",
        SectionId::Table | SectionId::Memory | SectionId::Tag | SectionId::Global => "second",
        SectionId::Export | SectionId::Start | SectionId::Element => "third",
        SectionId::DataCount | SectionId::Code | SectionId::Data => "last",
    };
    assert_eq!(order(SectionId::Type), "first");
    assert_eq!(SectionId::Type as u8, 1);
    assert_eq!(order(SectionId::Tag), "second");
}

/// A value and a section that a program defines, and lists of them by their traits.
struct Marker(u32);

impl Encode for Marker {
    fn encode(&self, sink: &mut Vec<u8>) {
        encoded(&self.0)[..].encode(sink);
    }
}

impl Section for Marker {
    fn id(&self) -> u8 {
        30
    }
}

#[test]
fn sections_of_a_program_and_lists_by_traits() {
    let mut module = Module::new();
    module.section(&Marker(300));
    assert_eq!(module.as_slice()[8..], [30, 2, 0xAC, 0x02]);

    let sections: [Box<dyn Section>; 2] = [Box::new(Marker(1)), Box::new(FunctionSection::new())];
    let mut bytes = Vec::new();
    for section in &sections {
        section.append_to(&mut bytes);
    }
    assert_eq!(bytes, [30, 1, 1, 3, 1, 0]);
    let values: [&dyn Encode; 3] = [&1_u32, &"a", &ValType::I32];
    assert_eq!(encoded(&values[..]), [3, 1, 1, 97, 0x7F]);
}
