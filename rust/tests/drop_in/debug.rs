//! `Debug` of each type at the root, in both forms, beside types of the same names and fields that
//! derive it, as the Rust crate's do.
use std::borrow::Cow;
use std::fmt::Debug;

/// Types with the fields of the Rust crate's, public and private, in their order.
#[allow(dead_code, reason = "fields are printed alone")]
mod derived {
    use std::borrow::Cow;

    /// Defines types that derive `Debug`.
    macro_rules! types {
        ($($item:item)*) => { $(#[derive(Clone, Debug)] $item)* };
    }

    /// Defines builders of bytes and a number.
    macro_rules! builders {
        ($($name:ident { $number:ident })*) => {
            types! { $(pub struct $name { pub bytes: Vec<u8>, pub $number: u32 })* }
        };
    }

    builders! {
        TypeSection { num_added }
        ImportSection { num_added }
        FunctionSection { num_added }
        TableSection { num_added }
        MemorySection { num_added }
        TagSection { num_added }
        GlobalSection { num_added }
        ExportSection { num_added }
        ElementSection { num_added }
        CodeSection { num_added }
        DataSection { num_added }
        NameMap { count }
        IndirectNameMap { count }
        SymbolTable { num_added }
        ProducersSection { num_fields }
        ProducersField { num_values }
        BranchHints { num_hints }
    }

    types! {
        pub struct Module { pub bytes: Vec<u8> }
        pub struct Function { pub bytes: Vec<u8> }
        pub struct ConstExpr { pub bytes: Vec<u8> }
        pub struct NameSection { pub bytes: Vec<u8> }
        pub struct LinkingSection { pub bytes: Vec<u8> }
        pub struct CoreDumpModulesSection { pub num_added: u32, pub bytes: Vec<u8> }
        pub struct CoreDumpInstancesSection { pub num_added: u32, pub bytes: Vec<u8> }
        pub struct CoreDumpSection { pub name: String }
        pub struct CoreDumpStackSection {
            pub frame_bytes: Vec<u8>,
            pub count: u32,
            pub name: String,
        }
        pub struct InstructionSink<'a> { pub sink: &'a [u8] }
        pub struct CoreTypeEncoder {
            pub push_prefix_if_component_core_type: bool,
            pub bytes: Vec<u8>,
        }
        pub struct CustomSection<'a> { pub name: Cow<'a, str>, pub data: Cow<'a, [u8]> }
        pub struct RawCustomSection<'a>(pub &'a [u8]);
        pub struct RawSection<'a> { pub id: u8, pub data: &'a [u8] }
        pub struct StartSection { pub function_index: u32 }
        pub struct DataCountSection { pub count: u32 }

        pub struct Ieee32(pub u32);
        pub struct Ieee64(pub u64);
        pub enum AbstractHeapType { Any, NoFunc }
        pub enum HeapType {
            Abstract { shared: bool, ty: AbstractHeapType },
            Concrete(u32),
            Exact(u32),
        }
        pub struct RefType { pub nullable: bool, pub heap_type: HeapType }
        pub enum ValType { I32, I64, F32, F64, V128, Ref(RefType) }
        pub enum StorageType { I8, I16, Val(ValType) }
        pub struct FieldType { pub element_type: StorageType, pub mutable: bool }
        pub struct ArrayType(pub FieldType);
        pub struct StructType { pub fields: Box<[FieldType]> }
        pub struct ContType(pub u32);
        pub struct FuncType { pub params_results: Box<[ValType]>, pub len_params: usize }
        pub enum CompositeInnerType {
            Func(FuncType),
            Array(ArrayType),
            Struct(StructType),
            Cont(ContType),
        }
        pub struct CompositeType {
            pub inner: CompositeInnerType,
            pub shared: bool,
            pub descriptor: Option<u32>,
            pub describes: Option<u32>,
        }
        pub struct SubType {
            pub is_final: bool,
            pub supertype_idx: Option<u32>,
            pub composite_type: CompositeType,
        }

        pub enum BlockType { Empty, Result(ValType), FunctionType(u32) }
        pub struct MemArg {
            pub offset: u64,
            pub align: u32,
            pub target: MemArgTarget,
            pub ordering: Option<MemArgOrdering>,
        }
        pub enum MemArgTarget { Memory(u32), Array(u32) }
        pub enum MemArgOrdering { Op(Ordering), Rmw(Ordering) }
        pub enum Ordering { AcqRel, SeqCst }
        pub enum Catch {
            One { tag: u32, label: u32 },
            OneRef { tag: u32, label: u32 },
            All { label: u32 },
            AllRef { label: u32 },
        }
        pub enum Handle { OnLabel { tag: u32, label: u32 }, OnSwitch { tag: u32 } }
        pub enum Instruction<'a> {
            End,
            BrTable(Cow<'a, [u32]>, u32),
            CallIndirect { type_index: u32, table_index: u32 },
            F32Const(Ieee32),
            F64Const(Ieee64),
            V128Load8Lane { memarg: MemArg, lane: u8 },
        }

        pub struct MemoryType {
            pub minimum: u64,
            pub maximum: Option<u64>,
            pub memory64: bool,
            pub shared: bool,
            pub page_size_log2: Option<u32>,
        }
        pub struct TableType {
            pub element_type: RefType,
            pub table64: bool,
            pub minimum: u64,
            pub maximum: Option<u64>,
            pub shared: bool,
        }
        pub struct GlobalType { pub val_type: ValType, pub mutable: bool, pub shared: bool }
        pub enum TagKind { Exception }
        pub struct TagType { pub kind: TagKind, pub func_type_idx: u32 }
        pub enum ExportKind { Func, Tag }
        pub enum SectionId { Custom, Type, DataCount }
        pub enum EntityType {
            Function(u32),
            Table(TableType),
            Memory(MemoryType),
            Global(GlobalType),
            Tag(TagType),
            FunctionExact(u32),
        }
        pub struct Import<'a> { pub module: &'a str, pub name: &'a str, pub ty: EntityType }
        pub struct ImportCompact<'a> { pub name: &'a str, pub ty: EntityType }
        pub enum Imports<'a> {
            Single(Import<'a>),
            Compact1 { module: &'a str, items: Cow<'a, [ImportCompact<'a>]> },
            Compact2 { module: &'a str, ty: EntityType, names: Cow<'a, [&'a str]> },
        }
        pub enum Elements<'a> {
            Functions(Cow<'a, [u32]>),
            Expressions(RefType, Cow<'a, [ConstExpr]>),
        }
        pub enum ElementMode<'a> {
            Passive,
            Declared,
            Active { table: Option<u32>, offset: &'a ConstExpr },
        }
        pub struct ElementSegment<'a> { pub mode: ElementMode<'a>, pub elements: Elements<'a> }
        pub enum DataSegmentMode<'a> {
            Active { memory_index: u32, offset: &'a ConstExpr },
            Passive,
        }
        pub struct DataSegment<'a, D> { pub mode: DataSegmentMode<'a>, pub data: D }
        pub struct BranchHint { pub branch_func_offset: u32, pub branch_hint_value: u32 }
        pub struct DataSymbolDefinition { pub index: u32, pub offset: u32, pub size: u32 }
        pub enum CoreDumpValue { Missing, I32(i32), I64(i64), F32(Ieee32), F64(Ieee64) }
    }

    impl Ieee32 {
        pub fn new(bits: u32) -> Self {
            Ieee32(bits)
        }
    }

    impl Ieee64 {
        pub fn new(bits: u64) -> Self {
            Ieee64(bits)
        }
    }

    impl ConstExpr {
        /// The opcode, and a value of one byte.
        pub fn i32_const(value: u8) -> Self {
            let bytes = vec![0x41, value];
            ConstExpr { bytes }
        }
    }

    impl FuncType {
        pub fn new<const P: usize, const R: usize>(
            params: [ValType; P],
            results: [ValType; R],
        ) -> Self {
            FuncType {
                params_results: params.into_iter().chain(results).collect(),
                len_params: P,
            }
        }
    }
}

/// Returns both forms of a value.
fn forms(value: &impl Debug) -> [String; 2] {
    [format!("{value:?}"), format!("{value:#?}")]
}

/// Checks that values of the root print as those of `derived`.
macro_rules! prints {
    ($($value:expr => $derived:expr;)*) => {
        $(assert_eq!(
            {
                #[allow(unused_imports, reason = "a value may be a variable")]
                use dolzhytik::*;
                forms(&$value)
            },
            {
                use derived::*;
                forms(&$derived)
            }
        );)*
    };
}

/// The same of expressions that make a value of each.
macro_rules! print_alike {
    ($($value:expr;)*) => { prints! { $($value => $value;)* } };
}

const FUNCREF: dolzhytik::RefType = dolzhytik::RefType::FUNCREF;

#[test]
fn types() {
    print_alike! {
        AbstractHeapType::NoFunc;
        HeapType::Abstract { shared: true, ty: AbstractHeapType::Any };
        HeapType::Concrete(1);
        HeapType::Exact(2);
        RefType { nullable: true, heap_type: HeapType::Concrete(3) };
        [ValType::I32, ValType::I64, ValType::F32, ValType::F64, ValType::V128];
        ValType::Ref(RefType { nullable: false, heap_type: HeapType::Exact(4) });
        [StorageType::I8, StorageType::I16, StorageType::Val(ValType::F32)];
        FieldType { element_type: StorageType::I8, mutable: true };
        ArrayType(FieldType { element_type: StorageType::I16, mutable: false });
        StructType { fields: Box::new([FieldType { element_type: StorageType::I8, mutable: true }]) };
        ContType(5);
        FuncType::new([], []);
        FuncType::new([ValType::I32, ValType::F64], [ValType::I64]);
        CompositeInnerType::Func(FuncType::new([ValType::I32], []));
        CompositeInnerType::Array(ArrayType(FieldType { element_type: StorageType::I8, mutable: false }));
        CompositeInnerType::Struct(StructType { fields: Box::new([]) });
        SubType {
            is_final: true,
            supertype_idx: Some(6),
            composite_type: CompositeType {
                inner: CompositeInnerType::Cont(ContType(7)),
                shared: false,
                descriptor: Some(8),
                describes: None,
            },
        };
        BlockType::Empty;
        BlockType::Result(ValType::I32);
        BlockType::FunctionType(9);
        MemoryType { minimum: 1, maximum: Some(2), memory64: true, shared: false, page_size_log2: Some(3) };
        GlobalType { val_type: ValType::I32, mutable: true, shared: false };
        TagType { kind: TagKind::Exception, func_type_idx: 1 };
        [ExportKind::Func, ExportKind::Tag];
        [SectionId::Custom, SectionId::Type, SectionId::DataCount];
        TableType {
            element_type: RefType { nullable: true, heap_type: HeapType::Concrete(1) },
            table64: false,
            minimum: 2,
            maximum: None,
            shared: true,
        };
    }
}

#[test]
fn values_of_instructions() {
    print_alike! {
        Ieee32::new(7);
        Ieee64::new(u64::MAX);
        MemArg { offset: 1, align: 2, target: MemArgTarget::Memory(0), ordering: None };
        MemArg {
            offset: 1,
            align: 2,
            target: MemArgTarget::Array(3),
            ordering: Some(MemArgOrdering::Rmw(Ordering::AcqRel)),
        };
        MemArgOrdering::Op(Ordering::SeqCst);
        [
            Catch::One { tag: 1, label: 2 },
            Catch::OneRef { tag: 3, label: 4 },
            Catch::All { label: 5 },
            Catch::AllRef { label: 6 },
        ];
        [Handle::OnLabel { tag: 1, label: 2 }, Handle::OnSwitch { tag: 3 }];
        [
            Instruction::End,
            Instruction::BrTable(Cow::Borrowed(&[1, 2]), 3),
            Instruction::CallIndirect { type_index: 4, table_index: 5 },
            Instruction::F32Const(Ieee32::new(6)),
            Instruction::F64Const(Ieee64::new(7)),
            Instruction::V128Load8Lane {
                memarg: MemArg { offset: 8, align: 9, target: MemArgTarget::Memory(10), ordering: None },
                lane: 11,
            },
        ];
    }
}

#[test]
fn values_of_sections() {
    print_alike! {
        EntityType::Function(1);
        EntityType::FunctionExact(2);
        EntityType::Tag(TagType { kind: TagKind::Exception, func_type_idx: 3 });
        EntityType::Global(GlobalType { val_type: ValType::I32, mutable: false, shared: true });
        Imports::Single(Import { module: "m", name: "f", ty: EntityType::Function(1) });
        Imports::Compact1 {
            module: "m",
            items: vec![ImportCompact { name: "f", ty: EntityType::Function(1) }].into(),
        };
        Imports::Compact2 { module: "m", ty: EntityType::Function(1), names: vec!["f", "g"].into() };
        ElementSegment {
            mode: ElementMode::Active { table: None, offset: &ConstExpr::i32_const(7) },
            elements: Elements::Functions(vec![1].into()),
        };
        ElementSegment {
            mode: ElementMode::Declared,
            elements: Elements::Expressions(
                RefType { nullable: true, heap_type: HeapType::Concrete(1) },
                vec![ConstExpr::i32_const(8)].into(),
            ),
        };
        ElementMode::Passive;
        DataSegment {
            mode: DataSegmentMode::Active { memory_index: 1, offset: &ConstExpr::i32_const(2) },
            data: [3, 4],
        };
        DataSegmentMode::Passive;
        BranchHint { branch_func_offset: 1, branch_hint_value: 0 };
        DataSymbolDefinition { index: 1, offset: 2, size: 3 };
        [
            CoreDumpValue::Missing,
            CoreDumpValue::I32(-1),
            CoreDumpValue::I64(2),
            CoreDumpValue::F32(Ieee32::new(3)),
            CoreDumpValue::F64(Ieee64::new(4)),
        ];
        StartSection { function_index: 1 };
        DataCountSection { count: 2 };
        CustomSection { name: "n".into(), data: vec![1].into() };
        RawCustomSection(&[1]);
        RawSection { id: 1, data: &[2] };
    }
}

/// Returns a builder after calls.
fn built<T>(mut builder: T, calls: impl FnOnce(&mut T)) -> T {
    calls(&mut builder);
    builder
}

#[test]
fn builders_without_entries() {
    prints! {
        TypeSection::new() => TypeSection { bytes: vec![], num_added: 0 };
        ImportSection::new() => ImportSection { bytes: vec![], num_added: 0 };
        FunctionSection::new() => FunctionSection { bytes: vec![], num_added: 0 };
        TableSection::new() => TableSection { bytes: vec![], num_added: 0 };
        MemorySection::new() => MemorySection { bytes: vec![], num_added: 0 };
        TagSection::new() => TagSection { bytes: vec![], num_added: 0 };
        GlobalSection::new() => GlobalSection { bytes: vec![], num_added: 0 };
        ExportSection::new() => ExportSection { bytes: vec![], num_added: 0 };
        ElementSection::new() => ElementSection { bytes: vec![], num_added: 0 };
        CodeSection::new() => CodeSection { bytes: vec![], num_added: 0 };
        DataSection::new() => DataSection { bytes: vec![], num_added: 0 };
        NameSection::new() => NameSection { bytes: vec![] };
        NameMap::new() => NameMap { bytes: vec![], count: 0 };
        IndirectNameMap::new() => IndirectNameMap { bytes: vec![], count: 0 };
        LinkingSection::new() => LinkingSection { bytes: vec![2] };
        SymbolTable::new() => SymbolTable { bytes: vec![], num_added: 0 };
        ProducersSection::new() => ProducersSection { bytes: vec![], num_fields: 0 };
        ProducersField::new() => ProducersField { bytes: vec![], num_values: 0 };
        BranchHints::new() => BranchHints { bytes: vec![], num_hints: 0 };
        CoreDumpModulesSection::new() => CoreDumpModulesSection { num_added: 0, bytes: vec![] };
        CoreDumpInstancesSection::new() => CoreDumpInstancesSection { num_added: 0, bytes: vec![] };
        CoreDumpSection::new("a") => CoreDumpSection { name: "a".into() };
        CoreDumpStackSection::new("a") => CoreDumpStackSection {
            frame_bytes: vec![],
            count: 0,
            name: "a".into(),
        };
        ConstExpr::empty() => ConstExpr { bytes: vec![] };
        Function::new([]) => Function { bytes: vec![0] };
        Module::new() => Module { bytes: b"\0asm\x01\0\0\0".to_vec() };
        InstructionSink::new(&mut vec![1]) => InstructionSink { sink: &[1] };
        TypeSection::new().ty() => CoreTypeEncoder {
            push_prefix_if_component_core_type: false,
            bytes: vec![],
        };
    }
}

#[test]
fn core_sections() {
    prints! {
        built(TypeSection::new(), |it| it.ty().function([ValType::I32], [])) =>
            TypeSection { bytes: vec![0x60, 1, 0x7F, 0], num_added: 1 };
        ImportSection::new().import("m", "f", EntityType::Function(5)) =>
            ImportSection { bytes: b"\x01m\x01f\0\x05".to_vec(), num_added: 1 };
        FunctionSection::new().function(300) =>
            FunctionSection { bytes: vec![0xAC, 2], num_added: 1 };
        TableSection::new().table(TableType {
            element_type: FUNCREF,
            table64: false,
            minimum: 1,
            maximum: None,
            shared: false,
        }) => TableSection { bytes: vec![0x70, 0, 1], num_added: 1 };
        MemorySection::new().memory(MemoryType {
            minimum: 1,
            maximum: None,
            memory64: false,
            shared: false,
            page_size_log2: None,
        }) => MemorySection { bytes: vec![0, 1], num_added: 1 };
        TagSection::new().tag(TagType { kind: TagKind::Exception, func_type_idx: 2 }) =>
            TagSection { bytes: vec![0, 2], num_added: 1 };
        GlobalSection::new().raw(&[1, 2]) => GlobalSection { bytes: vec![1, 2], num_added: 1 };
        ExportSection::new().export("f", ExportKind::Tag, 7) =>
            ExportSection { bytes: vec![1, b'f', 4, 7], num_added: 1 };
        ElementSection::new().declared(Elements::Functions(vec![7].into())) =>
            ElementSection { bytes: vec![3, 0, 1, 7], num_added: 1 };
        CodeSection::new().raw(&[0, 0x0B]) =>
            CodeSection { bytes: vec![2, 0, 0x0B], num_added: 1 };
        DataSection::new().passive([7]) => DataSection { bytes: vec![1, 1, 7], num_added: 1 };
        ConstExpr::i32_const(7) => ConstExpr { bytes: vec![0x41, 7] };
    }
}

#[test]
fn custom_sections() {
    let map = built(dolzhytik::NameMap::new(), |it| it.append(0, "a"));
    let mut symbols = dolzhytik::SymbolTable::new();
    symbols.table(dolzhytik::SymbolTable::WASM_SYM_UNDEFINED, 0, None);
    let mut field = dolzhytik::ProducersField::new();
    field.value("a", "1");
    let hint = dolzhytik::BranchHint {
        branch_func_offset: 3,
        branch_hint_value: 1,
    };
    let missing = dolzhytik::CoreDumpValue::Missing;
    prints! {
        map => NameMap { bytes: vec![0, 1, b'a'], count: 1 };
        built(IndirectNameMap::new(), |it| it.append(1, &map)) =>
            IndirectNameMap { bytes: vec![1, 1, 0, 1, b'a'], count: 1 };
        built(NameSection::new(), |it| it.module("m")) =>
            NameSection { bytes: vec![0, 2, 1, b'm'] };
        symbols => SymbolTable { bytes: vec![5, 0x10, 0], num_added: 1 };
        LinkingSection::new().symbol_table(&symbols) =>
            LinkingSection { bytes: vec![2, 8, 4, 1, 5, 0x10, 0] };
        field => ProducersField { bytes: b"\x01a\x011".to_vec(), num_values: 1 };
        ProducersSection::new().field("sdk", &field) =>
            ProducersSection { bytes: b"\x03sdk\x01\x01a\x011".to_vec(), num_fields: 1 };
        built(BranchHints::new(), |it| it.function_hints(5, [hint])) =>
            BranchHints { bytes: vec![5, 1, 3, 1, 1], num_hints: 1 };
        CoreDumpModulesSection::new().module("a") =>
            CoreDumpModulesSection { num_added: 1, bytes: vec![0, 1, b'a'] };
        CoreDumpInstancesSection::new().instance(7, [4], [5]) =>
            CoreDumpInstancesSection { num_added: 1, bytes: vec![0, 7, 1, 4, 1, 5] };
        CoreDumpStackSection::new("main").frame(1, 2, 3, [], [missing.clone()]) =>
            CoreDumpStackSection {
                frame_bytes: vec![0, 1, 2, 3, 0, 1, 1],
                count: 1,
                name: "main".into(),
            };
    }
}

/// A count and a size of two bytes each are no entries.
#[test]
fn entries_behind_a_long_count() {
    let mut map = dolzhytik::NameMap::new();
    (0..200).for_each(|_| map.append(5, ""));
    prints! {
        map => NameMap { bytes: [5, 0].repeat(200), count: 200 };
        CoreDumpSection::new("m".repeat(200)) => CoreDumpSection { name: "m".repeat(200) };
    }
}

/// `Debug` of the proved instructions, which rustc derives.
#[test]
fn proved_instructions() {
    use dolzhytik::fallible::{
        Aggregate, Atomic, MemArg, MemArgTarget, Numeric, Ordering, PrefixedNumeric, Vector,
        VectorImmediate,
    };
    let memarg = MemArg {
        offset: 4,
        align: 2,
        target: MemArgTarget::Memory(0),
        ordering: None,
    };
    let shown = [
        format!("{:?}", Numeric::I64Extend32S),
        format!("{:?}", Aggregate::I31GetU),
        format!("{:?}", PrefixedNumeric::I64MulWideU),
        format!("{:?}", Vector::I8x16Swizzle),
        format!("{:?}", VectorImmediate::V128Const(-1)),
        format!("{:?}", VectorImmediate::V128Load(memarg)),
        format!("{:?}", Atomic::AtomicFence(Ordering::SeqCst)),
    ];
    let expected = [
        "I64Extend32S",
        "I31GetU",
        "I64MulWideU",
        "I8x16Swizzle",
        "V128Const(-1)",
        "V128Load(MemArg { offset: 4, align: 2, target: Memory(0), ordering: None })",
        "AtomicFence(SeqCst)",
    ];
    assert_eq!(shown, expected);
}
