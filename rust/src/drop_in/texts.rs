// Written by tools/drop-in from tools/rustdoc/root.md: change that.
//! The documentation of the root's own types, traits and functions.

/// Returns the documentation of a name.
macro_rules! text {
    (Module) => {
        r##"A module under construction: the header, and the sections added so far.

Build each section, add it by [`section`](Module::section), and take the bytes by [`finish`](Module::finish). The encoding is defined in the core specification, Binary Format, Modules. Neither the order of sections nor the module is validated. To decode a module, see [`reader::Sections`](crate::reader::Sections). Its bytes are those of the proved [`fallible::Module`](crate::fallible::Module), which converts to this type. [`section`](Module::section) appends a builder of entries by its proved call, and any other section by its id and its encoding.

```
use dolzhytik::{FunctionSection, Module};

let mut functions = FunctionSection::new();
functions.function(0).function(1);
let mut module = Module::new();
module.section(&functions);
// The header; id 3, size 3, two functions, of types 0 and 1.
assert_eq!(module.finish(), b"\0asm\x01\0\0\0\x03\x03\x02\x00\x01");
```"##
    };
    (RawSection) => {
        r##"A section of any id and raw payload: the size prefix is added, and the payload is not checked.

[`Module::section`](super::Module::section) takes it. Use it for sections that this package has no builder for, or whose payload is already encoded. For a custom section with a name, see [`CustomSection`](super::CustomSection). The encoding of sections is defined in the core specification, Modules, Sections.

```
use dolzhytik::{Module, RawSection};

let mut module = Module::new();
module.section(&RawSection { id: 3, data: &[1, 0] });
// Id 3, size 2, one function, of type 0.
assert_eq!(module.as_slice()[8..], [3, 2, 1, 0]);
```"##
    };
    (Encode) => {
        r##"A value that has an encoding in the WebAssembly binary format.

Numbers are encoded as LEB128, except `u8`, which is one byte; `str` as a name; a list `[T]` as a vector, which is its length and its items. The core specification defines these in Binary Format, Values and Conventions. Implement the trait for values and sections of your own.

The proved calls have a trait of their own, [`fallible::Encode`](crate::fallible::Encode). What decodes a value is [`reader::Readable`](crate::reader::Readable).

```
use dolzhytik::Encode;

let mut bytes = Vec::new();
300_u32.encode(&mut bytes); // 300 = 2 * 128 + 44: AC, which is 44 with the high bit, and 02.
(-1_i32).encode(&mut bytes); // 7F
"ab".encode(&mut bytes); // Two bytes, 61 62.
assert_eq!(bytes, [0xAC, 0x02, 0x7F, 2, 0x61, 0x62]);
```"##
    };
    (Section) => {
        r##"A section of a module: an id, and an encoding that begins with its size prefix.

[`Module::section`](super::Module::section) takes it. Implement it for sections of your own: the encoding must be the size in bytes, as LEB128, and then the payload. The core specification defines sections in Modules, Sections.

```
use dolzhytik::{Encode, Section};

/// A section of any id and a list of numbers.
struct Numbers(Vec<u32>);

impl Encode for Numbers {
    fn encode(&self, sink: &mut Vec<u8>) {
        let mut payload = Vec::new();
        self.0[..].encode(&mut payload);
        // Bytes with their length are a size prefix and a payload.
        payload[..].encode(sink);
    }
}

impl Section for Numbers {
    fn id(&self) -> u8 {
        20
    }
}

let mut bytes = Vec::new();
Numbers(vec![5, 128]).append_to(&mut bytes);
// Id 20, size 4, two numbers, 5 and 128 (80 01).
assert_eq!(bytes, [20, 4, 2, 5, 0x80, 0x01]);
```"##
    };
    (encode_section) => {
        r##"Appends the payload of a section after its size prefix: a number of entries, and their bytes.

It is the encoding of a section of counted entries, without the id. The bytes are not checked.

```
let mut bytes = Vec::new();
dolzhytik::encode_section(&mut bytes, 2, &[0, 1]);
// Size 3, two entries, 0 and 1.
assert_eq!(bytes, [3, 2, 0, 1]);
```

# Panics

Panics if the payload would be longer than 4294967295 bytes."##
    };
    (encode_vec) => {
        r##"Appends a vector: the length that the iterator reports, and its items.

The core specification defines it in Binary Format, Conventions, Lists. The items are counted by [`ExactSizeIterator`]: if it yields another number of them, the length is wrong.

```
let mut bytes = Vec::new();
dolzhytik::encode_vec([5_u32, 128], &mut bytes);
// Two items: 5, and 128 as LEB128, 80 01.
assert_eq!(bytes, [2, 5, 0x80, 0x01]);
```

# Panics

Panics if the reported length is larger than 4294967295, before an item is requested."##
    };
    (FuncType) => {
        r##"The type of a function: the types of its parameters and of its results.

[`CoreTypeEncoder::func_type`](super::CoreTypeEncoder::func_type) takes it, and [`CompositeInnerType::Func`](super::CompositeInnerType::Func) has one. To add a type without a value, see [`CoreTypeEncoder::function`](super::CoreTypeEncoder::function). Core specification, Types, Composite Types.

```
use dolzhytik::{FuncType, TypeSection, ValType};

let ty = FuncType::new([ValType::I32], [ValType::I64]);
assert_eq!((ty.params(), ty.results()), (&[ValType::I32][..], &[ValType::I64][..]));
TypeSection::new().ty().func_type(&ty);
```"##
    };
    (StructType) => {
        r##"The type of a structure: its fields. It is a case of [`CompositeInnerType`](super::CompositeInnerType); to add one without a value, see [`CoreTypeEncoder::struct_`](super::CoreTypeEncoder::struct_).

Core specification, Types, Composite Types.

```
use dolzhytik::{Encode, FieldType, StorageType, StructType};

let mut bytes = Vec::new();
let field = FieldType { element_type: StorageType::I8, mutable: true };
StructType { fields: Box::new([field]) }.encode(&mut bytes);
// A structure: 5F. One field: i8, 78, mutable, 01.
assert_eq!(bytes, [0x5F, 1, 0x78, 0x01]);
```"##
    };
    (CompositeInnerType) => {
        r##"A composite type without sharing and descriptors: a field of [`CompositeType`](super::CompositeType).

```
use dolzhytik::{CompositeInnerType, Encode, FuncType};

let mut bytes = Vec::new();
CompositeInnerType::Func(FuncType::new([], [])).encode(&mut bytes);
// A function: 60. No parameters and no results.
assert_eq!(bytes, [0x60, 0, 0]);
```"##
    };
    (CompositeType) => {
        r##"A composite type: a field of [`SubType`](super::SubType).

Core specification, Types, Composite Types.

```
use dolzhytik::{CompositeInnerType, CompositeType, Encode, FuncType};

let mut bytes = Vec::new();
CompositeType {
    inner: CompositeInnerType::Func(FuncType::new([], [])),
    shared: true,
    descriptor: None,
    describes: None,
}
.encode(&mut bytes);
// Shared: 65. The function type: 60, no parameters, no results.
assert_eq!(bytes, [0x65, 0x60, 0, 0]);
```"##
    };
    (SubType) => {
        r##"A subtype: a composite type, its supertype, and whether it can have subtypes.

[`CoreTypeEncoder::subtype`](super::CoreTypeEncoder::subtype) and [`CoreTypeEncoder::rec`](super::CoreTypeEncoder::rec) take it. Core specification, Types, Recursive Types.

```
use dolzhytik::{CompositeInnerType, CompositeType, Encode, FuncType, SubType};

let mut bytes = Vec::new();
SubType {
    is_final: false,
    supertype_idx: Some(5),
    composite_type: CompositeType {
        inner: CompositeInnerType::Func(FuncType::new([], [])),
        shared: false,
        descriptor: None,
        describes: None,
    },
}
.encode(&mut bytes);
// Not final: 50. One supertype, 5. A function without parameters and results.
assert_eq!(bytes, [0x50, 1, 5, 0x60, 0, 0]);
```"##
    };
    (TypeSection) => {
        r##"The type section: the types that functions, blocks and other types of the module refer to by index.

[`ty`](TypeSection::ty) returns the calls that add a type, and [`Module::section`](super::Module::section) takes the section. Core specification, Modules, Type Section. Its calls are those of the proved [`fallible::joined::TypeSection`](crate::fallible::joined::TypeSection).

```
use dolzhytik::{Encode, TypeSection, ValType};

let mut types = TypeSection::new();
types.ty().function([ValType::I32, ValType::I32], [ValType::I64]);
let mut bytes = Vec::new();
types.encode(&mut bytes);
// Size 7, one type: a function (60) of two i32 (7F) to one i64 (7E).
assert_eq!(bytes, [7, 1, 0x60, 2, 0x7F, 0x7F, 1, 0x7E]);
```

# Panics

Its calls panic where the number of entries, or a count in one, would pass 4294967295. A failed allocation ends the program."##
    };
    (CoreTypeEncoder) => {
        r##"The calls that append an entry of a [`TypeSection`](super::TypeSection), which [`TypeSection::ty`](super::TypeSection::ty) returns.

```
use dolzhytik::{Encode, FieldType, StorageType, TypeSection, ValType};

let mut types = TypeSection::new();
types.ty().array(&StorageType::I8, true);
types.ty().struct_([FieldType { element_type: ValType::F32.into(), mutable: false }]);
let mut bytes = Vec::new();
types.encode(&mut bytes);
// Size 8, two types: an array (5E) of mutable (01) i8 (78), and a structure (5F) of one field,
// f32 (7D), immutable (00).
assert_eq!(bytes, [8, 2, 0x5E, 0x78, 1, 0x5F, 1, 0x7D, 0]);
```"##
    };
    (InstructionSink) => {
        r##"Appends instructions to a list of bytes, by a named call for each.

[`Function::instructions`](super::Function::instructions) returns one for a body, and [`InstructionSink::new`](super::InstructionSink::new) makes one for any `Vec<u8>`. Each call returns the sink, so that calls form a chain. A call takes the immediates of its instruction as arguments. An [`Instruction`](super::Instruction) is the same as a value.

An instruction is appended as its opcode, and each immediate by the proved `encode` that the calls of [`fallible::InstructionSink`](crate::fallible::InstructionSink) make too. Blocks and types are not checked.

```
use dolzhytik::InstructionSink;

let mut bytes = Vec::new();
InstructionSink::new(&mut bytes).local_get(0).i32_const(64).i32_add().end();
// local.get 0: 20 00. i32.const 64: 41, and 64 as signed LEB128, C0 00. i32.add: 6A. end: 0B.
assert_eq!(bytes, [0x20, 0x00, 0x41, 0xC0, 0x00, 0x6A, 0x0B]);
```"##
    };
    (Function) => {
        r##"The body of a function: its locals and its instructions.

[`CodeSection::function`](super::CodeSection::function) takes it. End it with the instruction `end`, which no call adds. Parameters are locals too, with the first indices; they are part of the function's type, and not of its body. The encoding is defined in the core specification, Modules, Code Section.

It is built by the calls of the proved [`fallible::Function`](crate::fallible::Function), which converts to this type. Its instructions are appended by those of the root.

```
use dolzhytik::{Function, Instruction, ValType};

let mut body = Function::new([(1, ValType::I64)]);
body.instruction(&Instruction::I32Const(7)).instruction(&Instruction::Drop);
body.instructions().nop().end();
// One run of locals: 1 of i64, 7E. i32.const 7: 41 07. drop: 1A. nop: 01. end: 0B.
assert_eq!(body.into_raw_body(), [1, 1, 0x7E, 0x41, 0x07, 0x1A, 0x01, 0x0B]);
```"##
    };
    (CodeSection) => {
        r##"The code section: the bodies of the functions that the module defines.

Add one body for each entry of the [`FunctionSection`](super::FunctionSection), in the same order. [`Module::section`](super::Module::section) takes the section. The encoding is defined in the core specification, Modules, Code Section.

Its calls are those of the proved [`fallible::joined::CodeSection`](crate::fallible::joined::CodeSection). To decode a code section, see [`reader::Section::bodies`](crate::reader::Section::bodies).

```
use dolzhytik::{CodeSection, Function, Module};

let mut body = Function::new([]);
body.instructions().local_get(0).end();
let mut code = CodeSection::new();
code.function(&body);

let mut module = Module::new();
module.section(&code);
// Id 10, size 6, one body. The body: size 4, no locals, local.get 0 (20 00), end (0B).
assert_eq!(module.as_slice()[8..], [10, 6, 1, 4, 0, 0x20, 0x00, 0x0B]);
```

# Panics

Its calls panic where the number of bodies, or the size of one, would pass 4294967295. A failed allocation ends the program."##
    };
    (ConstExpr) => {
        r##"A constant expression: the initial value of a global or a table, the offset of a segment, or an element.

[`GlobalSection::global`](super::GlobalSection::global), [`TableSection::table_with_init`](super::TableSection::table_with_init), [`DataSection::active`](super::DataSection::active), [`ElementSection::active`](super::ElementSection::active) and [`Elements::Expressions`](super::Elements::Expressions) take it. Begin with the call of an instruction, and add others by the calls `with_..`. The encoding appends `end`. The core specification defines it in Instructions, Expressions, and which instructions are constant in Validation, Constant Expressions. That is not checked.

It has the size of a vector. One instruction of a number or a type, and up to 15 bytes of instructions, take no allocation. The proved builder of the same bytes is [`fallible::ConstExpr`](crate::fallible::ConstExpr), which converts to this type.

```
use dolzhytik::{ConstExpr, Encode};

let mut bytes = Vec::new();
ConstExpr::global_get(0).with_i32_const(8).with_i32_add().encode(&mut bytes);
// global.get 0: 23 00. i32.const 8: 41 08. i32.add: 6A. end: 0B.
assert_eq!(bytes, [0x23, 0x00, 0x41, 0x08, 0x6A, 0x0B]);
```"##
    };
    (Imports) => {
        r##"An entry of the import section, which [`ImportSection::imports`](super::ImportSection::imports) takes: one import, or several of one module.

Entries of several imports are a proposal, and not part of the core specification.

```
use dolzhytik::{Encode, EntityType, ImportSection, Imports};

let mut imports = ImportSection::new();
imports.imports(Imports::Compact2 {
    module: "m",
    ty: EntityType::Function(0),
    names: vec!["a", "b"].into(),
});
let mut bytes = Vec::new();
imports.encode(&mut bytes);
// Size 12, one entry: "m", an empty name and 7E, a function (00) of type 0, two names.
assert_eq!(bytes, *b"\x0C\x01\x01m\0\x7E\0\0\x02\x01a\x01b");
```"##
    };
    (SectionId) => {
        r##"The id of a section: core specification, Modules, Sections.

[`Section::id`](super::Section::id) returns it as a byte, and [`RawSection`](super::RawSection) takes one.

```
use dolzhytik::SectionId::{self, *};

assert_eq!(Type as u8, 1);
assert_eq!(u8::from(SectionId::DataCount), 12);
assert!([Import, Function].iter().all(|id| *id < Code));
```"##
    };
    (ImportSection) => {
        r##"The import section: the functions, tables, memories, globals and tags that a module takes from its host.

Core specification, Modules, Import Section.

Imported items have the first indices of their kind, in the order of the imports. With one imported function, the first function that the module defines has the index 1. So one more import shifts the index of each item of its kind that the module defines, also in `call`, `ref.func`, exports, element segments, the start section and names.

```
use dolzhytik::{Encode, EntityType, ImportSection};

let mut imports = ImportSection::new();
imports.import("env", "f", EntityType::Function(5));
let mut bytes = Vec::new();
imports.encode(&mut bytes);
// Size 9, one import: "env", "f", a function (00) of type 5.
assert_eq!(bytes, *b"\x09\x01\x03env\x01f\0\x05");
```"##
    };
    (FunctionSection) => {
        r##"The function section: the indices of the types of the functions that the module defines, in the order of their bodies.

Core specification, Modules, Function Section.

The [`TypeSection`](super::TypeSection) has the types, and the [`CodeSection`](super::CodeSection) the bodies. The functions have the indices after those of imported functions.

```
use dolzhytik::{Encode, FunctionSection};

let mut functions = FunctionSection::new();
functions.function(1).function(128);
let mut bytes = Vec::new();
functions.encode(&mut bytes);
// Size 4, two functions, of types 1 and 128 (80 01).
assert_eq!(bytes, [4, 2, 1, 0x80, 0x01]);
```"##
    };
    (TableSection) => {
        r##"The table section: the tables that the module defines.

Core specification, Modules, Table Section.

```
use dolzhytik::{Encode, RefType, TableSection, TableType};

let mut tables = TableSection::new();
tables.table(TableType {
    element_type: RefType::FUNCREF,
    table64: false,
    minimum: 1,
    maximum: Some(2),
    shared: false,
});
let mut bytes = Vec::new();
tables.encode(&mut bytes);
// Size 5, one table: funcref (70), flags 1 for a maximum, 1 to 2 elements.
assert_eq!(bytes, [5, 1, 0x70, 1, 1, 2]);
```"##
    };
    (MemorySection) => {
        r##"The memory section: the memories that the module defines.

Core specification, Modules, Memory Section.

```
use dolzhytik::{Encode, MemorySection, MemoryType};

let mut memories = MemorySection::new();
memories.memory(MemoryType {
    minimum: 1,
    maximum: None,
    memory64: true,
    shared: false,
    page_size_log2: None,
});
let mut bytes = Vec::new();
memories.encode(&mut bytes);
// Size 3, one memory: flags 4 for addresses of 64 bits, at least 1 page.
assert_eq!(bytes, [3, 1, 4, 1]);
```"##
    };
    (TagSection) => {
        r##"The tag section: the tags of exceptions that the module defines.

Core specification, Modules, Tag Section.

```
use dolzhytik::{Encode, TagKind, TagSection, TagType};

let mut tags = TagSection::new();
tags.tag(TagType { kind: TagKind::Exception, func_type_idx: 3 });
let mut bytes = Vec::new();
tags.encode(&mut bytes);
// Size 3, one tag: an exception (00), of function type 3.
assert_eq!(bytes, [3, 1, 0, 3]);
```"##
    };
    (GlobalSection) => {
        r##"The global section: the globals that the module defines, with their initial values.

Core specification, Modules, Global Section.

```
use dolzhytik::{ConstExpr, Encode, GlobalSection, GlobalType, ValType};

let ty = GlobalType { val_type: ValType::I32, mutable: true, shared: false };
let mut globals = GlobalSection::new();
globals.global(ty, &ConstExpr::i32_const(42));
let mut bytes = Vec::new();
globals.encode(&mut bytes);
// Size 6, one global: i32 (7F), flags 1 for mutable, i32.const 42 (41 2A), end (0B).
assert_eq!(bytes, [6, 1, 0x7F, 1, 0x41, 0x2A, 0x0B]);
```"##
    };
    (ExportSection) => {
        r##"The export section: the items that a module exports to its host, by name.

Core specification, Modules, Export Section.

```
use dolzhytik::{Encode, ExportKind, ExportSection};

let mut exports = ExportSection::new();
exports.export("mem", ExportKind::Memory, 0);
let mut bytes = Vec::new();
exports.encode(&mut bytes);
// Size 7, one export: "mem", kind 2, index 0.
assert_eq!(bytes, *b"\x07\x01\x03mem\x02\0");
```"##
    };
    (ElementSection) => {
        r##"The element section: lists of references that initialize tables.

Core specification, Modules, Element Section.

```
use dolzhytik::{ConstExpr, ElementSection, Elements, Encode};

let mut elements = ElementSection::new();
elements.active(None, &ConstExpr::i32_const(1), Elements::Functions(vec![3, 4].into()));
let mut bytes = Vec::new();
elements.encode(&mut bytes);
// Size 8, one segment: form 0, from offset i32.const 1 (41 01) end (0B), functions 3 and 4.
assert_eq!(bytes, [8, 1, 0, 0x41, 0x01, 0x0B, 2, 3, 4]);
```"##
    };
    (DataSection) => {
        r##"The data section: lists of bytes that initialize memories.

Core specification, Modules, Data Section.

A module whose code has `memory.init` or `data.drop` also needs a [`DataCountSection`](super::DataCountSection) before the code.

```
use dolzhytik::{ConstExpr, DataSection, Encode};

let mut data = DataSection::new();
data.active(0, &ConstExpr::i32_const(42), *b"hi");
let mut bytes = Vec::new();
data.encode(&mut bytes);
// Size 8, one segment: form 0, from offset i32.const 42 (41 2A) end (0B), two bytes.
assert_eq!(bytes, [8, 1, 0, 0x41, 0x2A, 0x0B, 2, b'h', b'i']);
```"##
    };
    (Elements) => {
        r##"The elements of a segment of the [`ElementSection`](super::ElementSection).

```
use dolzhytik::{ConstExpr, ElementSection, Elements, Encode, HeapType, RefType};

let expressions = vec![ConstExpr::ref_null(HeapType::EXTERN)];
let mut section = ElementSection::new();
section.passive(Elements::Expressions(RefType::EXTERNREF, expressions.into()));
let mut bytes = Vec::new();
section.encode(&mut bytes);
// Size 7, one segment: form 5, externref (6F), one expression: ref.null extern (D0 6F), end.
assert_eq!(bytes, [7, 1, 5, 0x6F, 1, 0xD0, 0x6F, 0x0B]);
```"##
    };
    (ElementMode) => {
        r##"The mode of an [`ElementSegment`](super::ElementSegment): whether instantiation copies the elements into a table.

```
use dolzhytik::{ConstExpr, ElementMode, ElementSection, ElementSegment, Elements, Encode};

let offset = ConstExpr::i32_const(3);
let mode = ElementMode::Active { table: None, offset: &offset };
let elements = Elements::Functions(vec![5].into());
let mut section = ElementSection::new();
section.segment(ElementSegment { mode, elements });
let mut bytes = Vec::new();
section.encode(&mut bytes);
// Size 7, one segment: in table 0 (form 0), i32.const 3 and end, one function, 5.
assert_eq!(bytes, [7, 1, 0, 0x41, 3, 0x0B, 1, 5]);
```"##
    };
    (ElementSegment) => {
        r##"A segment of the [`ElementSection`](super::ElementSection), which [`ElementSection::segment`](super::ElementSection::segment) takes.

```
use dolzhytik::{ElementMode, ElementSection, ElementSegment, Elements, Encode};

let mut section = ElementSection::new();
let elements = Elements::Functions(vec![7].into());
section.segment(ElementSegment { mode: ElementMode::Declared, elements });
let mut bytes = Vec::new();
section.encode(&mut bytes);
// Size 5, one segment: form 3, functions (00), of one: 7.
assert_eq!(bytes, [5, 1, 3, 0, 1, 7]);
```"##
    };
    (DataSegmentMode) => {
        r##"The mode of a [`DataSegment`](super::DataSegment): whether instantiation copies the bytes into a memory.

```
use dolzhytik::{ConstExpr, DataSection, DataSegment, DataSegmentMode, Encode};

let offset = ConstExpr::i32_const(8);
let mode = DataSegmentMode::Active { memory_index: 0, offset: &offset };
let mut section = DataSection::new();
section.segment(DataSegment { mode, data: *b"hi" });
let mut bytes = Vec::new();
section.encode(&mut bytes);
// Size 8, one segment: in memory 0 (form 0), i32.const 8 and end, two bytes.
assert_eq!(bytes, [8, 1, 0, 0x41, 8, 0x0B, 2, b'h', b'i']);
```"##
    };
    (DataSegment) => {
        r##"A segment of the [`DataSection`](super::DataSection), which [`DataSection::segment`](super::DataSection::segment) takes.

```
use dolzhytik::{DataSection, DataSegment, DataSegmentMode, Encode};

let mut section = DataSection::new();
section.segment(DataSegment { mode: DataSegmentMode::Passive, data: *b"hi" });
let mut bytes = Vec::new();
section.encode(&mut bytes);
// Size 5, one segment: form 1, two bytes.
assert_eq!(bytes, [5, 1, 1, 2, b'h', b'i']);
```"##
    };
    (CustomSection) => {
        r##"A custom section of any name and data.

[`Module::section`](super::Module::section) takes it, anywhere in the module. Core specification, Modules, Custom Section. The proved section is [`fallible::CustomSection`](crate::fallible::CustomSection), which converts to this type.

```
use dolzhytik::{CustomSection, Encode};

let section = CustomSection { name: "note".into(), data: b"hi"[..].into() };
let mut bytes = Vec::new();
section.encode(&mut bytes);
// Size 7: a name of four bytes, and the data.
assert_eq!(bytes, *b"\x07\x04notehi");
```"##
    };
    (NameMap) => {
        r##"A name map: indices of items, such as functions, and their names. Items may have the same name.

Calls of [`NameSection`](super::NameSection) take it, such as [`NameSection::functions`](super::NameSection::functions). Core specification, Appendix, Custom Sections, Name Section, Name Maps.

```
use dolzhytik::{Encode, NameMap};

let mut names = NameMap::new();
names.append(5, "f");
let mut bytes = Vec::new();
names.encode(&mut bytes);
// One name: index 5, "f".
assert_eq!(bytes, [1, 5, 1, b'f']);
```"##
    };
    (IndirectNameMap) => {
        r##"An indirect name map: indices of items, each with a [`NameMap`](super::NameMap) of items in it, such as the locals of a function.

Calls of [`NameSection`](super::NameSection) take it, such as [`NameSection::locals`](super::NameSection::locals). Core specification, Appendix, Custom Sections, Name Section, Name Maps.

```
use dolzhytik::{Encode, IndirectNameMap, NameMap};

let mut locals = NameMap::new();
locals.append(1, "x");
let mut names = IndirectNameMap::new();
names.append(0, &locals);
let mut bytes = Vec::new();
names.encode(&mut bytes);
// One map: index 0, one name: index 1, "x".
assert_eq!(bytes, [1, 0, 1, 1, 1, b'x']);
```"##
    };
    (NameSection) => {
        r##"The custom section `name`: names of the module and of its items, for debuggers and stack traces.

Each call appends a subsection. Add each once, in the order of their ids: module, functions, locals, labels, types, tables, memories, globals, elements, data, fields, tags, parameters, tag parameters. The calls do not check it. Core specification, Appendix, Custom Sections, Name Section.

```
use dolzhytik::{Encode, NameMap, NameSection};

let mut functions = NameMap::new();
functions.append(0, "f");
let mut names = NameSection::new();
names.module("m");
names.functions(&functions);
let mut bytes = Vec::new();
names.encode(&mut bytes);
// Size 15, "name"; subsection 0, size 2, "m"; subsection 1, size 4, one name, 0, "f".
assert_eq!(bytes, *b"\x0F\x04name\0\x02\x01m\x01\x04\x01\0\x01f");
```"##
    };
    (LinkingSection) => {
        r##"The custom section `linking`, version 2: symbols and other data of an object file, for a linker.

The tool conventions define it in [Linking](https://github.com/WebAssembly/tool-conventions/blob/main/Linking.md). Add it before the custom sections `reloc.*`. For segment names, init functions and COMDATs, see [`fallible::ObjectLinking`](crate::fallible::ObjectLinking).

```
use dolzhytik::{Encode, LinkingSection, SymbolTable};

let mut symbols = SymbolTable::new();
symbols.function(0, 1, Some("f"));
let mut linking = LinkingSection::new();
linking.symbol_table(&symbols);
let mut bytes = Vec::new();
linking.encode(&mut bytes);
// Size 17, "linking", version 2; subsection 8, size 6, one symbol: a function (00),
// flags 0, index 1, "f".
assert_eq!(bytes, *b"\x11\x07linking\x02\x08\x06\x01\0\0\x01\x01f");
```"##
    };
    (SymbolTable) => {
        r##"A symbol table: the functions, globals, tables and data that a linker knows by name.

[`LinkingSection::symbol_table`](super::LinkingSection::symbol_table) takes it. The flags of a symbol are a sum of the constants `WASM_SYM_..`. The tool conventions define it in [Linking](https://github.com/WebAssembly/tool-conventions/blob/main/Linking.md).

```
use dolzhytik::{DataSymbolDefinition, Encode, SymbolTable};

let mut symbols = SymbolTable::new();
symbols
    .function(SymbolTable::WASM_SYM_UNDEFINED, 0, None)
    .data(0, "d", Some(DataSymbolDefinition { index: 1, offset: 2, size: 3 }));
let mut bytes = Vec::new();
symbols.encode(&mut bytes);
// Subsection 8, size 11, two symbols: a function (00), flags 10, index 0; and data (01),
// flags 0, "d", segment 1, offset 2, size 3.
assert_eq!(bytes, [8, 11, 2, 0, 0x10, 0, 1, 0, 1, b'd', 1, 2, 3]);
```"##
    };
    (ProducersSection) => {
        r##"The custom section `producers`: the languages and tools that made the module.

The tool conventions define it in [ProducersSection](https://github.com/WebAssembly/tool-conventions/blob/main/ProducersSection.md), with the names of its fields: `language`, `processed-by` and `sdk`.

```
use dolzhytik::{Encode, ProducersField, ProducersSection};

let mut language = ProducersField::new();
language.value("Rust", "1.88");
let mut producers = ProducersSection::new();
producers.field("language", &language);
let mut bytes = Vec::new();
producers.encode(&mut bytes);
// Size 31, "producers", one field: "language", one value, "Rust", "1.88".
assert_eq!(bytes, *b"\x1F\x09producers\x01\x08language\x01\x04Rust\x041.88");
```"##
    };
    (ProducersField) => {
        r##"The values of a field of the producers section: names and versions.

[`ProducersSection::field`](super::ProducersSection::field) takes it.

```
use dolzhytik::{Encode, ProducersField};

let mut field = ProducersField::new();
field.value("ld", "1");
let mut bytes = Vec::new();
field.encode(&mut bytes);
// One value: "ld", "1".
assert_eq!(bytes, *b"\x01\x02ld\x011");
```"##
    };
    (BranchHints) => {
        r##"The custom section `metadata.code.branch_hint`: which branches of functions are likely.

Add it before the code section. The branch hinting proposal defines it.

```
use dolzhytik::{BlockType, BranchHint, BranchHints, Encode, Function};

let mut body = Function::new([]);
body.instructions().local_get(0);
let branch_func_offset = body.byte_len() as u32; // 3: no locals, local.get 0
body.instructions().if_(BlockType::Empty).end().end();

let mut hints = BranchHints::new();
hints.function_hints(7, [BranchHint { branch_func_offset, branch_hint_value: 1 }]);
let mut bytes = Vec::new();
hints.encode(&mut bytes);
// Size 32, the name; one function, 7, with one hint: offset 3, one byte, likely.
assert_eq!(bytes, *b"\x20\x19metadata.code.branch_hint\x01\x07\x01\x03\x01\x01");
```"##
    };
    (CoreDumpModulesSection) => {
        r##"The custom section `coremodules` of a core dump: the names of modules.

The tool conventions define it in [Coredump](https://github.com/WebAssembly/tool-conventions/blob/main/Coredump.md).

```
use dolzhytik::CoreDumpModulesSection;

let mut modules = CoreDumpModulesSection::new();
modules.module("m");
// One module: 00, "m".
assert_eq!(modules.as_custom().data, [1, 0, 1, b'm'].as_slice());
```"##
    };
    (CoreDumpInstancesSection) => {
        r##"The custom section `coreinstances` of a core dump: instances of its modules.

The tool conventions define it in [Coredump](https://github.com/WebAssembly/tool-conventions/blob/main/Coredump.md).

```
use dolzhytik::CoreDumpInstancesSection;

let mut instances = CoreDumpInstancesSection::new();
instances.instance(0, [42], [17]);
// One instance: 00, module 0, one memory, 42, one global, 17.
assert_eq!(instances.as_custom().data, [1, 0, 0, 1, 42, 1, 17].as_slice());
```"##
    };
    (CoreDumpSection) => {
        r##"The custom section `core` of a core dump: the name of the process.

The tool conventions define it in [Coredump](https://github.com/WebAssembly/tool-conventions/blob/main/Coredump.md). It is built by the proved [`fallible::CoreDumpSection`](crate::fallible::CoreDumpSection). By `default()` the process has no name.

```
use dolzhytik::{CoreDumpSection, Encode};

let mut bytes = Vec::new();
CoreDumpSection::new("test").encode(&mut bytes);
// Size 11, "core", 00, "test".
assert_eq!(bytes, *b"\x0B\x04core\0\x04test");
```"##
    };
    (CoreDumpStackSection) => {
        r##"The custom section `corestack` of a core dump: the name and the stack frames of a thread.

The tool conventions define it in [Coredump](https://github.com/WebAssembly/tool-conventions/blob/main/Coredump.md). It is built by the calls of the proved [`fallible::CoreDumpStackSection`](crate::fallible::CoreDumpStackSection). By `default()` the thread has no name.

```
use dolzhytik::{CoreDumpStackSection, CoreDumpValue};

let mut stack = CoreDumpStackSection::new("t");
stack.frame(0, 42, 51, [CoreDumpValue::I32(1)], [CoreDumpValue::I32(2)]);
// 00, "t"; one frame: 00, instance 0, function 42, offset 51, one local and one value, each of
// type i32 (7F).
let data = [0, 1, b't', 1, 0, 0, 42, 51, 1, 0x7F, 1, 1, 0x7F, 2];
assert_eq!(stack.as_custom().data, data.as_slice());
```

# Panics

Its calls panic where a count or length would pass 4294967295. A failed allocation ends the program."##
    };
}
