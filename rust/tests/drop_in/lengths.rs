//! Builders of every length: what grows, moves or stays in place has the same bytes.
use crate::checks::encoded;
use dolzhytik::fallible::{self, Global, Result};
use dolzhytik::{
    CodeSection, ConstExpr, DataSection, ElementSection, ExportKind, ExportSection, Function,
    FunctionSection, GlobalSection, GlobalType, ImportSection, Instruction, MemorySection,
    MemoryType, RefType, TableSection, TableType, TagKind, TagSection, TagType, TypeSection,
    ValType,
};

/// The encoding of so many instructions `i32.const 5`, and of `end`.
fn constants(count: usize) -> Vec<u8> {
    let mut bytes = [0x41, 0x05].repeat(count);
    bytes.push(0x0B);
    bytes
}

#[test]
fn expressions_of_every_length() {
    let mut grown = ConstExpr::empty();
    for count in 0..40 {
        let expected = constants(count);
        let bytes = &expected[..expected.len() - 1];
        let raw = ConstExpr::raw(bytes.iter().copied());
        let extended = ConstExpr::extended(vec![Instruction::I32Const(5); count]);
        for expression in [&grown, &grown.clone(), &raw, &extended] {
            assert_eq!(encoded(expression), expected);
            assert_eq!(expression.get_ref_func(), None);
            assert_eq!(
                format!("{expression:?}"),
                format!("ConstExpr {{ bytes: {bytes:?} }}")
            );
        }
        let longer = raw.with_i32_add();
        assert_eq!(encoded(&longer), [bytes, &[0x6A, 0x0B]].concat());
        let behind = (0..count).fold(ConstExpr::ref_func(7), |it, _| it.with_i32_const(5));
        assert_eq!(encoded(&behind), [&[0xD2, 0x07], &expected[..]].concat());
        assert_eq!(behind.get_ref_func(), Some(7));
        grown = grown.with_i32_const(5);
    }
    let whole = ConstExpr::raw([0xD2, 0x80, 0x01]).with_v128_const(-1);
    let bytes = [&[0xD2, 0x80, 0x01, 0xFD, 0x0C], &[0xFF; 16][..], &[0x0B]].concat();
    assert_eq!(encoded(&whole), bytes);
    assert_eq!(whole.get_ref_func(), Some(128));
}

#[test]
fn bodies_and_sections_of_every_length() {
    let mut body = Function::new([]);
    let mut code = CodeSection::new();
    let mut expected = Vec::new();
    for count in 0..1200 {
        assert_eq!(body.byte_len(), count + 1);
        code.raw(&[0x01; 3]);
        expected.extend([0x03, 0x01, 0x01, 0x01]);
        assert_eq!(code.byte_len(), expected.len());
        body.instructions().nop();
    }
    assert_eq!(body.into_raw_body(), [&[0x00], &[0x01; 1200][..]].concat());
    assert_eq!(code.len(), 1200);
    let bytes = encoded(&code);
    assert!(bytes.ends_with(&expected) && bytes.len() == expected.len() + 4);
    assert_eq!(encoded(&code.clone()), bytes);
}

#[test]
fn elements_of_expressions() {
    let expressions = || {
        vec![
            ConstExpr::ref_func(1),
            ConstExpr::global_get(2).with_i32_add(),
        ]
    };
    let mut section = ElementSection::new();
    section.passive(dolzhytik::Elements::Expressions(
        RefType::FUNCREF,
        expressions().into(),
    ));
    let borrowed = expressions();
    section.active(
        Some(3),
        &ConstExpr::i32_const(4).with_i32_const(5).with_i32_add(),
        dolzhytik::Elements::Expressions(RefType::EXTERNREF, borrowed.as_slice().into()),
    );
    let list = [0x02, 0xD2, 0x01, 0x0B, 0x23, 0x02, 0x6A, 0x0B];
    let passive = [&[0x05, 0x70], &list[..]].concat();
    let offset = [0x41, 0x04, 0x41, 0x05, 0x6A, 0x0B];
    let active = [&[0x06, 0x03], &offset[..], &[0x6F], &list].concat();
    let bytes = [&[28, 2], &passive[..], &active].concat();
    assert_eq!(encoded(&section), bytes);
}

/// Checks that a section at the root is the proved one that it comes of.
macro_rules! comes_of {
    ($proved:expr => $root:ty) => {{
        let proved = $proved;
        let bytes = {
            let mut bytes = Vec::new();
            fallible::Encode::encode(&proved, &mut bytes)?;
            bytes
        };
        let (len, is_empty) = (proved.len(), proved.is_empty());
        let root: $root = proved.into();
        assert_eq!(encoded(&root), bytes);
        assert_eq!((root.len(), root.is_empty()), (len, is_empty));
    }};
}

#[test]
fn sections_come_of_proved_ones() -> Result<()> {
    const MEMORY: MemoryType = MemoryType {
        minimum: 1,
        maximum: Some(300),
        memory64: false,
        shared: false,
        page_size_log2: None,
    };
    const TABLE: TableType = TableType {
        element_type: RefType::FUNCREF,
        table64: false,
        minimum: 1,
        maximum: None,
        shared: false,
    };
    const GLOBAL: GlobalType = GlobalType {
        val_type: ValType::F64,
        mutable: true,
        shared: false,
    };
    let init = fallible::ConstExpr::i32_const(Global, 7)?;
    let mut types = fallible::TypeSection::new(Global);
    types.ty().function([ValType::I32], [])?;
    comes_of!(types => TypeSection);
    let mut imports = fallible::ImportSection::new(Global);
    imports.import("m", "f", fallible::EntityType::Function(3))?;
    imports.import("", "", GLOBAL.into())?;
    comes_of!(imports => ImportSection);
    let mut functions = fallible::FunctionSection::new(Global);
    functions.function(1)?;
    functions.function(200)?;
    comes_of!(functions => FunctionSection);
    let mut tables = fallible::TableSection::new(Global);
    tables.table(TABLE)?;
    tables.table_with_init(TABLE, &init)?;
    comes_of!(tables => TableSection);
    let mut memories = fallible::MemorySection::new(Global);
    memories.memory(MEMORY)?;
    comes_of!(memories => MemorySection);
    let mut tags = fallible::TagSection::new(Global);
    let kind = TagKind::Exception;
    tags.tag(TagType {
        kind,
        func_type_idx: 9,
    })?;
    comes_of!(tags => TagSection);
    let mut globals = fallible::GlobalSection::new(Global);
    globals.global(GLOBAL, &init)?;
    comes_of!(globals => GlobalSection);
    let mut exports = fallible::ExportSection::new(Global);
    exports.export("f", ExportKind::Func, 300)?;
    comes_of!(exports => ExportSection);
    let mut elements = fallible::ElementSection::new(Global);
    elements.passive(fallible::Elements::<Global>::Functions(vec_of(&[1, 2])))?;
    comes_of!(elements => ElementSection);
    let mut data = fallible::DataSection::new(Global);
    data.active(0, &init, *b"abc")?;
    data.passive([])?;
    comes_of!(data => DataSection);
    let mut code = fallible::CodeSection::new(Global);
    code.raw(&[0x00, 0x0B])?;
    comes_of!(code => CodeSection);
    comes_of!(fallible::CodeSection::new(Global) => CodeSection);
    Ok(())
}

/// Indices that are lent.
fn vec_of(indices: &[u32]) -> fallible::CowSlice<'_, u32> {
    fallible::CowSlice::Borrowed(indices)
}

/// That is the size of a vector, if pointers have 64 bits.
#[test]
fn an_expression_has_24_bytes() {
    assert!(size_of::<ConstExpr>() <= 24);
}
