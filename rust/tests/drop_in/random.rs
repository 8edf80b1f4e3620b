//! Random calls, made at the root and in `fallible`: the bytes are the same.
use crate::checks::encoded;
use dolzhytik::fallible::{self, CowSlice, Global, Result};
use dolzhytik::{
    BranchHint, BranchHints, CodeSection, ConstExpr, CoreDumpInstancesSection,
    CoreDumpStackSection, CoreDumpValue, DataSection, DataSymbolDefinition, ElementSection,
    Elements, Encode, EntityType, ExportKind, ExportSection, Function, FunctionSection,
    GlobalSection, GlobalType, HeapType, ImportSection, IndirectNameMap, Instruction,
    LinkingSection, MemArg, MemArgTarget, MemorySection, MemoryType, NameMap, NameSection,
    ProducersField, ProducersSection, RefType, SymbolTable, TableSection, TableType, TagKind,
    TagSection, TagType, TypeSection, ValType,
};

/// How often each section is built, unless the environment variable `DOLZHYTIK_ROUNDS` says it.
const ROUNDS: u32 = 300;

/// How often each section is built. The variable is read while this is compiled: on wasm32 a program
/// has no environment.
fn rounds() -> u32 {
    option_env!("DOLZHYTIK_ROUNDS").map_or(ROUNDS, |it| it.parse().expect("a number"))
}

/// Random numbers, of a fixed start.
struct Numbers(u64);

impl Numbers {
    /// A number of any length up to 64 bits.
    fn wide(&mut self) -> u64 {
        self.0 ^= self.0 << 13;
        self.0 ^= self.0 >> 7;
        self.0 ^= self.0 << 17;
        self.0 >> (self.0 % 64)
    }

    fn next(&mut self) -> u32 {
        self.wide() as u32
    }

    fn below(&mut self, end: u32) -> u32 {
        self.next();
        (self.0 >> 20) as u32 % end
    }

    fn flag(&mut self) -> bool {
        self.below(2) == 1
    }

    fn bytes(&mut self) -> Vec<u8> {
        let len = self.below(200);
        (0..len).map(|_| self.next() as u8).collect()
    }

    fn name(&mut self) -> String {
        let len = self.below(150);
        (0..len)
            .map(|_| char::from(b'a' + self.below(26) as u8))
            .collect()
    }

    fn heap_type(&mut self) -> HeapType {
        match self.below(3) {
            0 => HeapType::FUNC,
            1 => HeapType::EXTERN,
            _ => HeapType::Concrete(self.next()),
        }
    }

    fn ref_type(&mut self) -> RefType {
        RefType {
            nullable: self.flag(),
            heap_type: self.heap_type(),
        }
    }

    fn val_type(&mut self) -> ValType {
        match self.below(6) {
            0 => ValType::I32,
            1 => ValType::I64,
            2 => ValType::F32,
            3 => ValType::F64,
            4 => ValType::V128,
            _ => ValType::Ref(self.ref_type()),
        }
    }

    fn val_types(&mut self) -> Vec<ValType> {
        let len = self.below(200);
        (0..len).map(|_| self.val_type()).collect()
    }

    fn table_type(&mut self) -> TableType {
        TableType {
            element_type: self.ref_type(),
            table64: self.flag(),
            minimum: self.wide(),
            maximum: self.flag().then(|| self.wide()),
            shared: self.flag(),
        }
    }

    fn memory_type(&mut self) -> MemoryType {
        MemoryType {
            minimum: self.wide(),
            maximum: self.flag().then(|| self.wide()),
            memory64: self.flag(),
            shared: self.flag(),
            page_size_log2: self.flag().then(|| self.next()),
        }
    }

    fn global_type(&mut self) -> GlobalType {
        GlobalType {
            val_type: self.val_type(),
            mutable: self.flag(),
            shared: self.flag(),
        }
    }

    fn tag_type(&mut self) -> TagType {
        TagType {
            kind: TagKind::Exception,
            func_type_idx: self.next(),
        }
    }

    fn entity_type(&mut self) -> EntityType {
        match self.below(6) {
            0 => EntityType::Function(self.next()),
            1 => EntityType::Table(self.table_type()),
            2 => EntityType::Memory(self.memory_type()),
            3 => EntityType::Global(self.global_type()),
            4 => EntityType::Tag(self.tag_type()),
            _ => EntityType::FunctionExact(self.next()),
        }
    }

    fn instruction(&mut self) -> Instruction<'static> {
        match self.below(9) {
            0 => Instruction::I32Const(self.next().cast_signed()),
            1 => Instruction::I64Const(self.wide().cast_signed()),
            2 => Instruction::GlobalGet(self.next()),
            3 => Instruction::I32Add,
            4 => Instruction::RefNull(self.heap_type()),
            5 => Instruction::V128Const(i128::from(self.wide()) << 50),
            6 => Instruction::StructNew(self.next()),
            7 => Instruction::I64Load(MemArg {
                offset: self.wide(),
                align: self.below(64),
                target: MemArgTarget::Memory(self.below(3)),
                ordering: None,
            }),
            _ => Instruction::TableCopy {
                src_table: self.next(),
                dst_table: self.next(),
            },
        }
    }

    /// The same expression for both, made in one of four ways.
    fn expression(&mut self) -> Result<(ConstExpr, fallible::ConstExpr)> {
        let (value, count) = (self.next().cast_signed(), self.below(8));
        let mut root = ConstExpr::empty();
        let mut proved = fallible::ConstExpr::empty(Global);
        match self.below(4) {
            0 => {
                root = ConstExpr::i32_const(value);
                proved = fallible::ConstExpr::i32_const(Global, value)?;
            }
            1 => {
                let bytes = self.bytes();
                root = ConstExpr::raw(bytes.iter().copied());
                proved = fallible::ConstExpr::raw(Global, bytes)?;
            }
            2 => {
                let list: Vec<_> = (0..count).map(|_| self.instruction()).collect();
                let values = list.iter().map(fallible::Instruction::from);
                proved = fallible::ConstExpr::extended(Global, values)?;
                root = ConstExpr::extended(list);
            }
            _ => {}
        }
        for _ in 0..count {
            let value = self.wide().cast_signed();
            root = root.with_i64_const(value).with_i64_add();
            proved = proved.with_i64_const(value)?.with_i64_add()?;
        }
        assert_eq!(root.get_ref_func(), proved.get_ref_func());
        Ok((root, proved))
    }

    fn expressions(&mut self) -> Result<(Vec<ConstExpr>, Vec<fallible::ConstExpr>)> {
        let count = self.below(5);
        let both: Result<Vec<_>> = (0..count).map(|_| self.expression()).collect();
        Ok(both?.into_iter().unzip())
    }
}

/// A name map of some names.
fn names(it: &mut Numbers) -> Result<(NameMap, fallible::NameMap)> {
    let (mut root, mut proved) = (NameMap::new(), fallible::NameMap::new(Global));
    for _ in 0..it.below(6) {
        let (index, name) = (it.next(), it.name());
        root.append(index, &name);
        proved.append(index, &name)?;
    }
    assert_eq!(root.is_empty(), proved.is_empty());
    Ok((root, proved))
}

/// A map of some name maps, some of which are copies.
fn maps(it: &mut Numbers) -> Result<(IndirectNameMap, fallible::IndirectNameMap)> {
    let (mut root, mut proved) = (
        IndirectNameMap::new(),
        fallible::IndirectNameMap::new(Global),
    );
    for _ in 0..it.below(4) {
        let (index, (inside, other)) = (it.next(), names(it)?);
        root.append(index, &inside.clone());
        proved.append(index, &other)?;
    }
    Ok((root, proved))
}

/// A symbol table of some symbols.
fn symbols(it: &mut Numbers) -> Result<(SymbolTable, fallible::SymbolTable)> {
    let (mut root, mut proved) = (SymbolTable::new(), fallible::SymbolTable::new(Global));
    for _ in 0..it.below(6) {
        let (flags, index, name) = (it.next(), it.next(), it.name());
        let given = it.flag().then_some(name.as_str());
        let definition = it.flag().then(|| DataSymbolDefinition {
            index: it.next(),
            offset: it.next(),
            size: it.next(),
        });
        root.function(flags, index, given)
            .global(flags, index, given)
            .table(flags, index, given)
            .data(flags, &name, definition.clone());
        proved.function(flags, index, given)?;
        proved.global(flags, index, given)?;
        proved.table(flags, index, given)?;
        proved.data(flags, &name, definition)?;
    }
    Ok((root, proved))
}

/// Values of locals or of a stack.
fn values(it: &mut Numbers) -> Vec<CoreDumpValue> {
    (0..it.below(5))
        .map(|_| match it.below(3) {
            0 => CoreDumpValue::Missing,
            1 => CoreDumpValue::I32(it.next() as i32),
            _ => CoreDumpValue::I64(it.wide() as i64),
        })
        .collect()
}

/// Builds a section at the root and in `fallible` by the same calls, and compares their bytes.
fn same<T: Default + Encode, P: fallible::Encode>(
    numbers: &mut Numbers,
    new: fn(Global) -> P,
    add: fn(&mut Numbers, &mut T, &mut P) -> Result<()>,
) -> Result<()> {
    for _ in 0..rounds() {
        let (mut root, mut proved) = (T::default(), new(Global));
        for _ in 0..numbers.below(12) {
            add(numbers, &mut root, &mut proved)?;
        }
        let mut expected = Vec::new();
        proved.encode(&mut expected)?;
        assert_eq!(encoded(&root), expected);
    }
    Ok(())
}

#[test]
fn types_and_code() -> Result<()> {
    let it = &mut Numbers(1);
    same::<TypeSection, _>(it, fallible::TypeSection::new, |it, root, proved| {
        let (params, results) = (it.val_types(), it.val_types());
        root.ty()
            .function(params.iter().copied(), results.iter().copied());
        proved.ty().function(params, results)
    })?;
    same::<CodeSection, _>(it, fallible::CodeSection::new, |it, root, proved| {
        let locals: Vec<_> = (0..it.below(4))
            .map(|_| (it.next(), it.val_type()))
            .collect();
        let mut body = Function::new(locals.iter().copied());
        let mut other = fallible::Function::new(Global, locals)?;
        for _ in 0..it.below(60) {
            let instruction = it.instruction();
            body.instruction(&instruction);
            other.instruction(&(&instruction).into())?;
        }
        root.function(&body);
        proved.function(&other)
    })
}

#[test]
fn records() -> Result<()> {
    let it = &mut Numbers(2);
    same::<ImportSection, _>(it, fallible::ImportSection::new, |it, root, proved| {
        let (module, name, ty) = (it.name(), it.name(), it.entity_type());
        root.import(&module, &name, ty);
        proved.import(&module, &name, ty)
    })?;
    same::<FunctionSection, _>(it, fallible::FunctionSection::new, |it, root, proved| {
        let index = it.next();
        root.function(index);
        proved.function(index)
    })?;
    same::<MemorySection, _>(it, fallible::MemorySection::new, |it, root, proved| {
        let ty = it.memory_type();
        root.memory(ty);
        proved.memory(ty)
    })?;
    same::<TagSection, _>(it, fallible::TagSection::new, |it, root, proved| {
        let ty = it.tag_type();
        root.tag(ty);
        proved.tag(ty)
    })?;
    same::<ExportSection, _>(it, fallible::ExportSection::new, |it, root, proved| {
        let (name, index) = (it.name(), it.next());
        root.export(&name, ExportKind::Global, index);
        proved.export(&name, ExportKind::Global, index)
    })
}

#[test]
fn sections_with_expressions() -> Result<()> {
    let it = &mut Numbers(3);
    same::<TableSection, _>(it, fallible::TableSection::new, |it, root, proved| {
        let (ty, (init, other)) = (it.table_type(), it.expression()?);
        root.table(ty).table_with_init(ty, &init);
        proved.table(ty)?;
        proved.table_with_init(ty, &other)
    })?;
    same::<GlobalSection, _>(it, fallible::GlobalSection::new, |it, root, proved| {
        let (ty, (init, other)) = (it.global_type(), it.expression()?);
        root.global(ty, &init);
        proved.global(ty, &other)
    })?;
    same::<DataSection, _>(it, fallible::DataSection::new, |it, root, proved| {
        let (memory, (offset, other), bytes) = (it.below(3), it.expression()?, it.bytes());
        root.active(memory, &offset, bytes.clone())
            .passive(bytes.iter().copied());
        proved.active(memory, &other, bytes.clone())?;
        proved.passive(bytes)
    })?;
    same::<ElementSection, _>(it, fallible::ElementSection::new, |it, root, proved| {
        let table = it.flag().then(|| it.below(3));
        let (offset, other) = it.expression()?;
        let (list, others) = it.expressions()?;
        let ty = it.ref_type();
        let indices: Vec<_> = (0..it.below(9)).map(|_| it.next()).collect();
        root.active(table, &offset, Elements::Expressions(ty, list.into()));
        root.active(
            table,
            &offset,
            Elements::Functions(indices.as_slice().into()),
        );
        root.declared(Elements::Functions(indices.as_slice().into()));
        let others = fallible::Elements::Expressions(ty, CowSlice::Owned(others.into()));
        proved.active(table, &other, others)?;
        let functions = || fallible::Elements::Functions(CowSlice::Borrowed(&indices));
        proved.active(table, &other, functions())?;
        proved.declared::<Global>(functions())
    })
}

#[test]
fn names_of_items() -> Result<()> {
    let it = &mut Numbers(4);
    same::<NameSection, _>(it, fallible::NameSection::new, |it, root, proved| {
        let (name, (map, other), (inside, others)) = (it.name(), names(it)?, maps(it)?);
        root.module(&name);
        proved.module(&name)?;
        root.functions(&map);
        proved.functions(&other)?;
        root.locals(&inside);
        proved.locals(&others)?;
        let id = it.next() as u8;
        root.raw(id, name.as_bytes());
        proved.raw(id, name.as_bytes())
    })
}

#[test]
fn custom_sections() -> Result<()> {
    let it = &mut Numbers(5);
    same::<LinkingSection, _>(it, fallible::LinkingSection::new, |it, root, proved| {
        let (name, (table, other)) = (it.name(), symbols(it)?);
        root.symbol_table(&table).target_arch(&name);
        proved.symbol_table(&other)?;
        proved.target_arch(&name)
    })?;
    same::<ProducersSection, _>(it, fallible::ProducersSection::new, |it, root, proved| {
        let (name, mut field) = (it.name(), ProducersField::new());
        let mut other = fallible::ProducersField::new(Global);
        for _ in 0..it.below(4) {
            let (tool, version) = (it.name(), it.name());
            field.value(&tool, &version);
            other.value(&tool, &version)?;
        }
        root.field(&name, &field);
        proved.field(&name, &other)
    })?;
    same::<BranchHints, _>(it, fallible::BranchHints::new, |it, root, proved| {
        let (function, count) = (it.next(), it.below(5));
        let hints: Vec<_> = (0..count)
            .map(|_| BranchHint {
                branch_func_offset: it.next(),
                branch_hint_value: it.below(2),
            })
            .collect();
        root.function_hints(function, hints.iter().copied());
        proved.function_hints(function, hints)
    })
}

#[test]
fn core_dumps() -> Result<()> {
    let it = &mut Numbers(6);
    for _ in 0..rounds() {
        let name = it.name();
        let mut root = CoreDumpStackSection::new(name.as_str());
        let mut proved = fallible::CoreDumpStackSection::new(Global, &name)?;
        let mut instances = CoreDumpInstancesSection::new();
        let mut others = fallible::CoreDumpInstancesSection::new(Global);
        for _ in 0..it.below(12) {
            let (module, function, offset) = (it.next(), it.next(), it.next());
            let (locals, stack) = (values(it), values(it));
            root.frame(module, function, offset, locals.clone(), stack.clone());
            proved.frame(module, function, offset, locals, stack)?;
            let indices: Vec<_> = (0..it.below(5)).map(|_| it.next()).collect();
            instances.instance(module, indices.clone(), [function]);
            others.instance(module, indices, [function])?;
        }
        let mut expected = Vec::new();
        fallible::Encode::encode(&proved, &mut expected)?;
        fallible::Encode::encode(&others, &mut expected)?;
        let mut bytes = encoded(&root.clone());
        instances.encode(&mut bytes);
        assert_eq!(bytes, expected);
    }
    Ok(())
}
