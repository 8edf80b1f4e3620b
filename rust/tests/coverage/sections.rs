//! The sections of a module with counters.
use crate::example::covered;
use crate::samples::{bodies, exports_of, global, module_of_builders, outline_of, payload_of};
use dolzhytik::fallible::{Global, Op, Vec as List};
use dolzhytik::reader::{Body, Standard, read_body, read_whole};
use dolzhytik::{
    CustomSection, EntityType, Import, ImportCompact, ImportSection, Imports, Module, RawSection,
    ValType,
};

/// Returns the ids of the sections, and the payloads of those without counters.
fn sections(module: &[u8]) -> (Vec<u8>, Vec<(u8, &[u8])>) {
    let lines = outline_of(module);
    let others = lines.iter().filter(|line| ![6, 7, 10].contains(&line.id));
    let others = others.map(|line| {
        let end = line.offset + line.size as usize;
        (line.id, &module[line.offset..end])
    });
    (lines.iter().map(|line| line.id).collect(), others.collect())
}

#[test]
fn other_sections_keep_their_payloads() {
    let before = module_of_builders();
    let after = covered(&before, false).expect("a module");
    assert_eq!(sections(&after), sections(&before));
}

#[test]
fn a_padded_size_becomes_minimal() {
    let before = module_of_builders();
    // The type section of 8 bytes begins the module. Its size gets five bytes.
    assert_eq!(before[8..10], [1, 8]);
    let padded = [&before[..9], &[0x88, 0x80, 0x80, 0x80, 0x00], &before[10..]].concat();
    let after = covered(&padded, false).expect("a module");
    assert_eq!(after[..18], before[..18]);
}

/// Returns a module of a function, with sections of these ids, most without entries.
fn module_of_sections(ids: &[u8]) -> Vec<u8> {
    let mut module = Module::new();
    for &id in ids {
        let data: &[u8] = match id {
            0 => b"\x04note",
            1 => &[1, 0x60, 0, 0],
            3 => &[1, 0],
            10 => &[1, 2, 0, 0x0B],
            _ => &[0],
        };
        module.section(&RawSection { id, data });
    }
    module.finish()
}

#[test]
fn missing_sections_are_inserted_in_order() {
    for (ids, expected) in [
        (&[1, 3, 10][..], &[1, 3, 6, 7, 10][..]),
        (&[1, 3, 13, 0, 10], &[1, 3, 13, 6, 7, 0, 10]),
        (&[1, 3, 6, 10], &[1, 3, 6, 7, 10]),
        (&[1, 3, 7, 10], &[1, 3, 6, 7, 10]),
        (&[1, 3, 6, 9, 10], &[1, 3, 6, 7, 9, 10]),
        (&[1, 3, 8, 0, 10, 0], &[1, 3, 6, 7, 8, 0, 10, 0]),
        (&[1, 3, 4, 12, 10, 11], &[1, 3, 4, 6, 7, 12, 10, 11]),
    ] {
        let before = module_of_sections(ids);
        let after = covered(&before, false).expect("a module");
        let (found, others) = sections(&after);
        assert_eq!(found, expected, "{ids:?}");
        assert_eq!(others, sections(&before).1, "{ids:?}");
        let exports = exports_of(&after);
        assert_eq!((exports[0].name, exports[0].index), ("coverage.0", 0));
    }
}

#[test]
fn bodies_begin_with_the_counter() {
    let before = module_of_builders();
    let after = covered(&before, false).expect("a module");
    let raw = |module| {
        let payload = payload_of(module, 10);
        read_whole::<List<&[u8]>, Global, Standard>(payload, Global).expect("bodies")
    };
    let (old, new) = (raw(&before), raw(&after));
    assert_eq!((old.len(), new.len()), (4, 4));
    for (counter, (old, new)) in (2..).zip(old.iter().zip(&new)) {
        let read = |body| read_body::<Global, Standard>(body, Global).expect("a body");
        let (old, new): (Body, Body) = (read(old), read(new));
        assert_eq!(new.runs.as_slice(), old.runs.as_slice());
        let (added, rest) = new.code.split_at(4);
        let ops: Vec<_> = added.iter().map(|it| it.op).collect();
        assert_eq!(ops, [0x23, 0x41, 0x6A, 0x24].map(Op::Byte));
        let args: Vec<_> = added.iter().map(|it| format!("{:?}", it.args)).collect();
        let index = format!("[U32({counter})]");
        assert_eq!(args, [&index, "[S32(1)]", "[]", &index]);
        assert_eq!(format!("{rest:?}"), format!("{:?}", old.code));
    }
}

#[test]
fn groups_of_imports_are_counted() {
    let mut imports = ImportSection::new();
    let function = EntityType::Function(0);
    imports.imports(Imports::Single(Import {
        module: "a",
        name: "b",
        ty: function,
    }));
    let items = [function, global(ValType::I32, false).into()];
    let items = items.map(|ty| ImportCompact { name: "c", ty });
    imports.imports(Imports::Compact1 {
        module: "a",
        items: items[..].into(),
    });
    imports.imports(Imports::Compact2 {
        module: "a",
        ty: function,
        names: (&["d", "e"][..]).into(),
    });
    let mut module = Module::new();
    module.section(&imports).section(&bodies());
    let module = covered(&module.finish(), false).expect("a module");
    let exports = exports_of(&module);
    // There are 4 imported functions, and an imported global.
    let exports: Vec<_> = exports.iter().map(|it| (it.name, it.index)).collect();
    assert_eq!(
        exports,
        [
            ("coverage.4", 1),
            ("coverage.5", 2),
            ("coverage.6", 3),
            ("coverage.7", 4)
        ]
    );
}

/// Returns the module of builders with a custom section at its end.
fn with_custom(name: &str) -> Vec<u8> {
    let data = (&[0x00]).into();
    let mut custom = Module::new();
    custom.section(&CustomSection {
        name: name.into(),
        data,
    });
    [&module_of_builders()[..], &custom.finish()[8..]].concat()
}

#[test]
fn sections_with_offsets_are_rejected_or_dropped() {
    let without = covered(&module_of_builders(), false).expect("a module");
    for name in [
        "linking",
        "reloc.CODE",
        "reloc..debug_info",
        ".debug_line",
        "metadata.code.branch_hint",
        "sourceMappingURL",
        "external_debug_info",
        "build_id",
    ] {
        let module = with_custom(name);
        let error = covered(&module, false).expect_err(name).to_string();
        assert_eq!(
            error,
            format!("{name} holds offsets into the code: use --drop-offsets")
        );
        assert!(
            covered(&module, true).expect("a module") == without,
            "{name}"
        );
    }
    for name in ["name", "producers", "target_features", "debug_info"] {
        let after = covered(&with_custom(name), true).expect("a module");
        assert_eq!(after.len(), without.len() + name.len() + 4, "{name}");
    }
}

#[track_caller]
fn check_error(module: &[u8], error: &str) {
    let found = covered(module, false).expect_err("no module").to_string();
    assert_eq!(found, error);
}

#[test]
fn a_module_with_counters() {
    let module = covered(&module_of_builders(), false).expect("a module");
    check_error(&module, "the module already exports coverage.1");
}

#[test]
fn bytes_that_do_not_decode() {
    let header = b"\0asm\x01\0\0\0";
    check_error(&header[..7], "unexpected end of input at offset 0x7");
    let module = module_of_builders();
    let cut = &module[..module.len() - 1];
    check_error(cut, "unexpected end of input at offset 0xa5");
    // An export section of one export that ends within its name.
    let exports = [header, &[7, 2, 1, 1][..]].concat();
    check_error(&exports, "unexpected end of input at offset 0xc");
    // A code section of one body that ends within its locals.
    let code = [header, &[10, 4, 1, 2, 1, 1][..]].concat();
    check_error(&code, "unexpected end of input at offset 0xe");
}
