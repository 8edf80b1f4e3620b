//! Programs that are written for the crate: each compiles here too, and has the same results. The
//! expectations are from the crate's signatures and the WebAssembly core specification.

/// A program that imports one case by name, and makes constants of casts.
mod one_case {
    use dolzhytik::SectionId;
    use dolzhytik::SectionId::Type;

    const TYPE: u8 = Type as u8;
    const CODE: u8 = SectionId::Code as u8;

    fn name_of(id: u8) -> &'static str {
        match id {
            TYPE => "types",
            CODE => "code",
            _ => "another",
        }
    }

    #[test]
    fn casts_are_constants_and_patterns() {
        assert_eq!([1, 10, 13].map(name_of), ["types", "code", "another"]);
        assert_eq!(Type, SectionId::Type);
    }
}

/// A program that imports all cases.
mod all_cases {
    use dolzhytik::SectionId::{self, *};

    /// The order of sections in a module: WebAssembly core specification, Binary Format, Modules.
    const ORDER: [SectionId; 13] = [
        Type, Import, Function, Table, Memory, Tag, Global, Export, Start, Element, DataCount,
        Code, Data,
    ];

    /// Where a section goes in a module. No arm is missing.
    fn rank(id: SectionId) -> Option<u8> {
        match id {
            Custom => None,
            Type => Some(1),
            Import | Function | Table | Memory => Some(id as u8),
            Tag => Some(6),
            Global | Export | Start | Element => Some(id as u8 + 1),
            DataCount => Some(11),
            Code | Data => Some(u8::from(id) + 2),
        }
    }

    #[test]
    fn numbers_are_those_of_the_specification() {
        let ids = [1, 2, 3, 4, 5, 13, 6, 7, 8, 9, 12, 10, 11];
        assert_eq!(ORDER.map(|id| id as u8), ids);
        assert_eq!(ORDER.map(u8::from), ids);
        assert_eq!((Custom as u8, rank(Custom)), (0, None));
        assert!(ORDER.map(rank).is_sorted());
    }

    #[test]
    fn an_id_is_one_byte() {
        assert_eq!(size_of::<SectionId>(), 1);
        assert_eq!(size_of::<Option<SectionId>>(), 1);
        assert_eq!(
            ORDER.map(|id| crate::checks::encoded(&id)),
            ORDER.map(|id| vec![id as u8])
        );
        assert!(Custom < Type && Data < Tag);
        assert_eq!(format!("{Type:?} {DataCount:?}"), "Type DataCount");
    }
}

/// A program that keeps the kinds of what it exports, and imports a tag.
mod kinds {
    use crate::checks::encoded;
    use dolzhytik::ExportKind::*;
    use dolzhytik::TagKind::Exception;
    use dolzhytik::*;

    const fn byte_of(kind: ExportKind) -> u8 {
        kind as u8
    }

    #[test]
    fn kinds_are_one_byte() {
        let kinds = [Func, Table, Memory, Global, Tag];
        assert_eq!(kinds.map(byte_of), [0, 1, 2, 3, 4]);
        assert_eq!(
            kinds.map(byte_of),
            [
                CORE_FUNCTION_SORT,
                CORE_TABLE_SORT,
                CORE_MEMORY_SORT,
                CORE_GLOBAL_SORT,
                CORE_TAG_SORT
            ]
        );
        assert_eq!(
            kinds.map(|kind| encoded(&kind)),
            kinds.map(|kind| vec![kind as u8])
        );
        assert_eq!((size_of::<ExportKind>(), size_of::<TagKind>()), (1, 1));
        assert_eq!((Exception as u8, TagKind::Exception as usize), (0, 0));
    }

    #[test]
    fn kinds_are_keys_of_a_map() {
        use std::collections::HashMap;

        assert_eq!(HashMap::from([(Func, 2), (Tag, 1)])[&Tag], 1);
    }

    /// The name `f`, the kind's byte and the index, after the number of exports.
    #[test]
    fn each_kind_is_exported() {
        for kind in [Func, Table, Memory, Global, Tag] {
            let mut exports = ExportSection::new();
            exports.export("f", kind, 7);
            crate::checks::section(
                &exports,
                SectionId::Export as u8,
                &[5, 1, 1, b'f', kind as u8, 7],
            );
        }
    }

    /// An attribute byte, 0 for an exception, and the index of a type.
    #[test]
    fn a_tag_is_imported_and_defined() {
        let ty = TagType {
            kind: Exception,
            func_type_idx: 3,
        };
        let TagType {
            kind,
            func_type_idx,
        } = ty;
        assert_eq!((kind, func_type_idx), (TagKind::Exception, 3));
        assert_eq!(encoded(&ty), [0, 3]);
        assert_eq!(encoded(&EntityType::from(ty)), [CORE_TAG_SORT, 0, 3]);

        let mut imports = ImportSection::new();
        imports
            .import("m", "t", ty)
            .imports(Imports::Single(Import {
                module: "m",
                name: "t",
                ty: ty.into(),
            }));
        crate::checks::section(
            &imports,
            SectionId::Import as u8,
            &[15, 2, 1, b'm', 1, b't', 4, 0, 3, 1, b'm', 1, b't', 4, 0, 3],
        );
        let mut tags = TagSection::new();
        tags.tag(ty);
        crate::checks::section(&tags, SectionId::Tag as u8, &[3, 1, 0, 3]);
    }

    /// A list of items that is owned, and one that is borrowed, is one entry of the same bytes.
    #[test]
    fn items_of_one_module() {
        let items = [
            ImportCompact {
                name: "a",
                ty: EntityType::Function(1),
            },
            ImportCompact {
                name: "t",
                ty: TagType {
                    kind: Exception,
                    func_type_idx: 3,
                }
                .into(),
            },
        ];
        for items in [items.to_vec().into(), items.as_slice().into()] {
            let mut imports = ImportSection::new();
            imports.imports(Imports::Compact1 { module: "m", items });
            let bytes = [15, 1, 1, b'm', 0, 0x7F, 2, 1, b'a', 0, 1, 1, b't', 4, 0, 3];
            crate::checks::section(&imports, 2, &bytes);
        }
    }
}

/// A program that builds parts with the proved calls, whose values have the cases of the root's.
mod beside_proved_values {
    use dolzhytik::{
        EntityType, ExportKind, Import, ImportCompact, SectionId, TagKind, TagType, fallible,
    };
    use std::fmt::Debug;

    /// Checks that a value and its proved one are converted to each other.
    fn both_ways<T, P>(value: T, proved: P)
    where
        T: From<P> + PartialEq + Debug + Copy,
        P: From<T> + PartialEq + Debug + Copy,
    {
        assert_eq!(P::from(value), proved);
        assert_eq!(T::from(proved), value);
    }

    /// Conversions of values that are the same at the root keep their names too.
    #[test]
    fn conversions_keep_the_case() {
        both_ways(SectionId::Type, fallible::SectionId::Types);
        both_ways(ExportKind::Tag, fallible::ExportKind::Tag);
        both_ways(TagKind::Exception, fallible::TagKind::Exception);
        both_ways(EntityType::Function(1), fallible::EntityType::Function(1));
        both_ways(
            EntityType::FunctionExact(1),
            fallible::EntityType::FunctionExact(1),
        );
        let proved = fallible::TagType {
            kind: fallible::TagKind::Exception,
            func_type_idx: 3,
        };
        both_ways(
            TagType {
                kind: TagKind::Exception,
                func_type_idx: 3,
            },
            proved,
        );
        both_ways(EntityType::Tag(proved), fallible::EntityType::Tag(proved));
        let import = fallible::Import {
            module: "m",
            name: "t",
            ty: proved.into(),
        };
        let Import { module, name, ty } = import;
        assert_eq!((module, name, ty), ("m", "t", EntityType::Tag(proved)));
        let item = fallible::ImportCompact {
            name: "t",
            ty: proved.into(),
        };
        let ImportCompact { name, ty } = item;
        assert_eq!((name, ty), ("t", EntityType::Tag(proved)));
    }

    /// Both have the same ids, and a conversion keeps the id.
    #[test]
    fn all_ids_are_the_same() {
        use SectionId::*;
        let ids = [
            Custom, Type, Import, Function, Table, Memory, Global, Export, Start, Element, Code,
            Data, DataCount, Tag,
        ];
        assert!(ids.into_iter().map(|id| id as u8).eq(0..14));
        for id in ids {
            let proved = fallible::SectionId::from(id);
            assert_eq!((proved as u8, SectionId::from(proved)), (id as u8, id));
        }
    }
}

/// A program whose own modules and crates have names of modules within the package.
mod own_names {
    /// A module of each name, beside a glob of the package.
    macro_rules! modules {
        ($($name:ident)*) => {
            pub mod all {
                $(
                    pub mod $name {
                        pub const NAME: &str = stringify!($name);
                    }
                )*
            }

            /// By two globs, of which neither comes before the other.
            mod beside_a_glob {
                use super::all::*;
                use dolzhytik::*;

                pub fn names() -> Vec<&'static str> {
                    assert_eq!(Module::new().len(), 8);
                    vec![$($name::NAME),*]
                }
            }

            #[test]
            fn modules_beside_a_glob() {
                assert_eq!(beside_a_glob::names(), [$(stringify!($name)),*]);
            }

            /// By the names of crates, in a `use` and in a path.
            mod beside_crates {
                use dolzhytik::*;
                use {$($name::any::type_name as $name),*};

                pub fn names() -> Vec<&'static str> {
                    assert_eq!(Module::new().len(), 8);
                    vec![$($name::<u8>()),*]
                }

                pub fn len() -> usize {
                    [$($name::mem::size_of::<u8>()),*].len()
                }
            }

            #[test]
            fn crates_beside_a_glob() {
                assert!(beside_crates::names().iter().all(|name| *name == "u8"));
                assert_eq!(beside_crates::names().len(), beside_crates::len());
            }
        };
    }

    modules! { base code custom hex immediates insn recipe sections string types vec alloc }

    /// A module with the name of one at the root, by a glob beside that of the package. The import by
    /// its name comes before both globs.
    mod beside_a_public_module {
        mod parts {
            pub mod reader {
                pub const NAME: &str = "own";
            }
        }

        use dolzhytik::*;
        use parts::reader;
        #[allow(unused_imports, reason = "the glob that would make the name ambiguous")]
        use parts::*;

        #[test]
        fn an_import_by_name_is_not_ambiguous() {
            assert_eq!((reader::NAME, Module::new().len()), ("own", 8));
        }
    }
}
