//! Lists custom sections of known kinds.
use crate::context::{Context, Space};
use crate::dump::listing::{Content, Item, Listing, Title};
use crate::dump::operands::Float;
use crate::dump::relocations::{Patch, symbol_entry};
use crate::dump::symbols::Shown;
use crate::dump::text::OTHER;
use crate::json::{Members, Value, members, object};
use crate::name::Entry;
use dolzhytik::fallible::{
    self, BranchHint, CallTarget, Comdat, CompilationOrder, CoreDumpValue, FeaturePrefix,
    SegmentInfo, SymbolTable,
};
use dolzhytik::reader::{CoreFrame, DylinkItem, Items, LinkItem, NameItem, Symbol};
use std::fmt::Display;
use std::io::{self, Write};

/// Lists the items of a custom section, and returns whether its name selects a kind. If not,
/// nothing is listed.
pub fn list_items<'c>(
    items: &Items<'c>,
    context: &'c Context<'c>,
    listing: &mut Listing<impl Write>,
) -> io::Result<bool> {
    let mut lines = Lines { context, listing };
    match items {
        Items::Names(items) => items.iter().try_for_each(|item| lines.names(item)),
        Items::Linking(items) => items.iter().try_for_each(|item| lines.linking(item)),
        Items::Producers(fields) => fields.iter().try_for_each(|(field, values)| {
            let mut values = values.iter();
            values.try_for_each(|(name, version)| lines.producer(field, name, version))
        }),
        Items::TargetFeatures(features) => features
            .iter()
            .try_for_each(|(prefix, name)| lines.feature(*prefix, name)),
        Items::Hints(functions) => functions.iter().try_for_each(|(function, hints)| {
            let mut hints = hints.iter();
            hints.try_for_each(|hint| lines.hint(*function, hint))
        }),
        Items::InstructionFrequencies(functions) => {
            functions.iter().try_for_each(|(function, hints)| {
                let mut hints = hints.iter();
                hints.try_for_each(|it| lines.frequency(*function, it.offset, it.value.0))
            })
        }
        Items::CompilationOrders(functions) => {
            functions.iter().try_for_each(|(function, hints)| {
                let mut hints = hints.iter();
                hints.try_for_each(|it| lines.order(*function, it.offset, &it.value))
            })
        }
        Items::CallTargets(functions) => functions.iter().try_for_each(|(function, hints)| {
            hints.iter().try_for_each(|it| {
                let mut targets = it.value.iter();
                targets.try_for_each(|target| lines.call_target(*function, it.offset, target))
            })
        }),
        Items::Dylink(items) => items.iter().try_for_each(|item| lines.dylink(item)),
        Items::Relocations {
            section,
            relocations,
            ..
        } => {
            lines.relocated(*section)?;
            let of = context.section(*section);
            let mut patches = relocations.iter().map(|it| Patch::new(*it, of, context));
            patches.try_for_each(|patch| lines.relocation(&patch))
        }
        Items::SourceMappingUrl(url) => lines.named("source map", url),
        Items::ExternalDebugInfo(path) => lines.named("debug file", path),
        Items::BuildId(bytes) => {
            let digits: String = bytes.iter().map(|byte| format!("{byte:02x}")).collect();
            lines.named("build", &digits)
        }
        Items::Core(process) => lines.named("process", process),
        Items::CoreModules(modules) => (0..)
            .zip(modules.iter())
            .try_for_each(|(index, name)| lines.own("module", index, name, Content::default())),
        Items::CoreInstances(instances) => (0..)
            .zip(instances.iter())
            .try_for_each(|(index, instance)| lines.instance(index, instance)),
        Items::CoreStack { thread, frames } => {
            lines.named("thread", thread)?;
            let mut frames = (0..).zip(frames.iter());
            frames.try_for_each(|(index, frame)| lines.frame(index, frame))
        }
        _ => return Ok(false),
    }?;
    Ok(true)
}

/// The values, with a space before each.
fn spaced<T: Display>(values: impl IntoIterator<Item = T>) -> String {
    let values = values.into_iter();
    values.map(|value| format!(" {value}")).collect()
}

/// A value of a core dump.
fn core_text(value: &CoreDumpValue) -> String {
    match value {
        CoreDumpValue::Missing => "missing".into(),
        CoreDumpValue::I32(value) => format!("(i32 {value})"),
        CoreDumpValue::I64(value) => format!("(i64 {value})"),
        CoreDumpValue::F32(value) => format!("(f32 {})", Float::from(*value)),
        CoreDumpValue::F64(value) => format!("(f64 {})", Float::from(*value)),
    }
}

fn core_value<'a>(value: &CoreDumpValue) -> Value<'a> {
    match value {
        CoreDumpValue::Missing => object! { "kind": "missing" },
        CoreDumpValue::I32(value) => object! { "kind": "i32", "value": *value },
        CoreDumpValue::I64(value) => object! { "kind": "i64", "value": *value },
        CoreDumpValue::F32(value) => Float::from(*value).value(),
        CoreDumpValue::F64(value) => Float::from(*value).value(),
    }
}

/// An instance of a core dump: its module, its memories and its globals.
type Instance = (u32, fallible::Vec<u32>, fallible::Vec<u32>);

/// The words of the flags of a segment. Tool conventions, Linking.
const SEGMENT_FLAGS: [(u32, &str); 3] = [(1, "strings"), (2, "tls"), (4, "retain")];

/// The words of the flags of exports and imports of a dynamic library. They are those of symbols.
const DYLINK_FLAGS: [(u32, &str); 3] = [
    (SymbolTable::WASM_SYM_BINDING_WEAK, "weak"),
    (SymbolTable::WASM_SYM_UNDEFINED, "undefined"),
    (0x100, "tls"),
];

/// The words of the flags that are set.
fn words(flags: u32, names: &'static [(u32, &'static str)]) -> impl Iterator<Item = &'static str> {
    let set = names.iter().filter(move |(flag, _)| flags & flag != 0);
    set.map(|(_, word)| *word)
}

/// Flags as text and as members.
struct Flags(u32, &'static [(u32, &'static str)]);

impl Flags {
    fn text(&self) -> String {
        format!("flags {:#x}{}", self.0, spaced(words(self.0, self.1)))
    }

    /// The members, after others.
    fn after<'a>(&self, mut members: Members<'a>) -> Members<'a> {
        let words = words(self.0, self.1);
        members.extend(members! { "flags": self.0, "flag_words": Value::list(words) });
        members
    }
}

/// Prints the items of custom sections, which have no offsets.
struct Lines<'l, 'c, W: Write> {
    context: &'c Context<'c>,
    listing: &'l mut Listing<W>,
}

impl<'c, W: Write> Lines<'_, 'c, W> {
    /// Prints an item that has only a name.
    fn named(&mut self, kind: &'static str, name: &str) -> io::Result<()> {
        self.titled(kind, name, Content::default())
    }

    /// Prints an item that has a name and no index.
    fn titled(&mut self, kind: &'static str, name: &str, content: Content<'_>) -> io::Result<()> {
        self.listing.item(Item {
            kind,
            title: Some(Title::Own(name)),
            content,
            ..Item::default()
        })
    }

    /// Prints an item that has an index and a name of its own.
    fn own(
        &mut self,
        kind: &'static str,
        index: u32,
        name: &str,
        content: Content<'_>,
    ) -> io::Result<()> {
        self.listing.item(Item {
            kind,
            index: Some(index),
            title: Some(Title::Own(name)),
            content,
            ..Item::default()
        })
    }

    /// Prints an item that is about an entry. JSON has another kind for it.
    fn about(
        &mut self,
        class: &'static str,
        entry: Entry<'_>,
        content: Content<'_>,
    ) -> io::Result<()> {
        self.listing.item(Item {
            kind: entry.kind,
            class: Some(class),
            index: Some(entry.index),
            title: Some(Title::Entry(entry.name)),
            content,
            ..Item::default()
        })
    }

    /// Prints an item that has an index and no name.
    fn indexed(&mut self, kind: &'static str, index: u32, content: Content<'_>) -> io::Result<()> {
        self.listing.item(Item {
            kind,
            index: Some(index),
            content,
            ..Item::default()
        })
    }

    /// Prints an item that has neither an index nor a name.
    fn plain(&mut self, kind: &'static str, content: Content<'_>) -> io::Result<()> {
        self.listing.item(Item {
            kind,
            content,
            ..Item::default()
        })
    }

    /// Prints that the program has no lines for a case of the library.
    fn other(&mut self, kind: &'static str) -> io::Result<()> {
        let content = self.listing.content(|| OTHER.into(), Members::new);
        self.plain(kind, content)
    }

    // ---- names, producers, features and hints

    fn name(
        &mut self,
        of: &'static str,
        index: Option<u32>,
        name: &str,
        content: Content<'_>,
    ) -> io::Result<()> {
        self.listing.item(Item {
            kind: of,
            class: Some("name"),
            index,
            title: Some(Title::Own(name)),
            content,
            ..Item::default()
        })
    }

    fn names(&mut self, item: &NameItem<'_>) -> io::Result<()> {
        match item {
            NameItem::Module(name) => self.name("module", None, name, Content::default()),
            NameItem::Map { id, names } => {
                let of = Space::of_names(*id).map_or("entry", Space::word);
                names.iter().try_for_each(|(index, name)| {
                    self.name(of, Some(*index), name, Content::default())
                })
            }
            NameItem::Indirect { id, maps } => {
                let (outer, inner) = match id {
                    2 => ("function", "local"),
                    3 => ("function", "label"),
                    10 => ("type", "field"),
                    _ => ("entry", "name"),
                };
                maps.iter().try_for_each(|(of, names)| {
                    names.iter().try_for_each(|(index, name)| {
                        let content = self.listing.content(
                            || format!("of {outer} {of}"),
                            || members! { "in": object! { "kind": outer, "index": *of } },
                        );
                        self.name(inner, Some(*index), name, content)
                    })
                })
            }
            NameItem::Other { id, bytes } => self.unknown(*id, bytes),
            _ => self.other("subsection"),
        }
    }

    /// Prints a subsection of an unknown id.
    fn unknown(&mut self, id: u8, bytes: &[u8]) -> io::Result<()> {
        let content = self.listing.content(
            || format!("of {} bytes", bytes.len()),
            || members! { "size": bytes.len() },
        );
        self.indexed("subsection", u32::from(id), content)
    }

    fn producer(&mut self, field: &str, name: &str, version: &str) -> io::Result<()> {
        let content = self.listing.content(
            || format!("(version {version:?}) (field {field:?})"),
            || members! { "version": version, "field": field },
        );
        self.titled("producer", name, content)
    }

    fn feature(&mut self, prefix: FeaturePrefix, name: &str) -> io::Result<()> {
        let word = match prefix {
            FeaturePrefix::Used => "used",
            FeaturePrefix::Disallowed => "disallowed",
            FeaturePrefix::Required => "required",
            _ => OTHER,
        };
        let content = self
            .listing
            .content(|| word.into(), || members! { "prefix": word });
        self.titled("feature", name, content)
    }

    fn hint(&mut self, function: u32, hint: &BranchHint) -> io::Result<()> {
        let is_likely = hint.branch_hint_value != 0;
        let offset = hint.branch_func_offset;
        let content = self.listing.content(
            || {
                let word = if is_likely { "likely" } else { "unlikely" };
                format!("offset {offset:#x} {word}")
            },
            || members! { "body_offset": offset, "likely": is_likely },
        );
        let entry = self.context.entry(Space::Function, function);
        self.about("branch hint", entry, content)
    }

    fn frequency(&mut self, function: u32, offset: u32, frequency: u8) -> io::Result<()> {
        let content = self.listing.content(
            || format!("offset {offset:#x} frequency {frequency}"),
            || members! { "body_offset": offset, "frequency": u32::from(frequency) },
        );
        let entry = self.context.entry(Space::Function, function);
        self.about("instruction frequency", entry, content)
    }

    fn order(&mut self, function: u32, offset: u32, order: &CompilationOrder) -> io::Result<()> {
        let CompilationOrder { order, hotness, .. } = *order;
        let content = self.listing.content(
            || {
                let hotness = hotness.map(|it| format!(" hotness {it}"));
                format!(
                    "offset {offset:#x} order {order}{}",
                    hotness.unwrap_or_default()
                )
            },
            || members! { "body_offset": offset, "order": order, "hotness": hotness },
        );
        let entry = self.context.entry(Space::Function, function);
        self.about("compilation order", entry, content)
    }

    fn call_target(&mut self, function: u32, offset: u32, target: &CallTarget) -> io::Result<()> {
        let (percent, index) = (target.percent, target.function_index);
        let called = self.context.entry(Space::Function, index);
        let content = self.listing.content(
            || format!("offset {offset:#x} calls function {called} {percent}%"),
            || members! { "body_offset": offset, "target": called, "percent": percent },
        );
        let entry = self.context.entry(Space::Function, function);
        self.about("call target", entry, content)
    }

    // ---- object files and dynamic libraries

    /// Prints which section the relocations are of.
    fn relocated(&mut self, section: u32) -> io::Result<()> {
        let entry = self.context.section_entry(section);
        self.about("relocated section", entry, Content::default())
    }

    fn relocation(&mut self, patch: &Patch<'_>) -> io::Result<()> {
        let content = self.listing.content(|| patch.text(), || patch.members());
        self.plain("relocation", content)
    }

    fn linking(&mut self, item: &LinkItem<'_>) -> io::Result<()> {
        match item {
            LinkItem::Segments(segments) => (0..)
                .zip(segments.iter())
                .try_for_each(|(index, it)| self.segment(index, it)),
            LinkItem::InitFunctions(functions) => functions.iter().try_for_each(|function| {
                let priority = function.priority;
                let content = self.listing.content(
                    || format!("priority {priority}"),
                    || members! { "priority": priority },
                );
                let symbol = symbol_entry(self.context, function.symbol);
                self.listing.item(Item {
                    kind: "init symbol",
                    index: Some(symbol.index),
                    title: Some(Title::Entry(symbol.name)),
                    content,
                    ..Item::default()
                })
            }),
            LinkItem::Comdats(comdats) => comdats.iter().try_for_each(|it| self.comdat(it)),
            LinkItem::Symbols(symbols) => (0..)
                .zip(symbols.iter())
                .try_for_each(|(index, it)| self.symbol(index, it)),
            LinkItem::Arch(name) => self.named("architecture", name),
            LinkItem::Other { id, bytes } => self.unknown(*id, bytes),
            _ => self.other("subsection"),
        }
    }

    fn segment(&mut self, index: u32, segment: &SegmentInfo<'_>) -> io::Result<()> {
        let alignment = segment.alignment;
        let flags = Flags(segment.flags, &SEGMENT_FLAGS);
        let content = self.listing.content(
            || format!("align 2^{alignment} {}", flags.text()),
            || flags.after(members! { "align_log2": alignment }),
        );
        self.own("segment", index, segment.name, content)
    }

    fn comdat(&mut self, comdat: &Comdat<'_>) -> io::Result<()> {
        let flags = Flags(comdat.flags, &[]);
        let of = |kind: u8, index: u32| member_of(self.context, kind, index);
        let entries: Vec<Entry<'_>> = (comdat.symbols.iter())
            .map(|it| of(it.kind, it.index))
            .collect();
        let content = self.listing.content(
            || flags.text(),
            || flags.after(members! { "members": Value::list(entries.iter().copied()) }),
        );
        self.titled("comdat", comdat.name, content)?;
        if self.listing.is_json() {
            return Ok(());
        }
        entries.into_iter().try_for_each(|entry| {
            let text = format!("of comdat {:?}", comdat.name);
            self.about("", entry, Content::Text(text))
        })
    }

    fn symbol(&mut self, index: u32, symbol: &Symbol<'_>) -> io::Result<()> {
        let shown = Shown::new(symbol, self.context);
        if !self.listing.is_json() {
            let content = Content::Text(shown.to_string());
            return self.indexed("symbol", index, content);
        }
        self.listing.item(Item {
            kind: "symbol",
            index: Some(index),
            title: Some(Title::Entry(shown.name())),
            content: Content::Json(shown.members()),
            ..Item::default()
        })
    }

    fn dylink(&mut self, item: &DylinkItem<'_>) -> io::Result<()> {
        match item {
            DylinkItem::Memory(it) => {
                self.requirement("memory", it.memory_size, it.memory_alignment)?;
                self.requirement("table", it.table_size, it.table_alignment)
            }
            DylinkItem::Needed(names) => {
                let mut names = names.iter();
                names.try_for_each(|name| self.named("needed", name))
            }
            DylinkItem::ExportFlags(exports) => exports.iter().try_for_each(|it| {
                let flags = Flags(it.flags, &DYLINK_FLAGS);
                let content = self
                    .listing
                    .content(|| flags.text(), || flags.after(Members::new()));
                self.flagged("export", it.name, content)
            }),
            DylinkItem::ImportFlags(imports) => imports.iter().try_for_each(|it| {
                let (module, flags) = (it.module_name, Flags(it.flags, &DYLINK_FLAGS));
                let content = self.listing.content(
                    || format!("of {module:?} {}", flags.text()),
                    || flags.after(members! { "module": module }),
                );
                self.flagged("import", it.name, content)
            }),
            DylinkItem::RuntimePath(paths) => {
                let mut paths = paths.iter();
                paths.try_for_each(|path| self.named("runtime path", path))
            }
            DylinkItem::Other { id, bytes } => self.unknown(*id, bytes),
            _ => self.other("subsection"),
        }
    }

    /// Prints the size and alignment that a dynamic library needs of a memory or a table.
    fn requirement(&mut self, of: &'static str, size: u32, alignment: u32) -> io::Result<()> {
        let content = self.listing.content(
            || format!("size {size} align 2^{alignment}"),
            || members! { "size": size, "align_log2": alignment },
        );
        self.listing.item(Item {
            kind: of,
            class: Some("requirement"),
            content,
            ..Item::default()
        })
    }

    /// Prints the flags of an export or import of a dynamic library.
    fn flagged(&mut self, kind: &'static str, name: &str, content: Content<'_>) -> io::Result<()> {
        self.listing.item(Item {
            kind,
            class: Some("flags"),
            title: Some(Title::Own(name)),
            content,
            ..Item::default()
        })
    }

    // ---- core dumps

    fn instance(&mut self, index: u32, instance: &Instance) -> io::Result<()> {
        let (module, memories, globals) = instance;
        let content = self.listing.content(
            || {
                let (memories, globals) = (spaced(memories.iter()), spaced(globals.iter()));
                format!("(module {module}) (memories{memories}) (globals{globals})")
            },
            || {
                members! {
                    "module": *module,
                    "memories": Value::list(memories.iter().copied()),
                    "globals": Value::list(globals.iter().copied()),
                }
            },
        );
        self.indexed("instance", index, content)
    }

    fn frame(&mut self, index: u32, frame: &CoreFrame) -> io::Result<()> {
        let (instance, function, offset) = (frame.instanceidx, frame.funcidx, frame.codeoffset);
        let content = self.listing.content(
            || {
                let [locals, stack] =
                    [&frame.locals, &frame.stack].map(|it| spaced(it.iter().map(core_text)));
                format!(
                    "(instance {instance}) (func {function}) (offset {offset}) (locals{locals}) (stack{stack})"
                )
            },
            || {
                members! {
                    "instance": instance,
                    "function": function,
                    "code_offset": offset,
                    "locals": Value::list(frame.locals.iter().map(core_value)),
                    "stack": Value::list(frame.stack.iter().map(core_value)),
                }
            },
        );
        self.indexed("frame", index, content)
    }
}

/// A member of a COMDAT group. Tool conventions, Linking, COMDATs.
fn member_of<'c>(context: &'c Context<'c>, kind: u8, index: u32) -> Entry<'c> {
    match kind {
        0 => context.entry(Space::Data, index),
        1 => context.entry(Space::Function, index),
        2 => context.entry(Space::Global, index),
        3 => context.entry(Space::Tag, index),
        4 => context.entry(Space::Table, index),
        5 => context.section_entry(index),
        _ => Entry {
            kind: "entry",
            index,
            name: None,
        },
    }
}
