"""Tests of tools/drop-in: a proved sink that the table does not fit, the enum's match, doc
comments, rows of calls at the root that the tool must stop at, the contracts of these calls, code by
hand that writes bytes, and changed files."""
from __future__ import annotations

import pathlib
import re
import tempfile

from ..drop_in.calls_file import documentation as documentation_of_call
from ..drop_in.cases import Case, proved_calls, read
from ..drop_in import exports, own_types, root_table
from ..drop_in.command import SINK, by_hand, root_files
from ..drop_in.command import main as main_of_tool
from ..drop_in.effects import effect_of
from ..drop_in.enum_file import documentation, instruction_file
from ..drop_in.own_bytes import ALLOWED, check_writes
from ..drop_in.own_types import own_types_file
from ..drop_in.proved import MODULES, SOURCES, Layer, layer
from ..drop_in.root_file import root_file
from ..drop_in.root_table import Call, calls_of, head_of
from ..drop_in.standard import class_of, field
from ..drop_in.test_file import test_file
from ..errors import Stop
from ..instructions.table import TABLE
from ..repository import TOP, text_of
from ..to_rust.beside import Text
from .report import end, report, usage_of

USAGE = usage_of("drop-in")


def cases() -> list[Case]:
    return read(text_of(TOP / TABLE))


def proved_trouble() -> str | None:
    """A proved call with other parameters stops the tool, and so does one that no line has."""
    text = text_of(TOP / SINK)
    for changed in (text.replace("fn br(&mut self, label: u32)", "fn br(&mut self)"), text.replace("fn nop(", "fn noop(")):
        if changed == text:
            return "the text is not there"
        try:
            proved_calls(cases(), changed)
        except Stop:
            continue
        return "it was not stopped at"
    return None


def match_trouble() -> str | None:
    """The enum may grow, and the match of the test has an arm for each case and a wildcard."""
    if "#[non_exhaustive]\npub enum Instruction<" not in instruction_file(cases()):
        return "the enum is exhaustive"
    arms = re.search(r"Some\(match instruction \{\n(.*?)        _ => return None,\n", test_file(cases()), re.DOTALL)
    named = re.findall(r"Instruction::(\w+)", arms.group(1)) if arms else []
    return None if named and sorted(named) == sorted(it.name for it in cases()) else "the match has other cases than the table"


# The first line of the doc comment of cases, by hand.
SAID = {
    "BrTable": "`br_table` (opcode 0x0E), a control instruction that branches to one of several labels, selected by an index.",
    "I32Add": "`i32.add` (opcode 0x6A), a numeric instruction that adds two integers.",
    "Try": "`try` (opcode 0x06), a control instruction of the legacy exception handling proposal that begins a block with handlers of exceptions.",
    "RefTestNullable": "`ref.test (ref null ht)` (opcode 0xFB 21), a reference instruction that tests whether a reference has a type.",
    "I16x8Abs": "`i16x8.abs` (opcode 0xFD 128), a vector instruction that computes the absolute value of each lane of a vector.",
    "I32AtomicRmw8AddU": "`i32.atomic.rmw8.add_u` (opcode 0xFE 32), an atomic instruction of the threads proposal that adds to a number in a memory, and returns the old value.",
    "StructAtomicRmwXor": "`struct.atomic.rmw.xor` (opcode 0xFE 100), an instruction of the shared-everything threads proposal that sets a field of a structure to its bitwise exclusive or with an operand, and returns the old value.",
}


def said_trouble() -> str | None:
    """A doc comment has the name, the opcode, the class and the effect. A call that takes its
    arguments in another order than its bytes says so. An opcode without a class stops the tool, and
    so does an unknown field or name."""
    by_name = {it.name: it for it in cases()}
    wrong = [name for name, line in SAID.items() if documentation(by_name[name])[0] != line]
    if wrong:
        return "other lines: %s" % ", ".join(wrong)
    if not documentation(by_name["BrTable"])[1].endswith(", with the immediates `labels` and `default`."):
        return "the names of the immediates are missing"
    if "The encoding has `type_index` before `table_index`." not in documentation_of_call(by_name["CallIndirect"], {}):
        return "the order of the bytes is missing"
    if "# Panics" not in documentation_of_call(by_name["BrTable"], {}) or "# Panics" in documentation_of_call(by_name["TypedSelect"], {}):
        return "another call panics"
    unknown = by_name["I32Add"]
    unknown.code = 0xFF
    for stops in (lambda: class_of(unknown), lambda: field("depth"), lambda: effect_of("i32.frobnicate")):
        try:
            stops()
        except Stop:
            continue
        return "it was not stopped at"
    return None


# A file of the proved layer.
PROVED = """/// A list.
pub type List<A = Global> = Counted<Items, Pieces<A>>;

impl<K, S: Store> Counted<K, S> {
    /// Returns the number of entries.
    ///
    /// # Proved
    #[inline]
    pub fn len(&self) -> u32 {
        self.entries.len()
    }
}

impl<S: Store> Counted<Items, S>
where
    S: Copy,
{
    pub(crate) fn add<T: Into<u8>, F: Fn(u8) -> T>(
        &mut self,
        mut item: T,
        given: (u8, F),
    ) -> Result<()>
    where
        T: Copy,
    {
        Ok(())
    }
}

impl Encode for Items {
    fn encode(&self) {}
}

pub fn sum_of(items: &[u8]) -> Result<u8> {
    Ok(0)
}
"""


def layer_trouble() -> str | None:
    """Calls of impls are those of the types that aliases name, and impls of traits have none."""
    known = Layer([PROVED])
    add, length, total = known.call("List", "add"), known.call("List", "len"), known.of_part("sum_of")
    if (add.parameters, add.returns, add.is_public) != ([("item", "T"), ("given", "(u8, F)")], "Result<()>", False):
        return f"another call: {add}"
    if (length.docs, length.can_fail(), total.can_fail()) != (["Returns the number of entries.", "", "# Proved"], False, True):
        return f"other calls: {length}, {total}"
    for of, name in (("List", "encode"), ("Lists", "add"), ("List", "sum_of")):
        try:
            known.call(of, name)
        except Stop:
            continue
        return f"{of} has {name}"
    return None


# Calls of the root, each with a part of the message that it stops the tool with.
STOPPED = (
    ("Export\tfn export(&mut self)\tself.0.len()", "the root has no such type"),
    ("TagSection\tfn tags(&mut self)\tself.0.tags()", "no proved call"),
    ("TagSection\tfn len(&self) -> u32\ttags.len()", "no proved call"),
    ("TagSection\tfn len(&self) -> u32\tself.count()", "TagSection has no count"),
    ("TagSection\tfn tag(&mut self, tag_type: TagType)\tdone(self.0.tag())", "the argument tag_type is not used"),
    ("TagSection\tfn tag(&mut self)\tself.0.tag().ok()", "tag returns an error"),
    ("TagSection\tfn len(&self) -> u32\tdone(self.0.len())", "len returns no error"),
    ("TagSection\tfn len(&self) -> u32\tself.0.len()\t#[cold]", "unknown attribute"),
    ("TagSection TagSection\tfn len(&self) -> u32\tself.0.len()", "it has two rows"),
    ("TagSection\tfn len(&self) -> u32", "2 columns"),
    ("TagSection\tfn len -> u32\tself.0.len()", "no call: fn len -> u32"),
)


def calls(line: str) -> list[Call]:
    """Returns the calls of a table of one line."""
    root = frozenset(it.name for it in exports.read(text_of(TOP / exports.TABLE)))
    rows = root_table.read(f"{root_table.HEAD}\n{line}\n", root)
    return calls_of(rows, layer(TOP), set())


def rows_trouble() -> str | None:
    """A row that the tool does not know stops it, with the line, and so does a text of no row."""
    for line, message in STOPPED:
        try:
            calls(line)
        except Stop as stop:
            if message not in str(stop) or not str(stop).startswith(f"{root_table.TABLE}:2: "):
                return f"it stopped with: {stop}"
        else:
            return f"it was not stopped at: {line}"
    try:
        root_file(calls("TagSection\tfn len(&self) -> u32\tself.0.len()"), {"TagSection::tags": Text("root.md:1")}, frozenset())
    except Stop as stop:
        return None if str(stop) == "root.md:1: no row has TagSection::tags" else f"it stopped with: {stop}"
    return "it was not stopped at a text of no row"


# Parts of a file of one call: the words for a user, the contract of the proved call, and the code.
WRITTEN = (
    "    /// Adds a global that is already encoded. The call does not check that it is one.\n    ///\n    /// A text.\n",
    "Panics if the builder has 4294967295 entries. A failed allocation ends the program.",
    "The contract of [`fallible::GlobalSection::raw`](crate::fallible::GlobalSection#method.raw), which this call makes.",
    "Where that returns an error, this call panics. In the clauses, `S` is [`Entries`](crate::fallible::Entries), and `global` is `data`.",
    "ensures { AddsTo S.model global.now ⊤ self.old self.new result }\n",
    '    #[doc(alias = "word")]\n    #[inline]\n    pub fn raw(&mut self, data: &[u8]) -> &mut Self {\n        done(self.0.raw(data));\n        self\n',
)


def unwrapped(text: str) -> str:
    """Returns a file with each paragraph of its doc comments as one line."""
    return re.sub(r"(?<=[^/\s{])\n +/// (?=[\w\[])", " ", text)


def contract_trouble() -> str | None:
    """A call at the root has the contract of its proved call, and its text. One that makes another
    proved call says so."""
    row = calls("GlobalSection\tfn raw(&mut self, data: &[u8]) -> &mut Self\tdone(self.0.raw(data))\t#[inline]")
    text = unwrapped(root_file(row, {"GlobalSection::raw": Text("", ["word"], {}, ["A text."])}, frozenset()))
    for part in WRITTEN:
        if part not in text:
            return f"it does not have {part}"
    row = calls("GlobalSection\tfn global(&mut self, ty: GlobalType, init: &ConstExpr)\tdone(self.0.add_record(&(ty, Lent(init))))")
    if "This call does the same, as tests show." not in unwrapped(root_file(row, {}, frozenset())):
        return "it does not say that another call is proved"
    # Only the proved call says which items it requests.
    for made, said in (("struct_(fields)", True), ("section.add_once(fields)", False)):
        row = calls(f"CoreTypeEncoder\tfn struct_(self, fields: F)\tdone(self.0.{made})")
        if ("the call panics and requests none" in unwrapped(root_file(row, {}, frozenset()))) != said:
            return f"other words of the order of requests: {made}"
    if head_of("", "fn f<T>(self, list: [T; 2]) -> Map<u8, T> where T: Fn(u8) -> u8, T: Copy")[5:] != ("Map<u8, T>", ["T: Fn(u8) -> u8", "T: Copy"]):
        return "another signature"
    return None if "impl TagSection {" in root_files(TOP)["rust/src/drop_in/root_calls.rs"] else "the table has no calls of tags"


def exports_trouble() -> str | None:
    """The root exports each name once, with its words. Only its own names have texts there."""
    head = exports.HEAD + "\n"
    named = exports.read(head + "Tag\tkinds\tevent, throw\nTags\tcrate::base\n")
    if not exports.names_file(named).endswith('#[doc(alias = "event")]\n#[doc(alias = "throw")]\npub use super::kinds::Tag;\npub use crate::base::Tags;\n'):
        return "other exports"
    text = Text("", [], {}, ["A tag, [`Tags`], [`Tag::new`], [`u8`] or [`Tags`](Tag)."])
    said = "A tag, [`Tags`](super::Tags), [`Tag::new`](super::Tag::new), [`u8`] or [`Tags`](Tag)."
    if f'    (Tag) => {{\n        r##"{said}"##\n    }};\n' not in exports.texts_file(named, {"Tag": text, "Tag::new": Text("")}):
        return "another text"
    stopped = (
        lambda: exports.read(head + "Tag\tkinds\nTag\tkinds\n"),
        lambda: exports.read(head + "Tag\n"),
        lambda: exports.texts_file(named, {"Tags": Text("")}),
        lambda: exports.texts_file(named, {"Tag": Text("", ["event"])}),
    )
    for place, stops in enumerate(stopped):
        try:
            stops()
        except Stop:
            continue
        return f"case {place} was not stopped at"
    return None


# A proved type and an enum, and the types of the root of their names.
OWNED = """/// Parts.
#[derive(Debug)]
pub struct Parts<'a, A: Allocator = Global> {
    /// The kind.
    pub kind: Kind,
    /// The bytes.
    pub bytes: CowSlice<'a, u8, A>,
    pub fields: Vec<FieldType, A>,
}

pub enum Kind {
    #[doc(alias = "word")]
    Types = 0,
}

pub struct Named<'a, A: Allocator = Global> {
    pub name: CowStr<'a, A>,
}

pub enum Cases {
    Func(FuncType<A>),
    Of {
        kind: Kind,
        number: u32,
    },
    None,
}
"""
OWN = """#[doc = text!(Parts)]
#[derive(Clone)]
pub struct Parts<'a> {
    /// The kind.
    pub kind: Kind,
    /// The bytes.
    pub data: Cow<'a, [u8]>,
    pub fields: Box<[FieldType]>,
}

impl<'a> From<Parts<'a>> for base::Parts<'a, Root> {
    #[inline]
    fn from(value: Parts<'a>) -> Self {
        Self {
            kind: value.kind.into(),
            bytes: match value.data { Cow::Borrowed(it) => CowSlice::Borrowed(it), Cow::Owned(it) => CowSlice::Owned(Vec::from(it).into_ending()) },
            fields: value.fields.into_vec().into(),
        }
    }
}

/// Encodes a copy that is converted.
impl crate::Encode for Parts<'_> {
    #[inline]
    fn encode(&self, sink: &mut alloc_crate::vec::Vec<u8>) {
        append(&base::Parts::from(self.clone()), sink)
    }
}

#[doc = text!(Kind)]
#[derive(Copy)]
#[repr(u8)]
pub enum Kind {
    Type = 0,
}

impl From<base::Kind> for Kind {
    #[inline]
    fn from(value: base::Kind) -> Self {
        match value {
            base::Kind::Types => Self::Type,
        }
    }
}

#[doc = text!(Named)]
#[derive(Clone)]
pub struct Named<'a> {
    pub name: Cow<'a, str>,
}

impl<'a> From<base::Named<'a>> for Named<'a> {
    #[inline]
    fn from(value: base::Named<'a>) -> Self {
        Self {
            name: match value.name { CowStr::Borrowed(it) => Cow::Borrowed(it), CowStr::Owned(it) => Cow::Owned(it.as_str().into()) },
        }
    }
}

#[doc = text!(Cases)]
#[derive(Clone)]
pub enum Cases {
    Func(FuncType),
    Of {
        kind: Kind,
        number: u32,
    },
    None,
}

impl From<Cases> for base::Cases {
    #[inline]
    fn from(value: Cases) -> Self {
        match value {
            Cases::Func(it) => Self::Func(it.0),
            Cases::Of { kind, number } => Self::Of { kind: kind.into(), number },
            Cases::None => Self::None,
        }
    }
}
"""


def own_types_trouble() -> str | None:
    """A type of the root has the members of the proved one, without its allocator. A row that fits
    no proved type stops the tool, with the line."""
    table = own_types.HEAD + "\nParts\tbase\tClone\tbytes=data\tto Root, encode\nKind\tbase\tCopy\tTypes=Type\tfrom\nNamed\tbase\tClone\t\tfrom\nCases\tbase\tClone\t\tto\n"
    written = lambda table: own_types_file(own_types.read(table), {"base": [OWNED]}, frozenset({"FieldType", "Kind"}))
    text = written(table)
    heads = "use super::FieldType;\nuse super::bytes::append;\nuse crate::base;\nuse crate::base::{CowSlice, CowStr};\nuse crate::ending::Root;\n"
    heads += "use crate::vec::Vec;\nuse alloc_crate::borrow::Cow;\nuse alloc_crate::boxed::Box;\n\n"
    if not text.endswith(heads + OWN):
        return f"another file: {text}"
    for old, new, message in (("Kind", "Kinds", "0 definitions"), ("Types=Type", "Type=Types", "no member Type becomes"), ("from", "into", "unknown"), ("\t\tfrom", "\t\tto", "no conversion of CowStr"), ("\tCopy", "", "no names"), ("type\t", "", "columns")):
        try:
            written(table.replace(old, new))
        except Stop as stop:
            if message not in str(stop):
                return f"it stopped with: {stop}"
        else:
            return f"it was not stopped at {new}"
    return None


# Lines that write bytes. None is in the list of those that may.
PLANTED = (
    "sink.push(0);", "sink.push_reserved(id);", "self.bytes.extend(bytes);", "dst.extend_from_slice(&data);", "self.count += 1;",
    "let bytes = value.to_le_bytes();", "let mark = 0x40;", "(0x00u8, name).encode(sink)", "(64_u8, name).encode(sink)", "const MARK: u8 = 64;", "let head = *b\"\\0asm\";", "sink.insert(0, id);", "let end = b'\\x0B';",
)


def own_bytes_trouble() -> str | None:
    """A line by hand that writes bytes stops the tool, and so does a function that may and does not."""
    files, rows = by_hand(TOP), text_of(TOP / root_table.TABLE)
    check_writes(files, rows)
    path = "rust/src/drop_in/sections.rs"
    for line in PLANTED:
        try:
            check_writes({**files, path: files[path] + f"fn planted() {{\n    {line}\n}}\n"}, rows)
        except Stop as stop:
            if not str(stop).startswith(f"{path}:") or "writes bytes" not in str(stop):
                return f"it stopped with: {stop}"
        else:
            return f"it was not stopped at: {line}"
    said = 'fn said() {\n    // sink.push(0x40)\n    panic!("0x40") // += 1\n}\n'
    check_writes({**files, path: files[path] + said}, rows)
    try:
        check_writes(files, rows + "Function\tfn mark(&mut self)\tself.bytes.push(0)\n")
    except Stop as stop:
        if "Function::mark writes bytes" not in str(stop):
            return f"it stopped with: {stop}"
    else:
        return "it was not stopped at a row"
    for changed in ALLOWED:
        try:
            check_writes({path: text for path, text in files.items() if path != changed[0]}, rows if changed[0] in files else "")
        except Stop:
            continue
        return f"{changed} may write bytes without need"
    return None


def copy_inputs(top: pathlib.Path) -> None:
    """Copies what the tool reads."""
    paths = [TABLE, SINK, root_table.TABLE, exports.TABLE, exports.TEXTS, own_types.TABLE, *by_hand(TOP)]
    paths += [it.relative_to(TOP).as_posix() for module in MODULES for it in (TOP / SOURCES / module).glob("*.rs")]
    for path in paths:
        (top / path).parent.mkdir(parents=True, exist_ok=True)
        (top / path).write_bytes((TOP / path).read_bytes())


def check_trouble() -> str | None:
    """`--check` reports missing and changed files."""
    with tempfile.TemporaryDirectory() as folder:
        top = pathlib.Path(folder)
        copy_inputs(top)
        found = [main_of_tool(words, USAGE, top) for words in (["--check"], [], ["--check"])]
        written = top / "rust/src/drop_in/calls.rs"
        written.write_text(re.sub("br_if", "br_unless", text_of(written)), encoding="utf-8")
        found += [main_of_tool(words, USAGE, top) for words in (["--check"], ["--check", "again"])]
    return None if found == [1, 0, 0, 1, 2] else f"the answers were {found}"


def main() -> int:
    """Runs the tests."""
    troubles = {
        "touched files": check_trouble, "the proved sink": proved_trouble, "matches": match_trouble, "doc comments": said_trouble,
        "the proved layer": layer_trouble, "rows of calls at the root": rows_trouble, "contracts at the root": contract_trouble, "names of the root": exports_trouble, "types of the root": own_types_trouble, "bytes by hand": own_bytes_trouble,
    }
    return end([report("drop-in-test", name, trouble()) for name, trouble in troubles.items()])
