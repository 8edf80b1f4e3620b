"""The types of the root that have the members of a proved type, by tools/root-types.tsv. The head of
tools/drop-in has the columns."""
from __future__ import annotations

import re
from collections.abc import Callable, Iterator
from dataclasses import dataclass

from ..errors import Stop
from .root_file import imported

TABLE = "tools/root-types.tsv"
HEAD = "type\tmodule\tderives\trenamed\tconversions"
FILE_HEAD = """// Written by tools/drop-in from %s and the proved types: change these.
//! The root's own types that have the members of a proved type, without its allocator.

""" % TABLE
# The types of members: without the allocator, and with the lists of std.
TYPES = (
    (r"<A>|, A(?=>)", ""),
    (r"\bCowSlice<'a, (.*)>(?=\)?,$)", r"Cow<'a, [\1]>"),
    (r"\bCowStr<'a>", "Cow<'a, str>"),
    (r"\bVec<(.*)>(?=\)?,$)", r"Box<[\1]>"),
)
# The conversion of a member, by its proved type: to that type, and from it. Only an owned name is
# copied.
TO = (
    (r"CowSlice<", "match %s { Cow::Borrowed(it) => CowSlice::Borrowed(it), Cow::Owned(it) => CowSlice::Owned(Vec::from(it).into_ending()) }"),
    (r"Vec<", "%s.into_vec().into()"),
    (r"FuncType<", "%s.0"),
)
FROM = (
    (r"CowSlice<", "match %s { CowSlice::Borrowed(it) => Cow::Borrowed(it), CowSlice::Owned(it) => Cow::Owned(it.into()) }"),
    (r"CowStr<", "match %s { CowStr::Borrowed(it) => Cow::Borrowed(it), CowStr::Owned(it) => Cow::Owned(it.as_str().into()) }"),
)
PATHS = {
    "Box": "alloc_crate::boxed", "Cow": "alloc_crate::borrow", "CowSlice": "crate::base", "CowStr": "crate::base",
    "Root": "crate::ending", "Vec": "crate::vec", "append": "super::bytes",
}
CONVERSIONS = {"", "to", "to Root", "from", "encode"}


@dataclass(frozen=True)
class Own:
    """A row: a type of the root, and what differs from the proved type of its name."""

    where: str
    name: str
    module: str
    derives: str
    renamed: dict[str, str]
    conversions: list[str]


@dataclass(frozen=True)
class Definition:
    """The definition of a proved type: `struct` or `enum`, its generics, and the lines of its
    members."""

    kind: str
    generics: str
    lines: list[str]


def read(text: str) -> list[Own]:
    """Returns the rows of the table."""
    head, *lines = text.rstrip("\n").split("\n")
    if head != HEAD:
        raise Stop("%s:1: other columns" % TABLE)
    rows = []
    for number, line in enumerate(lines, 2):
        where = "%s:%d" % (TABLE, number)
        cells = line.split("\t")
        if not 3 <= len(cells) <= 5 or not all(cells[:3]):
            raise Stop("%s: %d columns" % (where, len(cells)))
        name, module, derives, renamed, conversions = (*cells, "", "")[:5]
        if not set(conversions.split(", ")) <= CONVERSIONS:
            raise Stop("%s: unknown conversion %s" % (where, conversions))
        if renamed and not re.fullmatch(r"\w+=\w+(?:, \w+=\w+)*", renamed):
            raise Stop("%s: no names: %s" % (where, renamed))
        pairs = dict(it.split("=") for it in renamed.split(", ") if it)
        rows.append(Own(where, name, module, derives, pairs, conversions.split(", ") if conversions else []))
    return rows


def definition(own: Own, texts: list[str]) -> Definition:
    """Returns the proved type of a row, which one of the texts of its module defines."""
    form = re.compile(r"^pub (struct|enum) %s(<[^{]*>)? \{\n(.*?)^\}\n" % own.name, re.MULTILINE | re.DOTALL)
    found = [it for text in texts for it in form.finditer(text)]
    if len(found) != 1:
        raise Stop("%s: %s has %d definitions of %s" % (own.where, own.module, len(found), own.name))
    generics = [it for it in (found[0][2] or "")[1:-1].split(", ") if it and not it.startswith("A: Allocator")]
    lines = [line for line in found[0][3].rstrip("\n").split("\n") if not line.lstrip().startswith("#[")]
    return Definition(found[0][1], "<%s>" % ", ".join(generics) if generics else "", lines)


def member(own: Own, line: str) -> str:
    """Returns the line of a member with the types and the name that it has at the root."""
    if line.lstrip().startswith("///"):
        return line
    for form, replacement in TYPES:
        line = re.sub(form, replacement, line)
    for old, new in own.renamed.items():
        line = re.sub(r"\b%s\b(?= = |:)" % old, new, line)
    return line


def expression(own: Own, value: str, ty: str, is_from: bool, rows: set[str]) -> str:
    """Returns a member in the other type: that of a type in the table is converted."""
    if re.match(r"(?:%s)\b" % "|".join(rows), ty):
        return value + ".into()"
    for form, made in FROM if is_from else TO:
        if re.match(form, ty):
            return made % value
    if re.search(r"\bA>$", ty):
        raise Stop("%s: no conversion of %s" % (own.where, ty))
    return value


def cases(proved: Definition) -> Iterator[tuple[str, str, dict[str, str]]]:
    """Yields the cases of an enum: the name, the brackets of its members, and these with their types."""
    name, fields = "", {}
    for line in proved.lines:
        if found := re.fullmatch(r"    (\w+)(?: = \d+)?,", line):
            yield found[1], "", {}
        elif found := re.fullmatch(r"    (\w+)\((.*)\),", line):
            yield found[1], "()", {"it": found[2]}
        elif found := re.fullmatch(r"    (\w+) \{", line):
            name, fields = found[1], {}
        elif found := re.fullmatch(r"        (\w+): (.*),", line):
            fields[found[1]] = found[2]
        elif line == "    },":
            yield name, "{}", fields


def arm(source: str, names: dict[str, str], case: tuple[str, str, dict[str, str]], convert: Callable[[str, str], str]) -> str:
    """Returns the arm of a case."""
    name, brackets, fields = case
    new = names.get(name, name)
    if brackets == "()":
        return "%s::%s(it) => Self::%s(%s)," % (source, name, new, convert("it", fields["it"]))
    if not brackets:
        return "%s::%s => Self::%s," % (source, name, new)
    made = ", ".join(it if convert(it, ty) == it else "%s: %s" % (it, convert(it, ty)) for it, ty in fields.items())
    return "%s::%s { %s } => Self::%s { %s }," % (source, name, ", ".join(fields), new, made)


def converted(own: Own, proved: Definition, rows: set[str], conversion: str) -> str:
    """Returns a conversion of each member, to the proved type or from it."""
    is_from = conversion == "from"
    path = "%s::%s" % (own.module, own.name)
    source, target = (path, own.name) if is_from else (own.name, path)
    convert = lambda value, ty: expression(own, value, ty, is_from, rows)
    pairs = [(own.renamed.get(name, name), name) for name in member_names(proved)]
    names = {old: new for new, old in pairs} if is_from else dict(pairs)
    if proved.kind == "enum":
        of_proved = {old: new for new, old in pairs}
        listed = [it if is_from else (of_proved[it[0]], *it[1:]) for it in cases(proved)]
        body = "        match value {\n%s        }\n" % "".join("            %s\n" % arm(source, names, it, convert) for it in listed)
    else:
        types = {found[1]: found[2] for line in proved.lines if (found := re.match(r"    pub (\w+): (.*),$", line))}
        of_proved = {new: old for new, old in pairs}
        fields = "".join("            %s: %s,\n" % (new, convert("value.%s" % old, types[old if is_from else of_proved[old]])) for old, new in names.items())
        body = "        Self {\n%s        }\n" % fields
    generics = proved.generics
    ending = generics if conversion != "to Root" else "<%s>" % ", ".join([*([generics[1:-1]] if generics else []), "Root"])
    head = "impl%s From<%s%s> for %s%s {\n    #[inline]\n" % (generics, source, generics, target, ending)
    head += "    fn from(value: %s%s) -> Self {\n" % (source, generics)
    return head + body + "    }\n}\n\n"


def encoded(own: Own, proved: Definition) -> str:
    """Returns the impl of `Encode` by a copy that is converted."""
    copy = "*self" if "Copy" in own.derives else "self.clone()"
    head = "/// Encodes a copy that is converted.\nimpl crate::Encode for %s%s {\n" % (own.name, "<'_>" * bool(proved.generics))
    head += "    #[inline]\n    fn encode(&self, sink: &mut alloc_crate::vec::Vec<u8>) {\n"
    return head + "        append(&%s::%s::from(%s), sink)\n    }\n}\n\n" % (own.module, own.name, copy)


def member_names(proved: Definition) -> list[str]:
    """Returns the names of the members."""
    return [found[1] for line in proved.lines if (found := re.match(r"    (?:pub )?(\w+)(?: = \d+,|,|:|\(| \{)", line))]


def item(own: Own, proved: Definition, rows: set[str]) -> str:
    """Returns the definition of a type with its conversions."""
    lines = [member(own, line) for line in proved.lines]
    is_numbered = any(re.match(r"    \w+ = \d+,$", line) for line in lines)
    attributes = "#[doc = text!(%s)]\n#[derive(%s)]\n%s" % (own.name, own.derives, "#[repr(u8)]\n" * is_numbered)
    text = "%spub %s %s%s {\n%s\n}\n\n" % (attributes, proved.kind, own.name, proved.generics, "\n".join(lines))
    for name in own.renamed.keys() - set(member_names(proved)):
        raise Stop("%s: no member %s becomes %s" % (own.where, name, own.renamed[name]))
    for conversion in own.conversions:
        text += encoded(own, proved) if conversion == "encode" else converted(own, proved, rows, conversion)
    return text


def imports(code: str, names: set[str], root: frozenset[str], modules: set[str]) -> Iterator[str]:
    """Yields the imports of the names in the code."""
    code = re.sub(r"//.*|^    [A-Z]\w*", "", code, flags=re.MULTILINE)
    words = set(re.findall(r"(?<![\w:])(?:[A-Z]\w*|append)", code)) - names
    paths = {"super": words & root, "crate": modules}
    for name in words & PATHS.keys():
        paths.setdefault(PATHS[name], set()).add(name)
    order = lambda path: (("super", "crate", "alloc_crate").index(path.partition("::")[0]), path)
    for path in sorted(paths, key=order):
        if paths[path]:
            yield imported(path, sorted(paths[path]))


def own_types_file(rows: list[Own], texts: dict[str, list[str]], root: frozenset[str]) -> str:
    """Returns the file. `texts` has those of each module of the proved layer."""
    names = {own.name for own in rows}
    code = "".join(item(own, definition(own, texts[own.module]), names) for own in rows)
    modules = {own.module for own in rows if own.conversions}
    heads = "".join(imports(code, names, root, modules))
    return FILE_HEAD + heads + "\n" + code.rstrip("\n") + "\n"
