"""The file of the calls of the root's types, each with the contract of the proved call."""
from __future__ import annotations

import re
import textwrap
from collections.abc import Iterator

from ..errors import Stop
from ..to_rust.beside import Text
from ..to_rust.render import wrapped
from .exports import linked
from .proved import MODULES, group_end, split
from .root_table import TABLE, Call, Parameter, Row

HEAD = "// Written by tools/drop-in from %s and the proved calls: change these.\n" % TABLE
ABOUT = "//! The calls of the root's types, each over a proved call.\n\n"
# The columns of a line, as rustfmt has them.
COLUMNS = 100
# What the doc comment of a proved call says of an error, and when the root then panics.
ERRORS = (
    (r"Returns \[`TooLong`\]\(crate::fallible::Refused::TooLong\) (if .*), and \[`Memory`\]\(\S+\) if an allocation fails\..*", r"Panics \1."),
    (r"Returns `Memory` if an allocation fails\. If (.*), the call returns `TooLong`, and (.*)", r"If \1, the call panics, and \2"),
    (r"Returns \[`Refused`\]\(\S+\), and leaves the \w+ unchanged, if the (\w+) is too long or .*", r"Panics if a count or length in the \1 would pass 4294967295."),
    (r"Returns \[`Memory`\]\(\S+\) if .*\ballocation .*fails\..*", ""),
)
ENDS = "A failed allocation ends the program."
# Types with a lifetime.
BORROWED = {"CoreTypeEncoder"}
LENGTH_ALONE = '#[allow(clippy::len_without_is_empty, reason = "the Rust crate has none")]\n'


def sections(docs: list[str]) -> dict[str, list[str]]:
    """Returns the parts of a doc comment, by their headings."""
    found: dict[str, list[str]] = {"": []}
    heading, is_code = "", False
    for line in docs:
        is_code ^= line.startswith("```")
        if line.startswith("# ") and not is_code:
            heading = line[2:]
            found[heading] = []
        else:
            found[heading].append(line)
    return {name: trimmed(lines) for name, lines in found.items()}


def trimmed(lines: list[str]) -> list[str]:
    """Returns lines without the empty ones at both ends."""
    return "\n".join(lines).strip("\n").split("\n") if any(lines) else []


# A sentence of a proved call about the order of its requests, which another call need not keep.
ORDER = re.compile(r"\s*If [^.]*\sthe call\s+returns `TooLong`[^.]*\.")


def prose_of(call: Call, root: frozenset[str]) -> list[str]:
    """Returns what the proved call does as prose about that of the root: its links are to types of
    the root, and it panics."""
    prose = "\n".join(sections(call.described.docs)[""])
    prose = prose if call.is_made else ORDER.sub("", prose)
    prose = re.sub(r"\(crate::\w+::(\w+)\b", lambda it: "(super::%s" % it[1] if it[1] in root else it[0], prose)
    return prose.replace("the call returns `TooLong`", "the call panics").split("\n")


def panics(call: Call) -> list[str]:
    """Returns when the call panics, by what the doc comment of the proved one says of errors."""
    errors = " ".join(sections(call.proved.docs).get("Errors", []))
    for form, said in ERRORS:
        if found := re.fullmatch(form, errors):
            return ["# Panics", "", *wrapped("%s %s" % (found.expand(said), ENDS)), ""] if said else []
    if errors or call.proved.can_fail():
        raise call.row.stop("unknown words of errors: %s" % errors)
    return []


def renamed(call: Call) -> Iterator[tuple[str, str]]:
    """Yields the names in clauses of parameters, and of their types, that have others at the root."""
    for (name, ty), it in zip([it for it in call.proved.parameters if it[0] != "alloc"], given(call)):
        if it and name != it.name:
            yield name, it.name
        if it and re.fullmatch(r"[A-Z]", ty) and re.fullmatch(r"[A-Z]", it.ty) and ty != it.ty:
            yield ty, it.ty


def given(call: Call) -> Iterator[Parameter | None]:
    """Yields the parameter of the root for each of the proved call, if it is one."""
    if not call.is_made:
        yield from call.row.parameters
        return
    rest = call.row.expression.partition(call.proved.name + "(")[2]
    for argument in split(rest[: group_end("(" + rest) - 2]):
        if argument not in ("Global", "Root"):
            named = [it for it in call.row.parameters if re.search(rf"\b{it.name}\b", argument)]
            yield named[0] if len(named) == 1 else None


def contract(call: Call) -> list[str]:
    """Returns the contract of the proved call, under what the root changes."""
    parts = sections(call.proved.docs)
    if "Proved" not in parts:
        raise call.row.stop("the proved call has no contract")
    name = call.proved.name
    link = "[`fallible::%s::%s`](crate::fallible::%s#method.%s)" % (call.row.of, name, call.row.of, name)
    said = "The contract of %s, which this call makes." if call.is_made else "The contract of %s. This call does the same, as tests show."
    end = "panics" if panics(call) else "ends the program"
    said = said % link + " Where that returns an error, this call %s." % end * call.proved.can_fail()
    stores = sorted(set(re.findall(r"\b([A-Z])\.model\b", " ".join(parts["Proved"]))))
    entries = "%s %s [`Entries`](crate::fallible::Entries)" % (" and ".join("`%s`" % it for it in stores), "is" if len(stores) == 1 else "are")
    names = [entries] if stores else []
    names += ["`%s` is `%s`" % it for it in renamed(call)]
    said += " In the clauses, %s." % ", and ".join(names) if names else ""
    asked = ["# Asks", "", *parts["Asks"], ""] if "Asks" in parts else []
    return [*asked, "# Proved", "", *wrapped(said), "", *parts["Proved"]]


def documentation(call: Call, text: Text, root: frozenset[str]) -> list[str]:
    """Returns the doc comment of a call."""
    prose, fence, example = linked("\n".join(text.lines), root).partition("```")
    lines = [*prose_of(call, root), ""]
    if prose.strip():
        lines += [it for line in prose.strip().split("\n") for it in wrapped(line)] + [""]
    if call.row.is_constant():
        return lines[:-1]
    lines += panics(call)
    if example:
        lines += ["# Examples", "", *(fence + example).split("\n"), ""]
    return lines + contract(call)


def signature(row: Row) -> str:
    """Returns the head of a call as rustfmt lays it out."""
    parameters = [it for it in (row.receiver, *("%s: %s" % (it.name, it.ty) for it in row.parameters)) if it]
    returns = " -> %s" % row.returns if row.returns else ""
    head = "    pub %sfn %s%s" % (row.qualifier, row.name, row.generics)
    line = "%s(%s)%s" % (head, ", ".join(parameters), returns)
    if len(line) + len(" {") * (not row.bounds) > COLUMNS:
        line = "%s(\n%s    )%s" % (head, "".join("        %s,\n" % it for it in parameters), returns)
    if not row.bounds:
        return line + " {\n"
    return line + "\n    where\n%s    {\n" % "".join("        %s,\n" % it for it in row.bounds)


def converting(row: Row) -> list[Parameter]:
    """Returns the parameters of a call by `&mut self` that it converts by `into()`."""
    return [it for it in row.parameters if row.receiver == "&mut self" and it.ty.startswith("impl Into<")]


def body_once(row: Row) -> str:
    """Returns the body of a call that converts: the rest is a function of its own, which is compiled
    in the package, and not for each type in the user's crate."""
    expression = row.expression.replace("self.", "of.")
    types = {it.name: it.ty[len("impl Into<") : -1] for it in converting(row)}
    for name in types:
        expression = expression.replace(name + ".into()", name)
    given = "".join(", %s: %s" % (it.name, types.get(it.name, it.ty)) for it in row.parameters)
    passed = "".join(", %s%s" % (it.name, ".into()" * (it.name in types)) for it in row.parameters)
    inner = "        fn add(of: &mut %s%s) {\n            %s;\n        }\n" % (row.of, given, expression)
    return "%s        add(self%s);\n        self\n" % (inner, passed)


def body(row: Row) -> str:
    """Returns the body of a call."""
    if converting(row):
        return body_once(row)
    if row.returns == "&mut Self":
        return "        %s;\n        self\n" % row.expression
    return "        %s\n" % row.expression


def item(call: Call, text: Text, docs: list[str]) -> str:
    """Returns a call, or a constant, with its doc comment."""
    row = call.row
    lines = [("/// %s" % line).rstrip() for line in docs]
    lines += ['#[doc(alias = "%s")]' % it for it in text.aliases] + ([row.attributes] if row.attributes else [])
    above = "".join("    %s\n" % line for line in lines)
    if row.is_constant():
        return above + "    pub const %s: %s = %s;\n" % (row.name, row.returns, row.expression)
    return above + signature(row) + body(row) + "    }\n"


def impls(calls: list[Call], items: list[str]) -> Iterator[str]:
    """Yields the impl of each type, in the order of the first rows."""
    of: dict[str, list[int]] = {}
    for place, call in enumerate(calls):
        of.setdefault(call.row.of, []).append(place)
    for name, places in of.items():
        names = {calls[place].row.name for place in places}
        generics = "<'_>" if name in BORROWED else ""
        head = LENGTH_ALONE if "len" in names and "is_empty" not in names else ""
        yield "%simpl %s%s {\n%s}\n" % (head, name, generics, "\n".join(items[place] for place in places))


# The modules of names in the code that the root does not export.
ELSEWHERE = {
    "BEFORE_INIT": "crate::sections::table",
    "Bytes": "super::bytes",
    "FUNC": "crate::types::types",
    "First": "crate::code::first",
    "Front": "super::sections",
    "Given": "super::sections",
    "Global": "crate::alloc",
    "Later": "super::sections",
    "Lent": "crate::base",
    "MARK": "super::custom",
    "Root": "crate::ending",
    "Store": "crate::base",
    "String": "alloc_crate::string",
    "Tested": "super::short",
    "bytes_of": "crate::base",
    "encodings": "super::const_expr",
    "Vec": "alloc_crate::vec",
    "vec_of": "crate::base",
    "done": "super",
    **{module: "crate" for module in MODULES},
}
# The traits of calls.
TRAITS = {"add_item_once": "Store", "encode": "Encode"}


def imports(calls: list[Call], root: frozenset[str]) -> str:
    """Returns the imports of the names in the code."""
    code = " ".join(" ".join((it.row.of, signature(it.row), it.row.expression)) for it in calls)
    words = set(re.findall(r"(?<![\w:.])(?:[A-Z]\w*|[a-z_]+(?=::)|\w+(?=\())", code))
    words |= {trait for call, trait in TRAITS.items() if ".%s(" % call in code}
    paths: dict[str, set[str]] = {}
    for name in words & (root | ELSEWHERE.keys()):
        paths.setdefault(ELSEWHERE.get(name, "super"), set()).add(name)
    order = sorted(paths, key=lambda path: (("super", "crate", "alloc_crate").index(path.partition("::")[0]), path))
    return "".join(imported(path, sorted(paths[path])) for path in order) + "\n"


def imported(path: str, names: list[str]) -> str:
    """Returns the import of names of a module."""
    if len(names) == 1:
        return "use %s::%s;\n" % (path, names[0])
    line = "use %s::{%s};\n" % (path, ", ".join(names))
    inside = textwrap.fill(", ".join(names) + ",", COLUMNS, initial_indent="    ", subsequent_indent="    ")
    return line if len(line) <= COLUMNS + 1 else "use %s::{\n%s\n};\n" % (path, inside)


def root_file(calls: list[Call], texts: dict[str, Text], root: frozenset[str]) -> str:
    """Returns the file."""
    for name in texts.keys() - {call.name for call in calls}:
        if "::" in name:
            raise Stop("%s: no row has %s" % (texts[name].where, name))
    items = []
    for call in calls:
        text = texts.get(call.name, Text(""))
        items.append(item(call, text, documentation(call, text, root)))
    return HEAD + ABOUT + imports(calls, root) + "\n".join(impls(calls, items))
