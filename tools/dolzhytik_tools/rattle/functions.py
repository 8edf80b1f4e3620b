"""The functions of a source, and their names in the prover.

The ledger covers the code of this module except comments and docstrings (mutants/judging.py): any
other change of it makes every checksum of tools/mutants.ledger differ.
"""
from __future__ import annotations

import re
from dataclasses import dataclass


@dataclass(frozen=True)
class Function:
    """A function: its file, its module, its name, its lines, and the expression of its owner's
    name."""
    path: str
    module: str
    name: str
    first: int
    last: int
    owner: str

    def has_symbol(self, symbol):
        """Returns whether this may be the name of the function: another impl of its module can have
        the same."""
        parts = symbol.split("::")[1:]
        return self.name in parts and "::".join(parts).startswith(self.module)

    def is_symbol(self, symbol):
        """Returns whether this is the name of the function, and of no function of another impl."""
        path = "::".join(symbol.split("::")[1:])
        return bool(re.fullmatch(re.escape(f"{self.module}::") * bool(self.module) + self.owner + self.name, path))


def blanked(text):
    """Returns the text with spaces for comments, strings and characters."""
    token = re.compile(r"""//[^\n]*|/\*.*?\*/|b?r(#*)".*?"\1|b?"(?:[^"\\]|\\.)*"|b?'(?:\\(?:u\{[^}]*\}|x..|.)|[^'\\\n])'""", re.S)
    return token.sub(lambda it: re.sub(r"[^\n]", " ", it[0]), text)


def closing(text, at):
    """Returns the offset after the brace that closes the one at `at`."""
    depth = 0
    for i in range(at, len(text)):
        depth += {"{": 1, "}": -1}.get(text[i], 0)
        if not depth:
            return i + 1
    return len(text)


def body_at(text, at):
    """Returns the offset of the body of the function whose name ends at `at`, or None if it has
    none."""
    begun = at
    while stop := re.compile(r"\[[^][{}]*\]|[{;]").search(text, at):
        if stop[0].startswith("["):
            # The type of an array has a semicolon of its own.
            at = stop.end()
            continue
        if stop[0] == ";":
            return None
        if not re.search(r"(\b(requires|ensures)\b\*?(\s+\w+)?|\bghost\s+\w+\s*:)\s*\Z", text[begun : stop.start()]):
            return stop.start()
        at = closing(text, stop.start())
    return None


def parted(text):
    """Returns the parts between the commas of a text that are in no brackets."""
    depth, parts = 0, [""]
    for it in text:
        depth += (it in "<([") - (it in ">)]")
        parts = [*parts, ""] if it == "," and not depth else [*parts[:-1], parts[-1] + it]
    return parts


def type_in_symbols(text, parameters):
    """Returns a type as the names of functions have it, without type parameters."""
    words = []
    for it in re.finditer(r"'\w+|&|\[|\(|(?:\w+::)*(\w+)", text):
        if it[0] == "(":
            words.append(f"Tuple{len(parted(text[it.end() : text.rindex(')')]))}")
        elif it[0] in "&[":
            words.append({"&": "Ref", "[": "Array" if ";" in text else "Slice"}[it[0]])
        elif it[1] and it[1] not in {"mut", *parameters}:
            words.append(it[1][0].upper() + it[1][1:])
    return "".join(words)


def owner_of(text, head):
    """Returns the expression of the impl or trait in the name of a function."""
    if not head or text[head - 1] != " ":
        return ""
    kind, header = re.findall(r"^(?:pub(?:\([^)]*\))? )?(?:unsafe )?(impl|trait)\b([^{]*)", text[:head], re.M)[-1]
    header, parameters = header.strip(), []
    if kind == "trait":
        return re.match(r"\w+", header)[0] + "::"
    if header.startswith("<"):
        end = next(i for i in range(len(header)) if header[: i + 1].count("<") == header[: i + 1].count(">"))
        parameters = [it.partition(":")[0].strip().removeprefix("const ") for it in parted(header[1:end])]
        header = header[end + 1 :]
    of_trait, _, of_type = header.partition(" where ")[0].rpartition(" for ")
    owner = type_in_symbols(of_type, parameters) + type_in_symbols(of_trait, parameters)
    return re.escape(owner) + (r"(\+\w+)*::" if not of_trait else "::")


def functions_of(path, source):
    """Yields each function of a file that has a body, with the offsets of its head, its body and
    its end."""
    text = blanked(source)
    for it in re.finditer(r"\bfn\s+(\w+)", text):
        body = body_at(text, it.end())
        if body is None:
            continue
        end = closing(text, body)
        # The attributes belong to the function: a goal of the whole function is reported there.
        head = max(text.rfind(mark, 0, it.start()) for mark in "{};") + 1
        head += re.match(r"\s*", text[head:]).end()
        line = [text.count("\n", 0, at) + 1 for at in (head, end - 1)]
        module = re.sub(r"(?:/?mod|/?lib|/?main)?\.rt\Z", "", path[len("src/") :]).replace("/", "::")
        yield Function(path, module, it[1], *line, owner_of(text, head)), head, body, end


def function_around(path, source, first, last):
    """Returns the innermost function whose body has the offsets from first to last, or None."""
    found = None
    for function, _, body, end in functions_of(path, source):
        if body < first and last < end:
            found = function
    return found
