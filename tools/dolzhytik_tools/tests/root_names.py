"""Tests of tools/root-names: rustdoc's pages, the list, and differences without a reason."""
from __future__ import annotations

import pathlib
import tempfile

from ..root_names import Page, listed, not_printed, root_of, trait_of, troubles
from .report import run_all, stops

# A page of rustdoc, cut to what is read: an inherent call and a constant, an impl of a trait of the
# root, one of a trait of `fallible` with parameters, and blanket impls.
PAGE = """
<h2 id="implementations"></h2><div id="implementations-list">
<section id="impl-Name" class="impl"><h3 class="code-header">impl Name</h3></section>
<section id="method.new" class="method"><h4 class="code-header">pub fn new() -&gt; Self</h4></section>
<section id="associatedconstant.NONE" class="associatedconstant"></section></div>
<h2 id="trait-implementations"></h2><div id="trait-implementations-list">
<section id="impl-Encode-for-Name"><h3 class="code-header">impl
<a href="trait.Encode.html" title="trait dolzhytik::Encode">Encode</a> for
<a href="struct.Name.html" title="struct dolzhytik::Name">Name</a></h3></section>
<section id="method.encode" class="method trait-impl"></section>
<section id="impl-Encode-for-Name-1"><h3 class="code-header">impl&lt;A: <a title="trait dolzhytik::fallible::Allocator">Allocator</a>&gt;
<a title="trait dolzhytik::fallible::Encode">Encode</a> for <a title="struct dolzhytik::Name">Name</a></h3></section>
<section id="impl-StructuralPartialEq-for-Name"><h3 class="code-header">impl StructuralPartialEq for Name</h3></section>
<section id="impl-From-Name-for-Other"><h3 class="code-header">impl From&lt;Name&gt; for Other</h3></section></div>
<h2 id="blanket-implementations"></h2><div id="blanket-implementations-list">
<section id="impl-Any-for-T"><h3 class="code-header">impl Any for T</h3></section>
<section id="method.type_id" class="method trait-impl"></section></div>
"""
ALL = '<a href="struct.Name.html">Name</a><a href="fn.call.html">call</a><a href="reader/struct.In.html">In</a>'
LIST = """# A comment.
root
    Name

Name
    new NONE
    impl Encode; Clone

added root: call: a helper
added *: impl fallible::*: the proved traits
lacking Name: impl Clone: it is large
"""


def root() -> dict[str, set[str]]:
    """Returns the names of the pages."""
    with tempfile.TemporaryDirectory() as folder:
        pages = pathlib.Path(folder)
        (pages / "all.html").write_text(ALL, encoding="utf-8")
        (pages / "struct.Name.html").write_text(PAGE.replace(" for Other", " for f32"), encoding="utf-8")
        return root_of(pages)


def pages() -> None:
    """Inherent names and traits of the type itself, and no others."""
    found = Page("Name", PAGE)
    assert found.inherent == {"new", "NONE"}, found.inherent
    traits = {"Encode", "fallible::Encode", "StructuralPartialEq", "From<Name> for Other"}
    assert found.traits == traits, found.traits


def heads() -> None:
    """The trait of an impl, and for what it is."""
    rows = {
        "impl Clone for Name": "Clone",
        "impl<'a, T: Into<Vec<u8>>> From<&'a T> for Name<'a>": "From<&'a T>",
        "impl From<Name> for fallible::Name": "From<Name> for fallible::Name",
        "impl Encode for [T]": "Encode for [T]",
    }
    for head, trait in rows.items():
        assert trait_of(head, "Name") == trait, (head, trait_of(head, "Name"))


def differences() -> None:
    """A name without a reason is reported, and a reason without a name."""
    names = root()
    assert names["root"] == {"Name", "call"}, names
    crate = listed(LIST + "added Name: impl From<*> for f32: a conversion\n")
    assert not list(troubles(names, crate))
    rows = {
        LIST: "added without a reason: Name: impl From<Name> for f32",
        LIST.replace("added root: call: a helper\n", ""): "added without a reason: root: call",
        LIST.replace("lacking Name: impl Clone: it is large\n", ""): "lacking without a reason: Name: impl Clone",
        LIST.replace(" NONE", ""): "added without a reason: Name: NONE",
        LIST.replace("Encode; Clone", "Encode"): "tools/root-names.txt:11: no name is Name: impl Clone",
        LIST + "added Other: *: a type that is gone\n": "tools/root-names.txt:12: no name is Other: *",
    }
    for text, said in rows.items():
        found = list(troubles(names, listed(text)))
        assert said in found, (said, found)


def forms() -> None:
    """A difference without a reason stops the tool, and so does a type that is listed twice."""
    assert stops(listed, "added root: call\n").startswith("tools/root-names.txt:1: ")
    assert stops(listed, LIST + "\nName\n").startswith("tools/root-names.txt:13: ")


def printed() -> None:
    """A type with `Debug` is one of the tests of it."""
    names = {"Name": {"impl Debug"}, "Other": {"impl Clone"}}
    for text in ("        pub struct Name { pub a: u8 }", "        Name { count }"):
        assert not list(not_printed(names, text)), text
    assert list(not_printed(names, "pub struct Names(u8);")) == ["rust/tests/drop_in/debug.rs has no type Name"]


def main() -> int:
    """Runs the tests."""
    return run_all("root-names-test", (pages, heads, differences, forms, printed))
