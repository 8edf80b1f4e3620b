"""Tests of tools/called on small crates. They need no prover."""
from __future__ import annotations

import contextlib
import io
import pathlib
import tempfile

from ..called.command import CRATES, EXCEPTIONS, OUTERMOST, Exempt, check
from ..called.definitions import Key
from .report import run_all

# A library: two types with methods of one name, a type over a kind with an alias of each, and a
# free function.
ROOT = """
mod parts;
pub use parts::{First, Second, Counted, Ones, Twos, One, Two, Whole, make};
"""
PARTS = """
/// A value.
#[derive(Drop, Debug)]
pub struct First<'a, A: Allocator = Global> { pub inner: Second<A>, word: &'a str }
pub struct Second<A: Allocator = Global>(Vec<u8, A>);
pub struct One;
pub struct Two;
pub struct Counted<K, A: Allocator = Global> { kind: K, alloc: A }
pub type Ones<A = Global> = Counted<One, A>;
pub type Twos<A = Global> = Counted<Two, A>;

impl<'a, A: Allocator> First<'a, A> {
    pub fn new(alloc: A) -> R<Self>
        ensures { IfOk result (λ f. f.clone() ≡ f) }
    {
        Ok(First { inner: make(alloc)? })
    }

    pub fn clone(&self) -> R<Self> {
        Ok(First { inner: self.inner.clone()? })
    }

    pub(crate) fn hidden(&self) {}
}

impl<A: Allocator> Second<A> {
    pub fn clone(&self) -> R<Self> {
        Ok(Second(self.0.clone()?))
    }
}

impl<K: Kind, A: Allocator> Counted<K, A> {
    pub fn len(&self) -> u32 {
        0
    }
}

impl<A: Allocator> Ones<A> {
    pub fn raw(&mut self, bytes: &[u8]) -> R<()> {
        Ok(())
    }
}

impl<A: Allocator> Twos<A> {
    pub fn raw(&mut self, bytes: &[u8]) -> R<()> {
        Ok(())
    }
}

struct Private;

impl Private {
    pub fn of_no_caller() {}
}

pub fn make<A: Allocator>(alloc: A) -> R<Second<A>> {
    Ok(Second(Vec::new(alloc)))
}
"""
ALL = {'First::new', 'First::clone', 'Second::clone', 'Counted::len', 'Ones::raw', 'Twos::raw', 'make'}

# A caller's source, and the functions that it calls.
ROWS = [
    ('fn f(alloc: A) -> R<()> { let first = First::new(alloc)?; first.clone()?; Ok(()) }', {'First::new', 'First::clone'}),
    ('fn f(alloc: A) -> R<()> { First::new(alloc)?.clone()?; Ok(()) }', {'First::new', 'First::clone'}),
    ('fn f(first: &mut First<\'_, A>) -> R<()> { first.inner.clone()?; Ok(()) }', {'Second::clone'}),
    ('fn f(second: &Second) -> R<Second> { second.clone() }', {'Second::clone'}),
    ('fn f(second: &Second) -> R<Second> { Second::clone(second) }', {'Second::clone'}),
    ('fn f(second: &Second) -> R<Second> { Second::<A>::clone(second) }', {'Second::clone'}),
    ('fn f() { let second: Second = unknown(); second.clone(); }', {'Second::clone'}),
    ('fn f() { let second = make(alloc).expect(&rt, "made"); let _ = second.clone(); }', {'make', 'Second::clone'}),
    ('fn f() { let second = library::make(alloc).unwrap(); second.clone().unwrap(); }', {'make', 'Second::clone'}),
    ('fn f() -> R<()> { let Ok(second) = make(alloc) else { return }; second.clone()?; }', {'make', 'Second::clone'}),
    ('fn f() { match make(alloc) { Ok(second) => second.clone(), Err(_) => {} } }', {'make', 'Second::clone'}),
    ('fn f(listed: &[Second]) { for second in listed { second.clone(); } }', {'Second::clone'}),
    ('fn f(listed: &[Second]) { listed[0].clone(); }', {'Second::clone'}),
    ('fn f() { Second { 0: bytes }.clone(); }', {'Second::clone'}),
    # The receiver is another type, or of unknown type.
    ('fn f(text: &String) { text.clone(); }', set()),
    ('fn f(given: &T) { given.clone(); }', set()),
    ('fn f() { let second = unknown(); second.clone(); }', set()),
    ('fn f() { unknown().clone(); "make(alloc)"; } // make(alloc)', set()),
    ('fn f(second: &Second) { let second = 7; second.clone(); }', set()),
    ('fn f(other: &Other) { other.make(alloc); }', set()),
    ('fn f(other: &Other) -> R<()> ensures { Second::clone(other) ≡ make(other) } { Ok(()) }', set()),
    # Methods that are defined for one alias, and for all.
    ('fn f(ones: &mut Ones<A>) { ones.raw(&[]); ones.len(); }', {'Ones::raw', 'Counted::len'}),
    ('fn f(twos: &mut Counted<Two, A>) { twos.raw(&[]); }', {'Twos::raw'}),
    ('fn f<K: Kind>(all: &mut Counted<K, A>) { all.len(); }', {'Counted::len'}),
    ('fn f() { Twos::raw(&mut given, &[]); }', {'Twos::raw'}),
]


def written(folder: str, caller: str) -> pathlib.Path:
    """Writes the library and a caller's crate, and returns their folder."""
    for name, text in (('library/src/lib.rt', ROOT), ('library/src/parts.rt', PARTS), ('caller/src/lib.rt', caller)):
        path = pathlib.Path(folder) / name
        path.parent.mkdir(parents=True, exist_ok=True)
        path.write_text(text, encoding='utf-8')
    return pathlib.Path(folder)


def checked(caller: str, exceptions: dict[Exempt, str]) -> tuple[str, tuple[int, int]]:
    """Returns the lines for a caller, and the counts."""
    with tempfile.TemporaryDirectory() as folder:
        out = io.StringIO()
        with contextlib.redirect_stdout(out):
            counts = check(written(folder, caller), {'caller'}, exceptions)
        return out.getvalue(), counts


def names_called(caller: str) -> set[str]:
    """Returns the functions that a caller calls."""
    text, (passed, failed) = checked(caller, {})
    lines = text.splitlines()
    assert passed + failed == len(ALL) and failed == len(lines), text
    assert all(it.startswith('library: src/parts.rt: ') and it.endswith(' is called in no other proved crate') for it in lines), text
    return ALL - {it.split(': ', 2)[2].split(' ')[0] for it in lines}


def rows() -> None:
    """Each caller calls the functions of its row."""
    for caller, expected in ROWS:
        found = names_called(caller)
        assert found == expected, (caller, found)


def exceptions() -> None:
    """An exception passes; one that is not needed is a failure."""
    caller = 'fn f(alloc: A) { make(alloc); }'
    reasons = {Exempt('library', Key('Second', 'clone')): 'awaits a caller', Exempt('library', Key('', 'make')): 'a reason'}
    text, (passed, failed) = checked(caller, reasons)
    assert 'Second::clone' not in text and 'library: make is an exception, and needs none' in text, text
    assert (passed, failed) == (2, len(ALL) - 2 + 1), text


def repository() -> None:
    """The exceptions have reasons, and the sources are read: the libraries have hundreds of public
    functions."""
    assert all(it.strip() for it in EXCEPTIONS.values())
    with contextlib.redirect_stdout(io.StringIO()):
        passed, _ = check(CRATES, OUTERMOST, EXCEPTIONS)
    assert passed > 200, passed


def main() -> int:
    """Runs the tests."""
    return run_all('called-test', [rows, exceptions, repository])
