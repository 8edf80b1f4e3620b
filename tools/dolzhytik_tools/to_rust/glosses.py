"""Words about clauses that are true by the form of the clauses.

A clause of the form `IfOk result ..` says something of calls that return `Ok` only, and so on:
`gloss` sorts the clauses of a function by that. `NAMES` has the names of clauses that mean the same
wherever they are. The generator stops at an `ensures` with such a name and another form. `EXACT`
has words for single clauses, by their text, and `SAID` for clauses of a form. The generator stops
at a row of these that no clause has, since a changed clause leaves its row behind. A clause that is
one definition with its arguments says what the definition's sentence says. `ASKED` has words for
what calls ask.
"""
from __future__ import annotations

import re
from collections.abc import Collection, Mapping, Sequence
from dataclasses import dataclass

from ..errors import Stop

CLAUSE = re.compile(r'(?:ensures|requires)\s+(\w+ )?\{(.*)\}', re.S)
AFTER_OK = re.compile(r'(?:IfOk|OnOk) result (.*)', re.S)
AFTER_ERROR = re.compile(r'(?:IfErr|OnErr) result (.*)', re.S)
FOR_ALL = re.compile(r'\(\w[\w ]* : [^()]*\) → ')


@dataclass(frozen=True)
class Name:
    """A name of clauses, the form of all of them, and what it means."""

    name: str
    form: str
    meaning: str


OK, ERROR = r'(?:IfOk|OnOk) result .*', r'IfErr result .*'
NAMES = [
    Name('ok', OK, 'What holds after `Ok`.'),
    Name('found', OK, 'After `Ok`: what the bytes encode.'),
    Name('none', ERROR, 'What holds after an error.'),
    Name('was_encodable', r'(?:IfOk|OnOk) result .*(?:[Ee]ncodable|≤ longest).*', 'After `Ok`, the counts and lengths that were encoded were at most 4294967295.'),
    Name('too_long', r'(?:.* → )?result ≢ Err (?:\w+\.)?TooLong', 'When the call does not return `TooLong`.'),
    Name('spare', r'.* → IsOk result', 'When the call succeeds within the spare capacity.'),
    Name(
        'front',
        r'IsFrontOf sink\.old\.items sink\.new\.items|Keeps(?:Marked seen mark start)? ?(?:(?:E\.)?seen )?(?:effect|self)\.old (?:effect|self)\.new',
        'The bytes that the sink or the effect had are the front of those that it has afterwards.',
    ),
    Name('capacity', r'vec_capacity sink\.(?:old ≤ vec_capacity sink\.new|new ≡ vec_capacity sink\.old)', 'The capacity does not shrink.'),
]


OPERATORS = set('→ ↔ × ⊎ ≡ ≢ ≤ < ++ ∷ + - * ='.split())
# What clauses of known forms say.
BEGINS_NOT, IS_NOT = 'the bytes do not begin with such an encoding', 'the bytes as a whole are no such encoding'
SAID = (
    (r'result ≢ Err (?:\w+\.)?TooLong', 'no error is `TooLong`'),
    (r'OnErr result \(sink\.new\.items ≡ sink\.old\.items\)', 'the bytes of the sink are unchanged'),
    (r'OnErr result \(self\.new ≡ self\.old\)', 'the value is unchanged'),
    (r'IfErr result \(λ e\. e(?:\.cause)? ≢ Memory → Rejects .*\)', f'{BEGINS_NOT}, unless the cause is `Memory`'),
    (r'IfErr result \(λ e\. e(?:\.cause)? ≢ Memory → RejectsWhole .*\)', f'{IS_NOT}, unless the cause is `Memory`'),
    (r'IfErr result \(λ _\. Rejects .*\)', BEGINS_NOT),
    (r'IfErr result \(λ e\. e(?:\.cause)? ≡ Memory\)', 'the cause is `Memory`'),
    (r'IfOk result \(λ x\. Decodes .* bytes\.now .*x\.0.* x\.1\.now\)', 'the bytes begin with an encoding of the value, and the returned bytes follow it'),
    (r'IfOk result \(λ x\. Decodes \(vec \(pair u32 val_type\)\) .* x\.0\.items \(ahead(?:_in)? x\.1\)\)', 'the bytes begin with an encoding of the locals, and the instructions follow it'),
    (r'IfOk result \(λ x\. (?:T\.format|members T\.format|body|content kind|\w+_payload|vec \w+|inside \S+ \S+ id) \S.* bytes\.now \S*.*\)', 'the bytes as a whole encode the value'),
    (r'IfOk result \(λ rest\. \(xs? : .*\) × Decodes .* bytes\.now xs? rest\.now\)', 'the bytes begin with such an encoding, and the returned bytes follow it'),
    (r'OnOk result \(\(xs? : .*\) × [^×]* \(padded_of G\.grammar\) bytes\.now xs?\)', 'the bytes as a whole are such an encoding'),
    (r'IfOk result \(λ (\w+)\. \1 ≡ self\.now\)', 'the result equals the value'),
    (r'IfOk result \(λ (\w+)\. \w+ \1 ≡ \w+ self\.now\)', 'the result has the same content'),
    (r'IfOk result \(λ (\w+)\. \1\.items ≡ (?:items\.now\.items|expressions\.now)\)', 'the result has the same items'),
    (r'IfOk result \(λ s\. \(utf8_of s\.name ≡ \S+\) × \(items_of s\.bytes ≡ entries_encoding .*\)\)', 'the result has the name and the data of the section'),
    (r'OnOk result \(AppendsMinimal both_grammars .*\)', 'the sink gains the encoding that is minimal in both grammars'),
    (r'OnOk result \(AppendsMinimal builders_alone .*\)', "the sink gains the encoding that is minimal in the builders' grammar"),
    (r'OnOk result \(AppendsMinimal (?:T|Self)\.grammars .*\)', 'the sink gains the encoding that is minimal in the `grammars` of the type'),
    (r'OnOk result \(AppendsMinimal \(grammars_of .*\)', 'the sink gains the encoding that is minimal in the grammars of the kind'),
    (r'OnOk result \(AppendsContentIn .*\)', 'the sink gains the minimal encoding of the items in the grammar, if bytes decode to them'),
    (r'HasContentIn .* → result ≢ Err TooLong', 'items to which bytes decode never give `TooLong`'),
    (r'HasEncoding .* → result ≢ Err TooLong', 'a value that has an encoding never gives `TooLong`'),
    (r'longest < .* → result ≡ Err (?:Refused\.)?TooLong', 'more than 4294967295 give `TooLong`'),
    (r'\(\(it : V\.IntoIter\) → V\.into_iter_gives \w+ it → longest < .*\) → result ≡ Err TooLong', 'more than 4294967295 items give `TooLong`'),
    (r'\(\(it : V\.IntoIter\) → V\.into_iter_gives \w+ it → size .* ≤ longest\) → result ≢ Err TooLong', 'at most 4294967295 items never give `TooLong`'),
    (r'IfOk result \(λ v\. V\.into_iter_gives \w+ v\.items × IsFinite .*\)', 'the result has the iterator, which ends and yields as many items as `count`, at most 4294967295'),
    (r'HasEncodableSize (?:name|thread_name)\.now → result ≢ Err TooLong', 'a name of at most 4294967295 bytes never gives `TooLong`'),
    (r'(?:.* ≤ longest → )vec_len sink\.old \+ .* ≤ vec_capacity sink\.old → IsOk result', 'the call succeeds if the size fits 32 bits and the bytes fit the spare capacity'),
    (r'IfOk result \(λ f\. \(it : \w\.IntoIter\) × \w\.into_iter_gives (?:params|results) it × Drains \w\.IntoIter\.next_gives it f\.(?:params|results)\.items\)', 'they are the types that the iterator yields'),
    (r'OnOk result \(sink\.new\.items ≡ sink\.old\.items \+\+ (?:Self\.)?encoding_in self\.now\)', 'the sink gains the minimal encoding in the grammar'),
    (r'OnOk result \(All \(IsGood .*\) \(\w*lines\w* .*\)\)', 'no line has an error'),
    (r'IfOk result \(λ bytes\. bytes\.items ≡ recipe_module \(.*\)\)', 'the bytes are the module of the recipe'),
    (r'IfOk result \(λ number\. \(x : Contents\) × content .* × \(number ≡ number_in x\)\)', 'the payload encodes items, and the result is their number if they are counted'),
    (r'vec_capacity sink\.old ≤ vec_capacity sink\.new', 'the capacity does not shrink'),
    (r'OnOk result \(TakesBytes seen .*\)', 'the effect takes the encoding'),
    (r'OnErr result (?:E\.)?may_fail', 'the effect is one whose calls may fail'),
    (r'IfErr result \(λ e\. e\.cause ≡ Memory → E\.may_fail\)', 'the cause is `Memory` only with an effect whose calls may fail'),
    (r'Keeps (?:E\.)?seen (?:effect|self)\.old (?:effect|self)\.new', 'the effect keeps what it took before'),
    (r'IfOk result \(λ rest\. Walks E\.seen G\.grammar .* bytes\.now rest\.now effect\.old effect\.new\)', 'the bytes begin with an encoding, the effect takes the minimal one, and the returned bytes follow it'),
    (r'OnOk result \(WalksWhole E\.seen G\.grammar .* bytes\.now effect\.old effect\.new\)', 'the bytes as a whole are an encoding, and the effect takes the minimal one'),
    (r'self\.new\.sink\.ghost_name ≡ self\.old\.sink\.ghost_name', 'the sink writes to the buffer that it wrote to'),
    (r'IfErr result \(λ e\. IsInPayload self\.now e\.offset\)', 'the offset of the error is in the payload'),
    (r'IsTrue result ↔ \(length self\.now ≡ 0\)', 'the result is true exactly if there are no entries'),
    (r'option_copied result ≡ slice_get self\.now index', 'the result is the entry at `index`, if there is one'),
    (r'result ≡ \[\]', 'the result has no entries'),
)
# What single clauses say.
EXACT = {
    'IfOk result (λ m. m ≡ header)': 'the module is the header',
    'OnOk result (sink.new.items ≡ sink.old.items ++ header)': 'the sink gains the header',
    'IfOk result (λ rest. bytes.now ≡ header ++ rest.now)': 'the header is at the front, and the returned bytes follow it',
    'IfOk result (λ x. bytes.now ≡ bytes_of (section_of x.0) ++ x.1.now)': 'the bytes begin with the section, and the returned bytes follow it',
    'IfErr result (λ e. e.1 ≢ Memory → EndsAt bytes.now e.0)': 'the section of this number is the first that is malformed, whatever its payload (0: there is no header), unless the cause is `Memory`',
    'IfOk result (λ s. s.fields.items ≡ self.now.fields.items)': 'the result has the same fields',
    'IfOk result (λ s. (utf8_of s.name ≡ utf8_of self.now.name) × (items_of s.bytes ≡ items_of self.now.bytes))': 'the result has the same name and data',
    'IfOk result (λ segment. segment.mode ≡ self.now.mode)': 'the result has the same mode',
    'IfOk result (λ segment. D.is_clone self.now.bytes segment.bytes)': 'its bytes are a clone, as the type of the bytes defines it',
    'IfOk result (λ s. s ≡ marked_encoding name.now)': 'the section is that of a process of this name',
    'IfOk result (λ s. s ≡ (marked_encoding thread_name.now, E.none))': 'the section has this name of a thread, and no frames',
    'IfOk result (λ s. s ≡ ((relocations_name section_name.now, unsigned_encoding section), []))': 'the section is that of this section name and index, without relocations',
    'self.new.0 ≡ self.old.0': 'the part before the entries is unchanged',
    'result.cause ≡ self': 'the result has this cause',
    'result.cause ≡ self.cause': 'the result has the same cause',
    'OnOk result (sink.new.items ≡ take start sink.old.items ++ size_prefixed_encoding (drop start sink.old.items))': 'the bytes from `start` on gain their size before them',
    'HasEncodableSize (drop start sink.old.items) → result ≢ Err TooLong': 'at most 4294967295 bytes from `start` on never give `TooLong`',
    'IfOk result (λ x. x.0.sum < x.0.power)': 'the sum is below the power',
    'IfOk result (λ x. x.0.power ≤ 128 ^ limit)': 'the power is at most 128 to the power of `limit`',
    'IfErr result (λ e. e.cause ≡ Ended → length bytes.now < limit)': '`Ended` means fewer bytes than `limit`',
    'IfErr result (λ e. e.cause ≡ TooLarge → limit ≤ length bytes.now)': '`TooLarge` means at least `limit` bytes',
    'IfOk result (λ _. is_admitted G.grammar ≡ true)': "the grammar is the standard's",
    'IfErr result (λ _. is_admitted G.grammar ≡ false)': "the grammar is the builders'",
    'IfErr result (λ e. e.cause ≢ Memory → AreNoOperands self.entry)': 'the instruction is a variant of its own, or the bytes do not encode immediates of its shape, unless the cause is `Memory`',
    'OnOk result (left_locals [] (entries_of (version_of lines.now) (versioned_lines lines.now)) ≡ [])': 'no run of locals is left after the last body',
    'result ≡ export.now.index': 'the result is the index of the export',
    'OnOk result (self.new ≡ self.old ++ (S.id_of section.now ∷ S.encoding section.now))': 'the module gains the id and the encoding of the section',
    'OnOk result (S.decoding section.now)': 'the encoding decodes as the impl defines by `decoding`',
    'OnOk result (decoding self.now)': 'the encoding decodes as the impl defines by `decoding`',
    'OnOk result (Self.decoding self.now)': 'the encoding decodes as the impl defines by `decoding`',
    'OnOk result (S.encodable section.now)': 'each count and length fits 32 bits',
    'S.encodable section.now → result ≢ Err Refused.TooLong': 'a section whose counts and lengths fit never gives `TooLong`',
    'S.overlong section.now → result ≡ Err Refused.TooLong': 'an `overlong` section gives `TooLong`',
    'overlong self.now → result ≡ Err TooLong': 'an `overlong` value gives `TooLong`',
    'Self.overlong self.now → result ≡ Err TooLong': 'an `overlong` section gives `TooLong`',
    'OnOk result (sink.new.items ≡ sink.old.items ++ unsigned_encoding size)': 'the sink gains the size',
    'OnOk result (vec_len sink.new + size ≤ vec_capacity sink.new)': 'the sink has spare capacity for the payload',
    'OnOk result (size ≤ longest)': 'the size is at most 4294967295',
    'size ≤ longest → result ≢ Err Refused.TooLong': 'a size of at most 4294967295 never gives `TooLong`',
    'IfErr result (λ refused. refused ≡ TooLong)': 'the error is `TooLong`',
    'IfOk result (λ x. (xs : List T.Value) × Decodes (vec T.format) (padded_of G.grammar) bytes.now xs x.1.now × (x.0 ≡ length xs))': 'a vector of this number of members is at the front, and the returned bytes follow it',
    'IfOk result (λ x. members (instruction table) (padded_of G.grammar) bytes.now (map plain_view x.items))': 'the bytes as a whole encode the instructions',
    'OnOk result ((x : BodyModel) × body padded bytes.now x × AppendsMinimal builders_alone (size_prefixed body) x sink.old.items sink.new.items)': "the bytes encode a body, and the sink gains its minimal encoding in the builders' grammar, with the size prefix",
    'IfOk result (λ e. (it : I.IntoIter) × (xs : List ℕ) × I.into_iter_gives bytes it × Drains I.IntoIter.next_gives it xs × (e ≡ xs))': 'the expression is the bytes that the iterator yields',
    'OnOk result ((it : I.IntoIter) × (xs : List ℕ) × I.into_iter_gives bytes it × Drains I.IntoIter.next_gives it xs × GrowsBy xs self.old self.new)': 'the body gains the bytes that the iterator yields',
    'IfOk result (λ x. x.1.bytes ≡ bytes.now)': 'the visitor is over these bytes',
    'IfOk result (λ x. x.1.bytes ≡ self.now.bytes)': 'the visitor is over the bytes of the body',
    'IfOk result (λ x. x.1.offset ≤ length bytes.now)': 'the offset is in the bytes, or at their end',
    'IfOk result (λ x. x.1.offset ≤ length self.now.bytes)': 'the offset is in the body, or at its end',
    'IfOk result (λ args. AreOperands self.entry (map argument_view args.items))': 'the list has the operands, in their order',
    'IfOk result (λ args. (xs : List Argument) → AreOperands self.entry xs → map argument_view args.items ≡ xs)': 'the operands are no other list',
    'IfSome result (λ i. row_of i ≡ record { op = op; arguments = map argument_view args.now })': 'the instruction has this opcode and these immediates',
    'IfNone result (IsNoInstruction op (map argument_view args.now))': 'the table has no row for the opcode, or the arguments are not of the types of its shape, or flags of a cast are above 3',
    'IfOk result (λ _. self.now.section.id ≡ 10)': 'this is a code section',
    'IfOk result (λ it. Decodes u32 padded self.now.section.payload it.left it.rest)': 'the payload begins with the number of bodies, and the bytes of the iterator follow it',
    'IfOk result (λ it. it.end ≡ end_of self.now)': 'the iterator ends with the section',
    'IfErr result (λ e. e.cause ≢ Memory → (self.now.section.id ≢ 10) ⊎ Rejects u32 padded self.now.section.payload)': 'this is no code section, or its payload does not begin with a number, unless the cause is `Memory`',
    'IfErr result (λ e. self.now.offset ≤ e.offset)': 'the offset of the error is not before this one',
    'IfErr result (λ e. e.offset ≤ end_of self.now)': 'the offset of the error is not after the section',
    'IfErr result (λ e. e.offset ≤ self.now.offset + length self.now.bytes)': 'the offset of the error is not after the body',
    'result.cause ≡ error.cause': 'the result has the cause of the error',
    'result.offset + min (length self.now.bytes) error.left ≡ self.now.offset + length self.now.bytes': 'the offset is that of the end of the body, less the bytes left of the error',
    'result.left ≡ min (length rest.now) longest': 'the remaining bytes are left',
    'result.left ≡ min (length rest.now + 1) longest': 'the remaining bytes and the byte before them are left',
    'result.left ≡ min (self.left + length rest.now) longest': 'the bytes that follow are left too',
    'IfErr result (λ e. min (length rest.now) longest ≤ e.left)': 'the bytes that follow are left too',
    'self.now.offset ≤ result.offset': 'the offset is not before the body',
    'result.offset ≤ self.now.offset + length self.now.bytes': 'the offset is not after the body',
    'IfErr result (λ e. e.1 ≢ Memory → StopsAt bytes.now e.0)': 'the bytes stop being a module at this section, unless the cause is `Memory`',
    'IfErr result (λ e. e.1 ≢ Memory → RejectsWhole wasm_module padded bytes.now)': 'the bytes are no module, unless the cause is `Memory`',
    'IfOk result (λ it. module.now ≡ header ++ ahead it)': 'the module is the header, and then the bytes ahead of the iterator',
    'IfOk result (λ it. it.offset ≡ length header)': 'the offset is that after the header',
    'IfOk result (λ it. it.bytes ≡ module.now)': 'the iterator is over these bytes',
    'IfErr result (λ e. e.offset ≤ length module.now)': 'the offset of the error is in the module, or at its end',
    'IfOk result (λ x. content (section_kind_of self.now.section) standard self.now.section.payload (contents_of x))': 'the payload encodes the items',
    'result.start + length self.now.section.payload ≡ end_of self.now': 'the range is as long as the payload',
    'result.end ≡ end_of self.now': 'it ends with the section',
    'self.now.offset < result.start': 'it begins after the id',
}
# What definitions say on the page of a call, where their sentence has names of their parameters.
IN_WORDS = {
    'AddsTwoLists': (
        'The builder gains one entry of the items that both iterators yield, or the call returns an error and changes nothing. '
        'It returns `TooLong` if either has too many items, and never if all items fit and items and entries are few enough.'
    ),
    'Decodes': 'The bytes begin with such an encoding, and the remaining bytes follow it.',
    'DecodesBack': 'The encoding is the only minimal one of these items, and decodes to them alone.',
    'DecodesPayloads': 'If size-prefixed bytes decode to one value alone, their payload decodes to it alone.',
    'DecodesPayloadsPadded': 'If size-prefixed bytes decode to one value alone, with padding allowed, so does their payload.',
    'DecodesWhole': 'The result is the only minimal encoding of these sections. In every mode, all of its bytes decode to them alone.',
    'HasGroups': (
        'The bytes begin with LEB128 groups: their sum, 128 to the power of their number, and the last group. '
        'The returned bytes follow them.'
    ),
    'HasMinimalEncodings': 'Each value that fits has a minimal encoding, which the last function in the clause returns.',
    'IsIncludedIn': 'Every encoding by the first format is an encoding of the same value by the second.',
    'IsRefFunc': 'The result is `Some(f)` exactly if the bytes begin with `ref.func f`.',
    'Rewrites': 'The bytes begin with sections, and the output for these sections is appended.',
    'Shortens': (
        'As many bytes as the result says are a section of this kind, from the first one on. '
        'The buffer gains its minimal encoding, which is at most as long.'
    ),
    'ShortensModule': (
        'The buffer gains the header and the output for each section: its minimal encoding, or its bytes unchanged if they do not decode by its kind. '
        'The result counts the unchanged ones. With `Refuse` every section keeps its offsets, and with `LeaveOut` exactly the sections that hold offsets are left out. '
        'The output is a module with the ids of the sections that are not left out, and is no longer than the input.'
    ),
    'Stores': (
        'The bytes gain the encoding of the instruction. If it is well-formed and the old bytes minimally encode instructions, '
        'the new bytes encode these and its normal form.'
    ),
    'Takes': 'As many bytes as the result says are a section of this kind, from the first one on, possibly padded, with this content.',
}
# What `requires` clauses ask.
ASKED = (
    (r'HasKnownLength .*', 'The iterator ends, and yields as many items as it reports.'),
    (r'\(it : \w+\.IntoIter\) → .* × IsFinite \(.*\)', 'The iterator ends.'),
    (r'BeginsWith \(λ b\. Unit \{0\}\) T\.format', 'No encoding of a value is empty.'),
    (r'start ≤ vec_len sink\.old', '`start` is at most the number of bytes in the sink.'),
    (r'limit ≤ 10', '`limit` is at most 10.'),
    (r'page_exponent self\.now\.page_size_log2 < 32', 'A page has less than 2^32 bytes.'),
    (r'(?:T\.)?lawful \w+', 'Each iterator in the value ends, and yields as many items as it reports: the impl says so by `lawful`.'),
)


def asked(clause: str) -> str:
    """Returns what a `requires` clause asks, in words, or an empty line."""
    _, term = parts(clause)
    return next((said for form, said in ASKED if re.fullmatch(form, term)), '')


def parts(clause: str) -> tuple[str, str]:
    """Returns the name of a clause, which may be empty, and its term on one line."""
    found = CLAUSE.fullmatch(clause)
    if not found:
        raise Stop(f'an unknown clause: {clause}')
    return (found[1] or '').strip(), ' '.join(found[2].split())


def is_one_argument(text: str) -> bool:
    """Returns whether a term is one word, or one pair of brackets and what is in it."""
    if not text.startswith('('):
        return ' ' not in text
    depth = 0
    for at, character in enumerate(text):
        depth += {'(': 1, ')': -1}.get(character, 0)
        if depth == 0:
            return at == len(text) - 1
    return False


def is_after(form: re.Pattern[str], term: str) -> bool:
    """Returns whether a term is of this form, and nothing beside it."""
    found = form.fullmatch(term)
    return bool(found) and is_one_argument(found[1])


def check_form(clause: str, where: str) -> None:
    """Stops at an `ensures` whose name means something else than its form."""
    name, term = parts(clause)
    for it in NAMES:
        if name == it.name and clause.startswith('ensures') and not re.fullmatch(it.form, term):
            raise Stop(f'{where}: a clause {name} was to have the form {it.form}')


def listed(names: Sequence[str]) -> str:
    """Returns names, each as code."""
    return ', '.join(f'`{name}`' for name in names)


def head_of(term: str) -> str:
    """Returns the first word of a term, or an empty one if the term is more than a word and its
    arguments."""
    depth, words = 0, term.split(' ')
    for word in words:
        if depth == 0 and word in OPERATORS:
            return ''
        depth += sum({'(': 1, '{': 1, ')': -1, '}': -1}.get(it, 0) for it in word)
    return words[0]


def head(clause: str) -> str:
    """Returns the first word of a clause's term, or of what it says after `Ok`, after an error, or
    for all values of a type."""
    term = parts(clause)[1]
    found = next((form.fullmatch(term) for form in (AFTER_OK, AFTER_ERROR) if is_after(form, term)), None)
    inner = found[1][1:-1] if found and found[1].startswith('(') else found[1] if found else term
    return head_of(FOR_ALL.sub('', re.sub(r'λ \w+\. ', '', inner, count=1)))


def words_of(term: str) -> str:
    """Returns what a term of a known form says, or an empty line."""
    return EXACT.get(term) or next((said for form, said in SAID if re.fullmatch(form, term)), '')


def check_rows(terms: Collection[str]) -> None:
    """Stops at a row of `EXACT` or `SAID` that no clause has."""
    for term in EXACT:
        if term not in terms:
            raise Stop(f'to_rust/glosses.py has words for a clause that no call has: {term}')
    for form, _ in SAID:
        if not any(re.fullmatch(form, it) for it in terms):
            raise Stop(f'to_rust/glosses.py has words for a form that no clause has: {form}')


def told(clauses: Sequence[tuple[str, str]]) -> str:
    """Returns the names of clauses with what their terms say. Clauses of unknown forms are left
    out: the form of a clause shows when it holds."""
    return '; '.join(f'`{name}`, {words_of(term)}' for name, term in clauses if words_of(term))


def gloss(clauses: Sequence[str], sentences: Mapping[str, str] | None = None) -> str:
    """Returns what the clauses of known forms say, and when, and the sentences of the definitions
    that clauses are. Other clauses are left out: their form shows when they hold."""
    sorted_clauses = [parts(it) for it in clauses]
    ok = [it for it in sorted_clauses if is_after(AFTER_OK, it[1])]
    error = [it for it in sorted_clauses if is_after(AFTER_ERROR, it[1])]
    said: dict[str, list[str]] = {}
    for it in clauses:
        if it in (sentences or {}) and not words_of(parts(it)[1]):
            said.setdefault(sentences[it], []).append(parts(it)[0])
    if len(clauses) == 1:
        when = 'After `Ok`' if ok else 'After an error' if error else ''
        words = words_of(sorted_clauses[0][1])
        if words:
            return f'{when}, {words}.' if when else words[0].upper() + words[1:] + '.'
        return ': '.join(filter(None, [when, *said])) if said else ''
    always = [it for it in sorted_clauses if it not in ok + error]
    groups = [('After `Ok`', ok), ('After an error', error), ('In any case', always)]
    if said:
        return items(groups, {name: sentence for sentence, names in said.items() for name in names})
    return ' '.join(f'{when}: {told(found)}.' for when, found in groups if told(found))


def items(groups: Sequence[tuple[str, list[tuple[str, str]]]], sentences: Mapping[str, str]) -> str:
    """Returns a list of what clauses say and when: an item for each sentence and each known form,
    with the names of its clauses. Without more than one item it is a sentence."""
    found: dict[tuple[str, str], list[str]] = {}
    for when, clauses in groups:
        for name, term in clauses:
            if said := sentences.get(name) or words_of(term):
                found.setdefault(('' if when == 'In any case' else when, said.rstrip('.') + '.'), []).append(name)
    lines = []
    for (when, said), names in found.items():
        head = ', '.join(filter(None, [when, listed(filter(None, names))]))
        lines.append(f'{head}: {said}' if head else said)
    return lines[0] if len(lines) == 1 else '\n'.join(f'- {line}' for line in lines)


def names_table() -> str:
    """Returns the table of names, in Markdown."""
    return '| name | |\n|---|---|\n' + ''.join(f'| `{it.name}` | {it.meaning} |\n' for it in NAMES)
