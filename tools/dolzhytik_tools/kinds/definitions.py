"""The rows of kinds in definitions and proofs, laid out as `rt fmt` does it."""
from __future__ import annotations

import re
from collections.abc import Callable, Iterable

from ..instructions.regions import Region
from .sources import FIRST_NAMES, named, with_ids
from .table import IDS, Kind, term

SPECS, PROOFS = "crates/wasm_reader/specs", "crates/wasm_reader/proofs"
# Kinds of a vector whose goals about an error the search leaves open too.
OPEN = ("Functions",)
# Items whose names are also those of kinds.
RENAMED = {it.rpartition(" ")[2]: it for it in ("Hints as FunctionHints", "Relocations as RelocationsModel")}
# How many members of a nested list of lambdas `rt fmt` has on its last line.
ON_ONE_LINE = 5


def listed(rows: list[str], first: int) -> str:
    """Returns a list whose first rows are on one line, and the others on a line each."""
    lines = [" ∷ ".join(rows[:first]), *(f"∷ {it}" for it in rows[first:]), "∷ []"]
    return "".join(f"    {it}\n" for it in lines)


def viewed(kind: Kind) -> str:
    """Returns the case of `contents_of`."""
    bound = ["v"] if kind.view.startswith("map ") else list(dict.fromkeys(re.findall(r"(?<![\w.])(?:n|b|v|x|section)(?!\w)", kind.view)))
    return f"contents_of (items.{kind.case} {' '.join(bound)}) = {kind.case} {term_of(kind.view)}\n"


def term_of(view: str) -> str:
    return view if view.startswith("(") else term(view)


def definitions(kinds: list[Kind]) -> list[Region]:
    """Returns the regions of Kinds.antt."""
    first = next(n for n, it in enumerate(kinds) if it.is_custom)
    in_order = [f"kinds.{it.case}" for it in kinds]
    numbered = "".join(f"number_in ({it.case} {it.bound}) = Some {'1' if it.is_number else '(length xs)'}\n" for it in kinds if it.is_vector or it.is_number)
    words = of_customs("Rattle.wasm_custom.specs.Words", kinds, lambda it: f"{it.content} {it.view} {it.format} {name_of(it) if it.name else ''}")
    return [
        Region(("use Rattle.wasm_types.specs.Words.{",), words),
        Region(("pub data Contents :",), "".join(f"  {it.case} : {it.content} → Contents\n" for it in kinds)),
        Region(("abbrev pub content :",), "".join(f"content kinds.{it.case} = mapped {it.case} {term(it.format)}\n" for it in kinds)),
        Region(("abbrev pub grammars_of :",), "".join(f"grammars_of kinds.{it.case} = {it.written}\n" for it in kinds if it.grammars == "builders") + "grammars_of kind = both_grammars\n"),
        Region(("abbrev pub kind_in :",), "".join(f"kind_in ({it.case} {it.bound}) = kinds.{it.case}\n" for it in kinds)),
        Region(("abbrev pub contents_of :",), "".join(map(viewed, kinds))),
        Region(("kinds_in_order =",), f"    {' ∷ '.join(in_order[:first])}\n    ∷ {' ∷ '.join(in_order[first:])} ∷ []\n"),
        Region(("known_kinds =",), listed([f"(number_of ids.{IDS[n]}, kinds.{it.case})" for n, it in with_ids(kinds)], 6)),
        Region(("known_names =",), listed([f"({name_of(it)}, kinds.{it.case})" for it in named(kinds)], len(FIRST_NAMES))),
        Region(("abbrev pub number_in :",), f"{numbered}number_in x = None\n"),
    ]


def name_of(kind: Kind) -> str:
    """Returns the definition of its name."""
    return kind.format.removesuffix("_payload") + "_name"


def nested(rows: list[str]) -> str:
    """Returns a list of rows that are not the same, as pairs."""
    return "".join(f"({it}, " for it in rows) + "tt" + ")" * len(rows)


def lambdas(row: str, count: int, indent: str) -> str:
    """Returns such a list of one lambda, which has a line of its own except in the last pairs."""
    if count <= ON_ONE_LINE:
        return f"{indent}{nested([row] * count)},\n"
    return f"{indent}(\n{indent}  {row},\n{lambdas(row, count - 1, indent + '  ')}{indent}),\n"


def uncounted(kinds: list[Kind]) -> str:
    counted = [it for it in kinds if it.is_vector] + [it for it in kinds if it.is_number]
    given = " ".join(f"n{n}" for n in range(len(counted)))
    premises = "".join(f"kind ≢ kinds.{it.case} → " for it in counted)
    found = f"pub uncounted : (kind : SectionKind) (m : Mode) (s : List ℕ) (x : Contents) → content kind m s x → {premises}None ≡ number_in x\n"
    for it in kinds:
        if it in counted:
            found += f"uncounted kinds.{it.case} m s x h {given} = absurd (n{counted.index(it)} refl)\n"
    return found + f"uncounted kind m s x h {given} = ap number_in h.1\n"


def laws(kinds: list[Kind]) -> list[Region]:
    """Returns the regions of KindLaws.antt."""
    vectors, names = [it for it in kinds if it.is_vector], named(kinds)
    kept = nested([f"named_kept {it.case} {name_of(it)} kinds.{it.case} refl" for it in names])
    counted = "\n".join(
        f"pub {it.snake}_counted : CountsAs {it.case} {it.format.removeprefix('vec ')} kinds.{it.case}\n{it.snake}_counted = count_as {it.case} refl (λ xs. refl)\n" for it in vectors
    )
    none = "λ m s x g. sym (ap number_in g.1)"
    is_uncounted = lambdas(none, len(names), "    ").removeprefix("    (\n").removesuffix("    ),\n")
    words = of_customs("Rattle.wasm_custom.proofs.Words", kinds, lambda it: f"{it.whole.removesuffix('.whole')} {name_of(it) if it.name else ''}")
    return [
        Region(("use Rattle.wasm_types.proofs.Words.{",), words + constructors("Rattle.wasm_reader.specs", kinds)),
        Region(("abbrev pub row :",), "".join(f"row kinds.{it.case} = of {it.case} refl (λ x y e. cc) {term(it.whole)}\n" for it in kinds)),
        Region(("-- ---- numbers of kinds", ""), f"pub no_kind : (n : ℕ) → {len(kinds)} ≤ n → None ≡ kind_numbered n\nno_kind n past = sym (slice_get_past kinds_in_order n past)\n"),
        Region(
            ("pub keeps_name :",),
            f"keeps_name n = for_if (KeepsName n) (begins_with relocations_prefix n) (relocations_kept n) (kept_among known_names {kept} n)\n",
        ),
        Region(("count_as f is numbered m kind bytes (Err", ""), f"{counted}\npub ruleset number_steps = ({', '.join(f'{it.snake}_counted' for it in vectors)})\n"),
        Region(("-- Sections of the other kinds have no number",), uncounted(kinds)),
        Region(
            ("pub named_uncounted :",),
            f"named_uncounted n = for_if IsUncounted (begins_with relocations_prefix n) ({none})\n    (uncounted_among known_names (\n{is_uncounted}    ) n)\n",
        ),
    ]


def values(kinds: list[Kind]) -> list[Region]:
    """Returns the regions of KindValues.antt."""
    own, others = ([it for it in kinds if it.has_own_lemma is is_own] for is_own in (True, False))
    return [
        Region(
            ("use Rattle.wasm_base.specs.declared.refused.Refused.TheVariants.{TooLong}",),
            of_customs("Rattle.wasm_custom.proofs.Words", kinds, lambda it: it.format) + constructors("Rattle.wasm_reader.specs", kinds),
        ),
        Region(("abbrev pub value_in :",), "".join(f"value_in ({it.case} x) = x\n" for it in kinds)),
        Region(("abbrev pub AppendsValue :",), "".join(f"AppendsValue ({it.case} x) old new = AppendsMinimal {it.written} {term(it.format)} x old new\n" for it in others) + "AppendsValue x old new = ⊥\n"),
        Region(
            ("pub value_appended :",),
            "".join(f"value_appended ({it.case} x) old new a = absurd a\n" for it in own) + "value_appended c old new a = items_appended c (value_in c) old new (made c) a\n",
        ),
        Region(("abbrev pub FitsValue :",), "".join(f"FitsValue ({it.case} x) r = HasEncoding {it.written} {term(it.format)} x → r ≢ Err TooLong\n" for it in others) + "FitsValue x r = ⊥\n"),
        Region(
            ("pub value_fits :",),
            "".join(f"value_fits ({it.case} x) r fits h = absurd fits\n" for it in own) + "value_fits c r fits h = items_fit c (value_in c) r (made c) fits h\n",
        ),
    ]


def read_answers(kinds: list[Kind]) -> str:
    """Returns the answers of `read_content`: of each custom section, that a failed call means that the
    bytes are none."""
    found = []
    for it in kinds:
        if it.is_custom or it.case in OPEN:
            call = it.fields[0][0] if it.has_fields else f"read_{it.stem}" if it.is_custom else "read_whole"
            at = f"in_err-{call}-in-{it.case}"
            found.append(
                f"pub returns-{at}-clause-none : goal.returns-{at}-clause-none\n"
                f"returns-{at}-clause-none g c = fault_stays c.from_residual-{at}.result _ c.from_residual-{at}.ensures.1"
                f" λ n. rejects c.args.kind kinds.{it.case} _ c.args.bytes.now c.in-{it.case}.is (c.{at}.ensures.none n)\n"
            )
    return "\n".join(found)


def walk_answers(kinds: list[Kind]) -> str:
    """Returns the answers of `walk_content`."""
    found = []
    first = next(it for it in kinds if it.is_vector or it.is_number)
    for it in kinds:
        if it.known == "-":
            continue
        call = f"walk_{it.stem}" if it.is_custom else "walk_whole" if it == first else f"walk_whole-in-{it.case}"
        goal, of = f"returns-in-{it.case}-clause", f"c.{call}.result c.in-{it.case}.is c.{call}.ensures"
        found.append(f"pub {goal}-found : goal.{goal}-found\n{goal}-found g c = kind_walks _ _ kinds.{it.case} c.args.kind c.args.bytes.now _ _ {of}.found\n")
        if it.is_custom or it.case in OPEN:
            found.append(f"pub {goal}-none : goal.{goal}-none\n{goal}-none g c = kind_rejects kinds.{it.case} c.args.kind _ c.args.bytes.now {of}.none\n")
    return "\n".join(found)


def imports(module: str, names: Iterable[str]) -> str:
    """Returns the lines that import these names."""
    lines, head = [""], f"use {module}.{{"
    for name in names:
        if len(head) + len(lines[-1]) + len(name) > 200:
            lines.append("")
        lines[-1] += f"{', ' if lines[-1] else ''}{name}"
    return "".join(f"{head}{it}}}\n" for it in lines)


def constructors(module: str, kinds: list[Kind]) -> str:
    """Returns the lines that import the cases of `Contents`."""
    return imports(module, (it.case for it in kinds))


def of_customs(module: str, kinds: list[Kind], terms: Callable[[Kind], str]) -> str:
    """Returns the lines that import the names in these terms of custom sections."""
    found = (word for it in kinds if it.is_custom for word in re.findall(r"(?<![\w.])\w{2,}", terms(it)) if word not in ("List", "map", "section"))
    return imports(module, dict.fromkeys(RENAMED.get(it, it) for it in found))


def kept_encodable(kind: Kind) -> str:
    """Returns the case of `content_maps`: the format has an encoding of the mapped content."""
    if not kind.is_mapped:
        how, lemma = "(λ x. x)", "kept"
    else:
        function = kind.mapped.removesuffix(f" {kind.mapped_from}")
        how = "_" if kind.mapped.startswith("(") else f"({function})"
        item = re.search(r"remapped_(\w+)", kind.mapped)
        space = re.search(r"m (spaces\.\w+)", kind.mapped)
        stem = kind.format.removesuffix("_payload") if kind.is_custom else item[1] if item else "index"
        lemma = f"({stem}_maps m small{f' {space[1]}' if space else ''})"
        if "size_prefixed" in kind.format:
            lemma = f"(size_prefixed_maps {lemma})"
        if kind.is_vector:
            lemma = f"(vec_maps {lemma})"
    return f"  content_maps kinds.{kind.case} = mapped_maps {kind.case} {how} (λ x. refl) {lemma}\n"


def regions(kinds: list[Kind]) -> dict[str, list[Region]]:
    """Returns the regions of definitions and proofs."""
    last_built = [it for it in kinds if it.grammars == "builders"][-1]
    return {
        f"{SPECS}/Kinds.antt": definitions(kinds),
        f"{PROOFS}/KindLaws.antt": laws(kinds),
        f"{PROOFS}/KindValues.antt": values(kinds),
        f"{PROOFS}/kinds/read_content/Answers.antt": [Region(("use Rattle.wasm_reader.proofs.kinds.read_content.Goals as goal", ""), read_answers(kinds))],
        f"{PROOFS}/walk/walk_content/Answers.antt": [Region(("use Rattle.wasm_reader.proofs.walk.walk_content.Goals as goal", ""), walk_answers(kinds))],
        f"{PROOFS}/BuiltSections.antt": [
            Region(
                ("content_built : (kind", f"content_built kinds.{last_built.case} "),
                "".join(f"content_built kinds.{it.case} s x e short h = absurd (not_alone e)\n" for it in kinds if it.grammars != "builders"),
            )
        ],
        "crates/wasm_remap/proofs/MappedSections.antt": [
            Region(("use Rattle.wasm_base.specs.Numbers.{",), constructors("Rattle.wasm_reader.specs.Kinds", kinds)),
            Region(("  pub content_maps : (kind",), "".join(map(kept_encodable, kinds))),
        ],
        "crates/wasm_remap/specs/Sections.antt": [Region(("abbrev pub remapped :",), "".join(f"remapped m ({it.case} {it.mapped_from}) = {it.case} {term_of(it.mapped)}\n" for it in kinds))],
    }
