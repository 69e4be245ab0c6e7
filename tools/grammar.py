#!/usr/bin/env python3
"""Writes the tables of `usda_grammar`, and what is computed of them.

    python3 tools/grammar.py            writes the files
    python3 tools/grammar.py --check    says which of them differ, and writes nothing

The rows below are the one source: a line for each symbol, with the kinds of tokens that it may begin with and the
symbols that follow each. From them come the table as definitions and as code, the tokens that may follow each symbol,
the shortest text of each, and the rows of the proof that the table has the texts of the productions. The productions
themselves stand in crates/usda_productions/specs/Rules.antt and are written by hand: a row that does not say what they
say is refused by the prover. The script stops where a token could be taken in two ways.
"""
import os
import re
import sys
from collections import Counter

TOP = os.path.dirname(os.path.dirname(os.path.abspath(__file__)))
GRAMMAR = "crates/usda_grammar/"
PRODUCTIONS = "crates/usda_productions/"

WORDS = """Specifier StringField PathField ReferenceField Edit Reorder Variants VariantSet SubLayers RootPrims
OrderedField Custom Variability Rel TimeSamples Connect Spline NoneWord Dictionary Other""".split()
OTHERS = """Number Quoted Asset Path OpenParen CloseParen OpenBrace CloseBrace OpenBracket CloseBracket Equals Comma
Semicolon Colon Dot Fault""".split()
KINDS = WORDS + OTHERS

SYMBOLS = []       # (module, name, what it is, rows, whether it may be absent)
MODULES = {}       # module -> what it has


def module(name, about):
    MODULES[name] = about


def symbol(name, about, rows, absent=False):
    SYMBOLS.append((list(MODULES)[-1], name, about, rows, absent))


def words(after, but=()):
    """A row for each word but these."""
    return [(word, after) for word in WORDS if word not in but]


def items(prefix, alone, about, item, close="CloseBracket"):
    """Items with commas between them and perhaps one behind them, up to a closing mark. `item` gives the rows of an item
    before the symbols that it is given; `alone` has names for what may begin with an item or end, and for what follows one."""
    symbol(alone[0], f"The next of {about}, or the end of them.", [(close, [])] + item([alone[1]]))
    symbol(alone[1], f"What follows one of {about}.", [("Comma", [alone[0]]), (close, [])])


# ---- layers
module("Layers", "Single tokens, and the statements of a layer: its head, its sublayers and its root prims.")
symbol("Equals", "`=`", [("Equals", [])])
symbol("Colon", "`:`", [("Colon", [])])
symbol("Dot", "`.`", [("Dot", [])])
symbol("CloseParen", "`)`", [("CloseParen", [])])
symbol("OpenBrace", "`{`", [("OpenBrace", [])])
symbol("CloseBrace", "`}`", [("CloseBrace", [])])
symbol("CloseBracket", "`]`", [("CloseBracket", [])])
symbol("RootPrims", "The word `rootPrims`.", [("RootPrims", [])])
symbol("OffsetNumber", "The number of an offset or a scale.", [("Number", [])])
symbol("BodyEnd", "The `}` behind the statements of a prim or a variant.", [("CloseBrace", [])])
symbol("PrimName", "The name of a prim, in quotes.", [("Quoted", [])])
symbol("SetName", "The name of a variant set, in quotes.", [("Quoted", [])])
symbol("MaybeSemicolon", "`;`, or nothing.", [("Semicolon", [])], True)
symbol("MaybeHead", "The metadata of the layer in brackets, or nothing.", [("OpenParen", ["HeadItems", "CloseParen"])], True)
symbol("HeadItems", "The metadata of the layer.",
       [("Quoted", ["MaybeSemicolon", "HeadItems"]), ("SubLayers", ["Equals", "SubLayerList", "MaybeSemicolon", "HeadItems"])]
       + words(["Equals", "Value", "MaybeSemicolon", "HeadItems"], ["SubLayers"]), True)
symbol("SubLayerList", "The list of sublayers.", [("OpenBracket", ["SubLayersOrEnd"])])
items("SubLayers", ("SubLayersOrEnd", "MoreSubLayers"), "the sublayers", lambda more: [("Asset", ["MaybeOffsets"] + more)])
symbol("MaybeOffsets", "Offset and scale in brackets, or nothing.", [("OpenParen", ["OffsetItems", "CloseParen"])], True)
symbol("OffsetItems", "Offset and scale.", words(["Equals", "OffsetNumber", "MaybeSemicolon", "OffsetItems"]), True)
PRIM = ["MaybeTypeName", "PrimName", "MaybePrimMetadata", "OpenBrace", "PrimBody", "BodyEnd", "MaybeSemicolon"]
symbol("RootStatements", "The root prims, and the orders of them.",
       [("Specifier", PRIM + ["RootStatements"]), ("Reorder", ["RootPrims", "Equals", "NameList", "MaybeSemicolon", "RootStatements"])], True)

# ---- prims
module("Prims", "The head of a prim, its metadata, and the lists that edit its fields.")
symbol("MaybeTypeName", "The type of a prim, or nothing.", words([]), True)
symbol("MaybePrimMetadata", "The metadata of a prim or a variant in brackets, or nothing.", [("OpenParen", ["PrimMetadata", "CloseParen"])], True)


def fields(more):
    return [("StringField", ["Equals", "StringList"] + more), ("PathField", ["Equals", "PathList"] + more),
            ("ReferenceField", ["Equals", "ReferenceList"] + more)]


symbol("PrimMetadata", "The metadata of a prim or a variant.",
       [("Quoted", ["MaybeSemicolon", "PrimMetadata"]), ("Edit", ["EditedField", "MaybeSemicolon", "PrimMetadata"]),
        ("Reorder", ["EditedField", "MaybeSemicolon", "PrimMetadata"]), ("Variants", ["Equals", "Dictionary", "MaybeSemicolon", "PrimMetadata"])]
       + fields(["MaybeSemicolon", "PrimMetadata"])
       + words(["Equals", "Value", "MaybeSemicolon", "PrimMetadata"], ["Edit", "Reorder", "Variants", "StringField", "PathField", "ReferenceField"]), True)
symbol("EditedField", "What follows an edit word: a field and its list, or the value of a key of that name.", fields([]) + [("Equals", ["Value"])])


def field_list(name, plural, about, item):
    symbol(name + "List", f"{about[0].upper() + about[1:]}: none, one, or a list in brackets.", [("NoneWord", [])] + item([]) + [("OpenBracket", [plural + "OrEnd"])])
    items(plural, (plural + "OrEnd", "More" + plural), about, item)


field_list("String", "Strings", "the strings of a list", lambda more: [("Quoted", more)])
field_list("Path", "Paths", "the paths of a list", lambda more: [("Path", more)])
field_list("Reference", "References", "the references or payloads of a list",
           lambda more: [("Asset", ["MaybePath", "MaybeOffsets"] + more), ("Path", ["MaybeOffsets"] + more)])
symbol("MaybePath", "The path of a prim behind an asset, or nothing.", [("Path", [])], True)
symbol("VariantList", "The variants of a set.", [("Quoted", ["MaybePrimMetadata", "OpenBrace", "PrimBody", "BodyEnd", "VariantList"])], True)

# ---- properties
module("Properties", "The body of a prim: properties, variant sets, orders and children.")
TYPED = ["MaybeBrackets", "PropertyName", "MaybeAttributeTail"]
RELATIONSHIP = ["PropertyName", "MaybeTargets", "MaybePropertyMetadata"]
CONNECTION = ["MaybeBrackets", "PropertyName", "Dot", "ConnectWord"]
STATEMENT_WORDS = ["Specifier", "VariantSet", "Reorder", "Edit", "Custom", "Variability", "Rel"]
symbol("PrimBody", "The statements of a prim or a variant.",
       [("Specifier", PRIM + ["PrimBody"]),
        ("VariantSet", ["SetName", "Equals", "OpenBrace", "VariantList", "CloseBrace", "MaybeSemicolon", "PrimBody"]),
        ("Reorder", ["AfterReorder", "MaybeSemicolon", "PrimBody"]), ("Edit", ["AfterEdit", "MaybeSemicolon", "PrimBody"]),
        ("Custom", ["AfterCustom", "MaybeSemicolon", "PrimBody"]), ("Variability", ["AfterVariability", "MaybeSemicolon", "PrimBody"]),
        ("Rel", RELATIONSHIP + ["MaybeSemicolon", "PrimBody"])]
       + words(TYPED + ["MaybeSemicolon", "PrimBody"], STATEMENT_WORDS), True)
symbol("AfterCustom", "What follows `custom`.",
       [("Variability", ["AfterVariability"]), ("Rel", RELATIONSHIP)] + words(TYPED, ["Variability", "Rel"]))
symbol("AfterVariability", "What follows `uniform` or `varying`.", [("Rel", RELATIONSHIP)] + words(TYPED, ["Rel"]))
symbol("AfterEdit", "What follows an edit word.",
       [("Custom", ["AfterEditedCustom"]), ("Variability", ["AfterEditedVariability"]), ("Rel", RELATIONSHIP)]
       + words(CONNECTION, ["Custom", "Variability", "Rel"]))
symbol("AfterReorder", "What follows `reorder`.",
       [("OrderedField", ["Equals", "NameList"]), ("Custom", ["AfterEditedCustom"]), ("Variability", ["AfterEditedVariability"]), ("Rel", RELATIONSHIP)]
       + words(CONNECTION, ["OrderedField", "Custom", "Variability", "Rel"]))
symbol("AfterEditedCustom", "What follows an edit word and `custom`.",
       [("Variability", ["AfterEditedVariability"]), ("Rel", RELATIONSHIP)] + words(CONNECTION, ["Variability", "Rel"]))
symbol("AfterEditedVariability", "What follows an edit word and `uniform` or `varying`.", [("Rel", RELATIONSHIP)] + words(CONNECTION, ["Rel"]))
symbol("MaybeBrackets", "`[` and `]`, which make the type that of an array, or nothing.", [("OpenBracket", ["CloseBracket"])], True)
symbol("PropertyName", "The name of a property.", words([]))
symbol("MaybeAttributeTail", "The value of an attribute and its metadata, or its samples or connections, or nothing.",
       [("Equals", ["Value", "MaybePropertyMetadata"]), ("OpenParen", ["PropertyMetadata", "CloseParen"]), ("Dot", ["AfterDot"])], True)
symbol("AfterDot", "What follows the `.` behind an attribute's name.",
       [("TimeSamples", ["Equals", "OpenBrace", "SamplesOrEnd"]), ("Connect", ["Equals", "PathList"]), ("Spline", [])])
symbol("ConnectWord", "What follows the `.` behind the name of an attribute that is edited.", [("Connect", ["Equals", "PathList"]), ("Spline", [])])
items("Samples", ("SamplesOrEnd", "MoreSamples"), "the samples", lambda more: [("Number", ["Colon", "Value"] + more)], "CloseBrace")
symbol("MaybeTargets", "The targets of a relationship, or nothing.", [("Equals", ["PathList"])], True)
symbol("MaybePropertyMetadata", "The metadata of a property in brackets, or nothing.", [("OpenParen", ["PropertyMetadata", "CloseParen"])], True)
symbol("PropertyMetadata", "The metadata of a property.",
       [("Quoted", ["MaybeSemicolon", "PropertyMetadata"])] + words(["Equals", "Value", "MaybeSemicolon", "PropertyMetadata"]), True)

# ---- values
module("Values", "Values, dictionaries and lists of names.")


def value(more):
    return words(more) + [(kind, more) for kind in ("Number", "Quoted", "Asset", "Path")] + [
        ("OpenParen", ["Value", "MoreMembers"] + more), ("OpenBracket", ["ElementsOrEnd"] + more), ("OpenBrace", ["DictionaryEntries", "CloseBrace"] + more)]


symbol("Value", "A value.", value([]))
items("Members", ("MembersOrEnd", "MoreMembers"), "the members of a tuple", value, "CloseParen")
items("Elements", ("ElementsOrEnd", "MoreElements"), "the elements of an array", value)
symbol("Dictionary", "A dictionary.", [("OpenBrace", ["DictionaryEntries", "CloseBrace"])])
ENTRY = ["EntryKey", "Equals", "Value", "MaybeSeparator", "DictionaryEntries"]
symbol("DictionaryEntries", "The entries of a dictionary.", [("Dictionary", ENTRY)] + words(["MaybeBrackets"] + ENTRY, ["Dictionary"]), True)
symbol("EntryKey", "The key of an entry.", words([]) + [("Quoted", [])])
symbol("MaybeSeparator", "`;` or `,`, or nothing.", [("Semicolon", []), ("Comma", [])], True)
symbol("NameList", "A list of names in quotes.", [("OpenBracket", ["NamesOrEnd"])])
items("Names", ("NamesOrEnd", "MoreNames"), "the names", lambda more: [("Quoted", more)])

START = ["MaybeHead", "RootStatements"]

NAMES = [name for _, name, _, _, _ in SYMBOLS]
ROWS = {name: rows for _, name, _, rows, _ in SYMBOLS}
ABSENT = {name for _, name, _, _, absent in SYMBOLS if absent}


# ---- what is computed

def first(name):
    return {kind for kind, _ in ROWS[name]}


def followed():
    """The tokens that may follow each symbol in some text."""
    follow = {name: set() for name in NAMES}
    changed = True
    while changed:
        changed = False
        for owner, row in [(None, START)] + [(name, after) for name in NAMES for _, after in ROWS[name]]:
            behind = set(follow[owner]) if owner else set()
            for name in reversed(row):
                if not behind <= follow[name]:
                    follow[name] |= behind
                    changed = True
                behind = first(name) | (behind if name in ABSENT else set())
    return follow


def check():
    for name in NAMES:
        kinds = [kind for kind, _ in ROWS[name]]
        assert len(kinds) == len(set(kinds)), f"{name} takes a token in two ways"
        for kind, after in ROWS[name]:
            assert kind in KINDS and all(x in ROWS for x in after), (name, kind, after)
    for name in ABSENT:
        both = first(name) & FOLLOW[name]
        assert not both, f"{name} may be absent before {both}, which it takes"


FOLLOW = followed()
check()


def needs_follow():
    """Symbols that may be absent, and those at whose end one stands."""
    ends = {name for name in NAMES if name not in ABSENT and any(after and after[-1] in ABSENT for _, after in ROWS[name])}
    changed = True
    while changed:
        changed = False
        for name in NAMES:
            if name not in ABSENT and name not in ends and any(after and after[-1] in ends for _, after in ROWS[name]):
                ends.add(name)
                changed = True
    return [name for name in NAMES if name in ABSENT or name in ends]


def shortest():
    """For each symbol that may not be absent, the row of its shortest text."""
    cost, best = {name: 0 for name in ABSENT}, {}
    changed = True
    while changed:
        changed = False
        for name in NAMES:
            if name in ABSENT:
                continue
            for kind, after in ROWS[name]:
                if all(x in cost for x in after):
                    total = 1 + sum(cost[x] for x in after)
                    if total < cost.get(name, total + 1):
                        cost[name], best[name], changed = total, (kind, after), True
    assert len(cost) == len(NAMES), [name for name in NAMES if name not in cost]
    return best


BEST = shortest()


# ---- how it is written

def snake(name):
    return re.sub(r"(?<!^)([A-Z])", r"_\1", name).lower()


def listed(xs):
    return " ∷ ".join(list(xs) + ["[]"])


def token(kind):
    return f"(token.Word word.{kind})" if kind in WORDS else f"token.{kind}"


def rust(kind):
    return f"WordKind::Word(Keyword::{kind})" if kind in WORDS else f"WordKind::{kind}"


def grouped(rows):
    """The rows, with one for all words that have the commonest row where each word has one."""
    by_kind = dict(rows)
    there = [word for word in WORDS if word in by_kind]
    out = []
    if len(there) == len(WORDS):
        common = Counter(tuple(by_kind[word]) for word in there).most_common(1)[0][0]
        out += [(word, by_kind[word]) for word in there if tuple(by_kind[word]) != common]
        out.append(("any word", list(common)))
    else:
        out += [(word, by_kind[word]) for word in there]
    return out + [(kind, by_kind[kind]) for kind, _ in rows if kind in OTHERS]


def antt_head(about, *uses):
    return f"-- {about} Written by tools/grammar.py.\n" + "".join(f"use {use}\n" for use in uses) + "\n"


DECLARED = "Rattle.usda_grammar.specs.declared."
ENUMS = [DECLARED + "kinds.WordKind.{WordKind}", DECLARED + "kinds.WordKind.TheVariants as token",
         DECLARED + "kinds.Keyword.TheVariants as word", DECLARED + "symbols.Symbol.{Symbol}", DECLARED + "symbols.Symbol.TheVariants as symbol"]


def specs_of(part):
    out = antt_head(f"What may come next: {MODULES[part][0].lower() + MODULES[part][1:]}",
                    "Rattle.std.specs.Prelude.{List, [], ◌∷◌, Option, Some, None}", *ENUMS)
    for where, name, about, rows, _ in SYMBOLS:
        if where != part:
            continue
        text = about[0].lower() + about[1:].rstrip(".")
        out += f"-- {text}\nabbrev pub {snake(name)} : WordKind → Option (List Symbol)\n"
        for kind, after in grouped(rows):
            pattern = "(token.Word w)" if kind == "any word" else token(kind)
            out += f"{snake(name)} {pattern} = Some ({listed('symbol.' + x for x in after)})\n"
        if len(rows) < len(KINDS):
            out += f"{snake(name)} k = None\n"
        out += "\n"
    out += f"-- the symbols of this part\nabbrev pub {part.lower()}_starts : Symbol → WordKind → Option (List Symbol)\n"
    out += "".join(f"{part.lower()}_starts symbol.{name} k = {snake(name)} k\n" for where, name, _, _, _ in SYMBOLS if where == part)
    return out + f"{part.lower()}_starts s k = None\n"


def specs_table():
    uses = [f"Rattle.usda_grammar.specs.{part}.{{{part.lower()}_starts}}" for part in MODULES]
    out = antt_head("The table: what each symbol may begin with, and which symbols may be absent.",
                    "Rattle.std.specs.Prelude.{Bool, true, false, List, [], ◌∷◌, Option, Some, None}", *ENUMS[:1], *ENUMS[3:], *uses)
    out += "-- a layer: its head and its root prims\nabbrev pub layer : List Symbol\nlayer = " + listed("symbol." + x for x in START) + "\n\n"
    out += """-- the one of two that there is: each symbol is of one part
abbrev pub some_of : Option (List Symbol) → Option (List Symbol) → Option (List Symbol)
some_of (Some after) rest = Some after
some_of None rest = rest

-- what follows a token that is the first of a symbol, where it may be the first
abbrev pub starts : Symbol → WordKind → Option (List Symbol)
"""
    out += "starts s k = some_of (layers_starts s k) (some_of (prims_starts s k) (some_of (properties_starts s k) (values_starts s k)))\n"
    out += "\n-- nothing may stand for the symbol\nabbrev pub may_be_absent : Symbol → Bool\n"
    out += "".join(f"may_be_absent symbol.{name} = true\n" for name in NAMES if name in ABSENT) + "may_be_absent s = false\n"
    return out


def code_of(part):
    names = [name for where, name, _, _, _ in SYMBOLS if where == part]
    out = f"//! {MODULES[part]} Written by tools/grammar.py.\n"
    out += "ghost use Rattle.std.specs.Option.{option_map};\nghost use Rattle.std.specs.Prelude.{◌≡◌, List};\n"
    out += f"ghost use Rattle.usda_grammar.specs.{part}.{{{', '.join(snake(n) for n in names)}, {part.lower()}_starts}};\n\n"
    out += "use crate::kinds::{Keyword, WordKind};\nuse crate::symbols::Symbol;\n\nconst NONE: &[Symbol] = &[];\n\n"
    for where, name, about, rows, _ in SYMBOLS:
        if where != part:
            continue
        out += f"/// {about if about.endswith('.') else about + '.'}\nfn {snake(name)}(kind: WordKind) -> Option<&'static [Symbol]>\n"
        out += f"    ensures {{ option_map (λ s. s.now) result ≡ {snake(name)} kind }}\n{{\n    match kind {{\n"
        for kind, after in grouped(rows):
            pattern = "WordKind::Word(_)" if kind == "any word" else rust(kind)
            out += f"        {pattern} => Some({'&[' + ', '.join('Symbol::' + x for x in after) + ']' if after else 'NONE'}),\n"
        out += ("        _ => None,\n" if len(rows) < len(KINDS) else "") + "    }\n}\n\n"
    out += f"/// What follows a token that is the first of a symbol of this part, where it may be the first.\npub fn starts(symbol: Symbol, kind: WordKind) -> Option<&'static [Symbol]>\n"
    out += f"    ensures {{ option_map (λ s. s.now) result ≡ {part.lower()}_starts symbol kind }}\n{{\n    match symbol {{\n"
    return out + "".join(f"        Symbol::{name} => {snake(name)}(kind),\n" for name in names) + "        _ => None,\n    }\n}\n"


def code_symbols():
    out = "//! What a layer's text goes on with. Written by tools/grammar.py.\n\n/// What a text goes on with: a token, a part of a statement, or any number of them.\n"
    out += "#[derive(Clone, Copy, Debug, PartialEq, Eq)]\npub enum Symbol {\n"
    for _, name, about, _, _ in SYMBOLS:
        out += f"    /// {about if about.endswith('.') else about + '.'}\n    {name},\n"
    return out + "}\n"


def code_table():
    out = "//! The table: what each symbol may begin with, and which symbols may be absent. Written by tools/grammar.py.\n"
    out += "ghost use Rattle.std.specs.Option.{option_map};\nghost use Rattle.std.specs.Prelude.{◌≡◌, List};\n"
    out += "ghost use Rattle.usda_grammar.specs.Table.{starts, may_be_absent, layer};\n\nuse crate::kinds::WordKind;\nuse crate::symbols::Symbol;\n"
    out += "use crate::{layers, prims, properties, values};\n\n/// A layer: its head and its root prims.\npub fn layer() -> &'static [Symbol]\n    ensures { result.now ≡ layer }\n{\n"
    out += f"    &[{', '.join('Symbol::' + x for x in START)}]\n}}\n\n"
    out += "/// What follows a token that is the first of a symbol, where it may be the first.\npub fn starts(symbol: Symbol, kind: WordKind) -> Option<&'static [Symbol]>\n"
    out += """    ensures { option_map (λ s. s.now) result ≡ starts symbol kind }
{
    if let Some(after) = layers::starts(symbol, kind) {
        Some(after)
    } else if let Some(after) = prims::starts(symbol, kind) {
        Some(after)
    } else if let Some(after) = properties::starts(symbol, kind) {
        Some(after)
    } else {
        values::starts(symbol, kind)
    }
}

"""
    out += "/// Whether nothing may stand for the symbol.\npub fn may_be_absent(symbol: Symbol) -> bool\n    ensures { result ≡ may_be_absent symbol }\n{\n    match symbol {\n"
    out += "".join(f"        Symbol::{name} => true,\n" for name in NAMES if name in ABSENT) + "        _ => false,\n    }\n}\n"
    return out


def proofs_kinds():
    out = antt_head("What holds of each kind of token holds of all.",
                    "Rattle.std.proofs.Common.{◌≡◌, ℕ, zero, suc, Bool, true, false, ◌&&◌, List, [], ◌∷◌, Option, Some, None, refl, ap, sym, ◌∙◌}", *ENUMS[:3])
    out += "abbrev pub kinds : List WordKind\nkinds =\n    " + " ∷ ".join([token(kind) for kind in KINDS] + ["[]"]) + "\n\n"
    out += """abbrev pub all : (WordKind → Bool) → List WordKind → Bool
all p [] = true
all p (k ∷ ks) = p k && all p ks

pub front : (a b : Bool) → (a && b) ≡ true → a ≡ true
front true b e = refl
front false b e = absurd cc

pub back : (a b : Bool) → (a && b) ≡ true → b ≡ true
back true b e = e
back false b e = absurd cc

abbrev at : List WordKind → ℕ → Option WordKind
at [] n = None
at (k ∷ ks) zero = Some k
at (k ∷ ks) (suc n) = at ks n

all-at : (p : WordKind → Bool) (ks : List WordKind) → all p ks ≡ true → (n : ℕ) (k : WordKind) → at ks n ≡ Some k → p k ≡ true
all-at p [] e n k same = absurd cc
all-at p (x ∷ ks) e zero k same = let f : x ≡ k = cc in ap p (sym f) ∙ front (p x) (all p ks) e
all-at p (x ∷ ks) e (suc n) k same = all-at p ks (back (p x) (all p ks) e) n k same

-- a test that each kind passes
pub all_kinds-at : (p : WordKind → Bool) → all p kinds ≡ true → (k : WordKind) → p k ≡ true
"""
    out += "".join(f"all_kinds-at p e {token(kind)} = all-at p kinds e {n} {token(kind)} refl\n" for n, kind in enumerate(KINDS))
    out += "\n-- a fact that each kind has\npub by_kind : (P : WordKind → Type 0) → " + " → ".join(f"P {token(kind)}" for kind in KINDS) + " → (k : WordKind) → P k\n"
    names = [f"h{n}" for n in range(len(KINDS))]
    out += "".join(f"by_kind P {' '.join(names)} {token(kind)} = h{n}\n" for n, kind in enumerate(KINDS))
    return out


def proofs_follow():
    out = antt_head("The tokens that may follow a symbol that may be absent, or at whose end one stands; any token, where it does not matter.",
                    "Rattle.std.specs.Prelude.{Bool, true, false}", *ENUMS)
    out += "abbrev pub may_follow : Symbol → WordKind → Bool\n"
    for name in needs_follow():
        all_words = all(word in FOLLOW[name] for word in WORDS)
        if all_words:
            out += f"may_follow symbol.{name} (token.Word w) = true\n"
        for kind in KINDS:
            if kind in FOLLOW[name] and not (all_words and kind in WORDS):
                out += f"may_follow symbol.{name} {token(kind)} = true\n"
        out += f"may_follow symbol.{name} k = false\n"
    return out + "may_follow s k = true\n"


def proofs_shortest():
    out = antt_head("Some text of each symbol.",
                    "Rattle.std.proofs.Common.{List, [], ◌∷◌, ◌++◌, refl}", *ENUMS, "Rattle.usda_grammar.specs.Derivations.{skips, takes, AreText}")

    def text(name):
        if name in ABSENT:
            return []
        kind, after = BEST[name]
        return [token(kind)] + [x for s in after for x in text(s)]

    def derived(names):
        if not names:
            return "d", "h"
        if names[0] in ABSENT:
            d, h = derived(names[1:])
            return f"(skips {d})", f"(refl, {h})"
        _, after = BEST[names[0]]
        d, h = derived(after + names[1:])
        return f"(takes {d})", f"({listed('symbol.' + x for x in after)}, refl, {h})"

    out += "abbrev pub shortest : Symbol → List WordKind\n"
    out += "".join(f"shortest symbol.{name} = {listed(text(name))}\n" for name in NAMES if name not in ABSENT) + "shortest s = []\n\n"
    out += "-- what stands behind a symbol, with the symbol's text before it\npub with_shortest : (s : Symbol) (stack : List Symbol) (ks : List WordKind) → AreText stack ks → AreText (s ∷ stack) (shortest s ++ ks)\n"
    for name in NAMES:
        d, h = derived([name])
        out += f"with_shortest symbol.{name} stack ks (d, h) = ({d}, {h})\n"
    return out


def proofs_rows():
    out = antt_head("The rows of the table are good, one symbol after another.",
                    "Rattle.std.proofs.Common.{◌≡◌, true, refl}", *ENUMS[3:], "Rattle.usda_grammar.proofs.AllKinds.{all, kinds}", "Rattle.usda_grammar.proofs.Good.{is_good}")
    out += "pub rows : (s : Symbol) → all (is_good s) kinds ≡ true\n"
    return out + "".join(f"rows symbol.{name} = refl\n" for name in NAMES)


def proofs_agree():
    out = antt_head("Each row of the table is the one way on of what its symbol stands for.",
                    "Rattle.std.proofs.Common.{◌≡◌, refl}", *ENUMS[:1], *ENUMS[3:], "Rattle.usda_grammar.specs.Table.{may_be_absent}",
                    "Rattle.usda_grammar.proofs.AllKinds.{by_kind}", "Rattle.usda_productions.proofs.Shapes.{form}", "Rattle.usda_productions.proofs.Ways.{absent, Agrees}")
    out += "pub table : (s : Symbol) (k : WordKind) → Agrees s k\n"
    out += "".join(f"table symbol.{name} = by_kind (Agrees symbol.{name}) {' '.join(['refl'] * len(KINDS))}\n" for name in NAMES)
    out += "\npub absent_same : (s : Symbol) → absent (form s) ≡ may_be_absent s\n"
    return out + "".join(f"absent_same symbol.{name} = refl\n" for name in NAMES)


def files():
    out = {}
    for part in MODULES:
        out[f"{GRAMMAR}specs/{part}.antt"] = specs_of(part)
        out[f"{GRAMMAR}src/{part.lower()}.rt"] = code_of(part)
    out[GRAMMAR + "specs/Table.antt"] = specs_table()
    out[GRAMMAR + "src/symbols.rt"] = code_symbols()
    out[GRAMMAR + "src/table.rt"] = code_table()
    out[GRAMMAR + "proofs/AllKinds.antt"] = proofs_kinds()
    out[GRAMMAR + "proofs/Follow.antt"] = proofs_follow()
    out[GRAMMAR + "proofs/Shortest.antt"] = proofs_shortest()
    out[GRAMMAR + "proofs/Rows.antt"] = proofs_rows()
    out[PRODUCTIONS + "proofs/Agree.antt"] = proofs_agree()
    return out


def words_of(text):
    """What a file says, whatever its layout."""
    return re.sub(r",(?=[)\]}])", "", "".join(text.split()))


def main():
    different = []
    for name, text in files().items():
        path = os.path.join(TOP, name)
        old = open(path).read() if os.path.exists(path) else ""
        if words_of(old) == words_of(text):
            continue
        different.append(name)
        if "--check" not in sys.argv:
            os.makedirs(os.path.dirname(path), exist_ok=True)
            with open(path, "w") as f:
                f.write(text)
    print(f"{len(NAMES)} symbols, {len(KINDS)} kinds of tokens, {sum(len(rows) for rows in ROWS.values())} rows")
    for name in different:
        print("differs:" if "--check" in sys.argv else "written:", name)
    if "--check" in sys.argv and different:
        sys.exit(1)


if __name__ == "__main__":
    main()
