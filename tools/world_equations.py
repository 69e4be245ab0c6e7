#!/usr/bin/env python3
"""Writes closed equations of the definitions of composition from small worlds of layers.

    python3 tools/world_equations.py WORLDS CRATE NAME ..

WORLDS is a folder with a folder a world, by name, as tests/worlds: its layers, `words` (the command line), `script` (questions) and
`expected` (the replies to the opening and to the questions). Or it is a table of worlds, as tests/tables/worlds.rows, of which the names
are the places from 001 on; of a world the questions before its first batch count. For each world three files are written into CRATE: its
layers as a term, a function whose clause says what the definitions answer, and its proof, which computes. The answers are those of
`expected` or of the table, never those of the definitions. It reads the usual text format, and leaves a world out where a layer is not of
it. In crates/composition_worlds the worlds with a number and those of tests/worlds are what it writes, apart from layout and lines `use`.
"""
import os
import re
import sys

TOKEN = re.compile(r'''
    (?P<blank>[ \t\r\n]+|\#[^\n]*|//[^\n]*|/\*.*?\*/)
  | (?P<string>"""(?:\\.|(?!""").)*"""|\'\'\'(?:\\.|(?!\'\'\').)*\'\'\'|"(?:\\.|[^"\\\n])*"|'(?:\\.|[^'\\\n])*')
  | (?P<asset>@@@.*?@@@@?@?|@[^@\n]*@)
  | (?P<path><[^>\n]*>)
  | (?P<number>[+-]?(?:[0-9]+\.?[0-9]*|\.[0-9]+)(?:[eE][+-]?[0-9]+)?|-?(?:inf|nan)(?![\w:]))
  | (?P<name>[^\W\d]\w*(?::[^\W\d]\w*)*)
  | (?P<mark>[(){}\[\]=,;:.])
''', re.X | re.S)

EDITS = {"delete": "deleted", "add": "added", "prepend": "prepended", "append": "appended", "reorder": "ordered"}
FIELDS = {"inherits", "specializes", "references", "payload", "variantSets", "apiSchemas", "clipSets"}
WHOLE = {"uchar", "int", "uint", "int64", "uint64", "int2", "int3", "int4"}


class Unread(Exception):
    pass


def tokens_of(text):
    at, found = 0, []
    while at < len(text):
        m = TOKEN.match(text, at)
        if not m:
            raise Unread(f"byte {at}")
        at = m.end()
        if m.lastgroup != "blank":
            found.append((m.lastgroup, m.group()))
    return found


def unquoted(token):
    text = token[3:-3] if token[:3] in ('"""', "'''") else token[1:-1]
    simple = {"n": "\n", "t": "\t", "r": "\r", "a": "\a", "b": "\b", "f": "\f", "v": "\v"}
    return re.sub(r"\\(.)", lambda m: simple.get(m.group(1), m.group(1)), text, flags=re.S)


# ---- paths, as lists of elements

NAME = r"[^\W\d]\w*"
ELEMENT = re.compile(rf"/?(?P<prim>{NAME})|\{{(?P<set>{NAME})=(?P<variant>[.]?[\w|-]+)\}}|\.(?P<property>{NAME}(?::{NAME})*)")


def path_of(text):
    if text == "/":
        return []
    at, elements = 0, []
    while at < len(text):
        m = ELEMENT.match(text, at)
        if not m or (m.group("prim") and at and text[at] != "/" and text[at - 1] != "}"):
            raise Unread("path " + text)
        at = m.end()
        if m.group("prim"):
            elements.append(("Prim", m.group("prim")))
        elif m.group("set"):
            elements.append(("Selection", m.group("set"), m.group("variant")))
        else:
            elements.append(("Property", m.group("property")))
    return elements


def plain(path):
    return [e for e in path if e[0] != "Selection"]


def absolute(text, base):
    if text.startswith("/"):
        return path_of(text)
    base = list(base)
    while text.startswith("../"):
        base, text = base[:-1], text[3:]
    return path_of(printed(base).rstrip("/") + ("" if text.startswith(".") else "/") + text)


def printed(path):
    if not path:
        return "/"
    text, after = "", False
    for e in path:
        if e[0] == "Prim":
            text += ("" if after else "/") + e[1]
        elif e[0] == "Selection":
            text += "{" + e[1] + "=" + e[2] + "}"
        else:
            text += "." + e[1]
        after = e[0] == "Selection"
    return text


# ---- layers

def no_edits():
    return {"explicit": None, "deleted": [], "added": [], "prepended": [], "appended": [], "ordered": []}


def spec(specifier, type_name=None):
    return {"specifier": specifier, "type": type_name, "meta": {}, "children": [], "child_order": [], "properties": {},
            "property_order": [], "sets": {}, "selections": {},
            **{f: no_edits() for f in FIELDS}}


def once(items):
    return [x for i, x in enumerate(items) if x not in items[:i]]


class Reader:
    def __init__(self, text):
        if not re.match(r"#usda 1\.0[ \t\r]*(\n|$)", text):
            raise Unread("header")
        self.tokens, self.at = tokens_of(text), 0
        self.head = {"sublayers": [], "default": None, "meta": {}, "names": [], "order": []}
        self.specs = {}

    def peek(self):
        return self.tokens[self.at] if self.at < len(self.tokens) else ("end", "")

    def next(self):
        t = self.peek()
        self.at += 1
        return t

    def take(self, text):
        if self.next()[1] != text:
            raise Unread(f"no {text}")

    def maybe(self, *texts):
        if self.peek()[1] in texts:
            return self.next()[1]
        return None

    def layer(self):
        if self.maybe("("):
            while not self.maybe(")"):
                self.head_item()
                self.maybe(";")
        while self.peek()[0] != "end":
            if self.maybe("reorder"):
                self.take("rootPrims")
                self.take("=")
                self.head["order"] = self.names()
            else:
                self.prim([], self.head["names"])
            self.maybe(";")
        return self

    def head_item(self):
        kind, text = self.next()
        if kind == "string":
            self.head["meta"]["comment"] = ("Text", unquoted(text))
            return
        self.take("=")
        if text == "subLayers":
            self.take("[")
            while not self.maybe("]"):
                asset = self.next()[1].strip("@")
                self.head["sublayers"].append((asset, self.offset()))
                self.maybe(",")
        elif text == "defaultPrim":
            self.head["default"] = unquoted(self.next()[1])
        else:
            self.head["meta"][text] = self.meta_value(text)

    def offset(self):
        found = {"offset": 0, "scale": 1}
        if self.maybe("("):
            while not self.maybe(")"):
                key = self.next()[1]
                self.take("=")
                found[key] = int(self.next()[1])
                self.maybe(";")
        return (found["offset"], found["scale"])

    def names(self):
        self.take("[")
        found = []
        while not self.maybe("]"):
            found.append(unquoted(self.next()[1]))
            self.maybe(",")
        return found

    def prim(self, owner, siblings):
        specifier = self.next()[1].capitalize()
        if specifier not in ("Def", "Over", "Class"):
            raise Unread("specifier")
        type_name = self.next()[1] if self.peek()[0] != "string" else None
        name = unquoted(self.next()[1])
        siblings.append(name)
        self.body(owner + [("Prim", name)], spec(specifier, type_name))

    def body(self, path, own):
        self.specs[tuple(path)] = own
        if self.maybe("("):
            while not self.maybe(")"):
                self.prim_item(path, own)
                self.maybe(";")
        self.take("{")
        while not self.maybe("}"):
            self.statement(path, own)
            self.maybe(";")

    def prim_item(self, path, own):
        kind, text = self.next()
        if kind == "string":
            own["meta"]["comment"] = ("Text", unquoted(text))
            return
        edit = None
        if text in EDITS and self.peek()[1] in FIELDS:
            edit, text = text, self.next()[1]
        self.take("=")
        if text in FIELDS:
            self.edit(own[text], edit, self.items(text, plain(path)))
        elif text == "variants":
            self.take("{")
            while not self.maybe("}"):
                self.take("string")
                key = self.next()
                self.take("=")
                own["selections"][unquoted(key[1]) if key[0] == "string" else key[1]] = unquoted(self.next()[1])
                self.maybe(";", ",")
        else:
            own["meta"][text] = self.meta_value(text)

    def edit(self, op, edit, items):
        if edit is None:
            op["explicit"] = items
        else:
            op[EDITS[edit]] = items

    def items(self, field, base):
        if self.maybe("None"):
            return []
        if not self.maybe("["):
            return [self.item(field, base)]
        found = []
        while not self.maybe("]"):
            found.append(self.item(field, base))
            self.maybe(",")
        return once(found)

    def item(self, field, base):
        kind, text = self.next()
        if field in ("references", "payload"):
            asset = path = None
            if kind == "asset":
                asset = text.strip("@") or None
                if self.peek()[0] == "path":
                    kind, text = self.next()
            if kind == "path" and text != "<>":
                path = tuple(absolute(text[1:-1], base))
            return (asset, path, self.offset())
        if kind == "string":
            return unquoted(text)
        found = absolute(text[1:-1], base)
        return tuple(plain(found) if field == "targets" else found)

    def statement(self, path, own):
        word = self.peek()[1]
        if word in ("def", "over", "class"):
            return self.prim(path, own["children"])
        if word == "variantSet":
            return self.variant_set(path, own)
        self.next()
        if word == "reorder" and self.peek()[1] in ("nameChildren", "properties"):
            which = "child_order" if self.next()[1] == "nameChildren" else "property_order"
            self.take("=")
            own[which] = self.names()
            return None
        edit = None
        if word in EDITS:
            edit, word = word, self.next()[1]
        custom = uniform = False
        if word == "custom":
            custom, word = True, self.next()[1]
        if word in ("uniform", "varying"):
            uniform, word = word == "uniform", self.next()[1]
        return self.property(path, own, edit, custom, uniform, word)

    def property(self, path, own, edit, custom, uniform, ty):
        if ty != "rel" and self.maybe("["):
            self.take("]")
            ty += "[]"
        name = self.next()[1]
        p = own["properties"].setdefault(name, {"rel": ty == "rel", "type": ty, "custom": False, "uniform": False, "default": None,
                                                "samples": {}, "list": no_edits(), "meta": {}})
        p["custom"], p["uniform"] = p["custom"] or custom, p["uniform"] or uniform
        if ty == "rel":
            if self.maybe("="):
                self.edit(p["list"], edit, self.items("targets", plain(path)))
        elif self.maybe("."):
            which = self.next()[1]
            self.take("=")
            if which == "connect":
                self.edit(p["list"], edit, self.items("targets", plain(path)))
                return
            self.take("{")
            while not self.maybe("}"):
                time = self.next()[1]
                self.take(":")
                p["samples"][units(time)] = self.value(ty)
                self.maybe(",")
            return
        elif self.maybe("="):
            p["default"] = self.value(ty)
        if self.maybe("("):
            while not self.maybe(")"):
                kind, key = self.next()
                if kind == "string":
                    p["meta"]["comment"] = ("Text", unquoted(key))
                else:
                    self.take("=")
                    p["meta"][key] = self.meta_value(key)
                self.maybe(";")

    def variant_set(self, path, own):
        self.next()
        name = unquoted(self.next()[1])
        own["sets"][name] = []
        self.take("=")
        self.take("{")
        while not self.maybe("}"):
            variant = unquoted(self.next()[1])
            own["sets"][name].append(variant)
            self.body(path + [("Selection", name, variant)], spec("Over"))

    def meta_value(self, key):
        if key in ("active", "hidden", "instanceable"):
            return ("Bool", self.next()[1] in ("true", "1"))
        return self.value(None)

    def value(self, ty):
        kind, text = self.next()
        if text == "None":
            return ("Block",)
        if text in "([" and kind == "mark":
            found = []
            while not self.maybe(")", "]"):
                found.append(self.value(ty[:-2] if ty and text == "[" else ty))
                self.maybe(",")
            return ("Tuple" if text == "(" else "Array", found)
        if text == "{":
            return self.dictionary()
        return scalar(kind, text, ty)

    def dictionary(self):
        found = {}
        while not self.maybe("}"):
            ty = self.next()[1]
            if self.maybe("["):
                self.take("]")
                ty += "[]"
            kind, key = self.next()
            self.take("=")
            found[unquoted(key) if kind == "string" else key] = (ty, self.value(None if ty == "dictionary" else ty))
            self.maybe(";", ",")
        return ("Dict", found)


def decimal(text):
    m = re.match(r"([+-]?)([0-9]*)\.?([0-9]*)(?:[eE]([+-]?[0-9]+))?$", text)
    digits = int((m.group(2) + m.group(3)) or "0")
    exp = int(m.group(4) or 0) - len(m.group(3))
    while digits and digits % 10 == 0:
        digits, exp = digits // 10, exp + 1
    return (-digits if m.group(1) == "-" else digits, exp if digits else 0)


def units(text):
    digits, exp = decimal(text)
    if digits and exp < -18:
        raise Unread("time")
    return digits * 10 ** (exp + 18) if digits else 0


def scalar(kind, text, ty):
    if kind == "string":
        return ("Text", unquoted(text))
    if kind == "asset":
        return ("Asset", text.strip("@"))
    if kind == "path":
        return ("PathText", text[1:-1])
    if kind == "number":
        if text.strip("-") in ("inf", "nan"):
            return ("Number", text)
        if ty == "bool":
            return ("Bool", text == "1")
        if ty == "timecode":
            return ("Time", units(text))
        digits, exp = decimal(text)
        if ty is None and exp >= 0 or ty in WHOLE:
            return ("Whole", digits * 10 ** exp)
        return ("Number", (digits, exp))
    if ty == "bool":
        return ("Bool", text == "true")
    return ("Word", text)


# ---- terms

def quoted(text):
    return 'codes "' + text.replace("\\", "\\\\").replace('"', '\\"').replace("\n", "\\n").replace("\t", "\\t") + '"'


def word(text):
    return "(" + quoted(text) + ")" if text else "[]"


def listed(items):
    return "(" + " ∷ ".join(items + ["[]"]) + ")"


def number(n):
    return f"(pos {n})" if n >= 0 else f"(negsuc {-n - 1})"


def path_term(path):
    return listed([f"{e[0]} " + " ".join(word(x) for x in e[1:]) for e in path])


def option(term):
    return "None" if term is None else f"(Some {term})"


def offset_term(o):
    return f"(record {{ offset = {number(o[0])}; scale = {number(o[1])} }})"


def op_term(op, item):
    if op == no_edits():
        return "no_edits"
    parts = ["explicit = " + option(None if op["explicit"] is None else listed([item(x) for x in op["explicit"]]))]
    parts += [f"{k} = " + listed([item(x) for x in op[k]]) for k in ("deleted", "added", "prepended", "appended", "ordered")]
    return "(record { " + "; ".join(parts) + " })"


ELEMENTS = {"bool": "Bool", "uchar": "Uchar", "int": "Int", "uint": "Uint", "int64": "Int64", "uint64": "Uint64",
            "half": "(Real Half)", "float": "(Real Float)", "double": "(Real Double)", "timecode": "Timecode", "string": "String",
            "token": "Token", "asset": "Asset"}
WIDTHS = {"2": "Two", "3": "Three", "4": "Four"}
PRECISIONS = {"half": "Half", "float": "Float", "double": "Double", "h": "Half", "f": "Float", "d": "Double"}
ROLES = {"point3": "Point3", "vector3": "Vector3", "normal3": "Normal3", "color3": "Color3", "color4": "Color4", "texCoord2": "TexCoord2",
         "texCoord3": "TexCoord3", "quat": "Quat"}


def type_term(name):
    array = name.endswith("[]")
    one = name[:-2] if array else name
    if one in ELEMENTS:
        element = "element." + ELEMENTS[one] if not ELEMENTS[one].startswith("(") else "(element.Real precision." + PRECISIONS[one] + ")"
    elif one[:-1] == "int":
        element = f"(element.Ints width.{WIDTHS[one[-1]]})"
    elif one[:-1] in PRECISIONS and one[-1] in WIDTHS:
        element = f"(element.Reals precision.{PRECISIONS[one[:-1]]} width.{WIDTHS[one[-1]]})"
    elif one[:-1] in ROLES:
        element = f"(element.Role role.{ROLES[one[:-1]]} precision.{PRECISIONS[one[-1]]})"
    elif one.startswith("matrix"):
        element = f"(element.Matrix matrix.Matrix{one[6]})"
    else:
        raise Unread("type " + name)
    return f"(record {{ element = {element}; array = {'true' if array else 'false'} }})"


def value_term(v):
    kind = v[0]
    if kind == "Block":
        return "value.Block"
    if kind == "Bool":
        return "(value.Bool " + ("true" if v[1] else "false") + ")"
    if kind in ("Whole", "Time"):
        return f"(value.{kind} {number(v[1])})"
    if kind == "Number":
        if isinstance(v[1], str):
            return "(value.Number num." + {"inf": "Inf", "-inf": "NegInf"}.get(v[1], "Nan") + ")"
        return f"(value.Number (num.Finite (record {{ digits = {number(v[1][0])}; exp = {number(v[1][1])} }})))"
    if kind in ("Tuple", "Array"):
        return f"(value.{kind} " + listed([value_term(x) for x in v[1]]) + ")"
    if kind == "Dict":
        items = [f"(record {{ key = {word(k)}; ty = " + ("dict_type.Dictionary" if t == "dictionary" else f"(dict_type.Plain {type_term(t)})")
                 + f"; value = {value_term(x)} }})" for k, (t, x) in sorted(v[1].items(), key=lambda e: e[0].encode())]
        return "(value.Dict " + listed(items) + ")"
    return f"(value.{kind} {word(v[1])})"


def meta_term(meta):
    return listed([f"({word(k)}, {value_term(v)})" for k, v in sorted(meta.items(), key=lambda e: e[0].encode())])


def truth(b):
    return "true" if b else "false"


def property_term(name, p):
    edits = op_term(p["list"], lambda x: path_term(x))
    if p["rel"]:
        return f"(Rel {word(name)} {truth(p['custom'])} {edits} {meta_term(p['meta'])})"
    default = option(None if p["default"] is None else value_term(p["default"]))
    samples = listed([f"({number(t)}, {value_term(v)})" for t, v in sorted(p["samples"].items())])
    return f"(Attr {word(name)} {type_term(p['type'])} {truth(p['custom'])} {truth(p['uniform'])} {default} {samples} {edits} {meta_term(p['meta'])})"


def ref_term(r):
    return (f"(record {{ asset = {option(None if r[0] is None else word(r[0]))}; path = {option(None if r[1] is None else path_term(r[1]))}; "
            f"offset = {offset_term(r[2])} }})")


def spec_term(s):
    arcs = "; ".join([f"inherits = {op_term(s['inherits'], path_term)}", f"specializes = {op_term(s['specializes'], path_term)}",
                      f"references = {op_term(s['references'], ref_term)}", f"payloads = {op_term(s['payload'], ref_term)}",
                      f"variant_sets = {op_term(s['variantSets'], word)}",
                      "selections = " + listed([f"({word(k)}, {word(v)})" for k, v in sorted(s["selections"].items(), key=lambda e: e[0].encode())])])
    words = lambda xs: listed([word(x) for x in xs])
    body = "; ".join([f"specifier = {s['specifier']}", f"type_name = {option(None if s['type'] is None else word(s['type']))}",
                      f"meta = {meta_term(s['meta'])}", f"api_schemas = {op_term(s['apiSchemas'], word)}", f"clip_sets = {op_term(s['clipSets'], word)}",
                      f"children = {words(s['children'])}", f"child_order = {words(s['child_order'])}",
                      "properties = " + listed([property_term(n, p) for n, p in s["properties"].items()]),
                      f"property_order = {words(s['property_order'])}",
                      "variant_names = " + listed([f"(record {{ set = {word(k)}; variants = {words(v)} }})" for k, v in s["sets"].items()])])
    return f"(record {{ arcs = record {{ {arcs} }}; body = record {{ {body} }} }})"


def layer_term(r):
    words = lambda xs: listed([word(x) for x in xs])
    head = "; ".join(["sublayers = " + listed([f"(record {{ asset = {word(a)}; offset = {offset_term(o)} }})" for a, o in r.head["sublayers"]]),
                      f"default_prim = {option(None if r.head['default'] is None else word(r.head['default']))}",
                      f"meta = {meta_term(r.head['meta'])}", f"root_names = {words(r.head['names'])}", f"root_order = {words(r.head['order'])}"])
    specs = listed([f"\n        ({path_term(p)}, {spec_term(s)})" for p, s in r.specs.items()])
    return f"present (record {{ head = record {{ {head} }}; specs = {specs} }})"


# ---- worlds

def normal(text):
    up, parts, absolute_name = [], [], text.startswith("/")
    for part in text.split("/"):
        if part in ("", "."):
            continue
        if part == "..":
            if parts:
                parts.pop()
            elif not absolute_name:
                up.append("..")
        else:
            parts.append(part)
    return ("/" if absolute_name else "") + "/".join(up + parts)


def anchored(layer, asset):
    return normal(asset) if asset.startswith("/") else normal("/".join(layer.split("/")[:-1] + [asset]))


def broken(name):
    if name.endswith(".usdc"):
        return "Crate"
    return "Package" if name.endswith(".usdz") or ".usdz[" in name else None


def assets_of(reader):
    for asset, _ in reader.head["sublayers"]:
        yield asset
    for s in reader.specs.values():
        for field in ("references", "payload"):
            for items in s[field].values():
                for r in items or []:
                    if r[0]:
                        yield r[0]


def opened(read, root, session, refusal_of):
    """The layers of a world by name, a term each, and the types of its attributes by name."""
    held, types, queue = {}, {}, [root] + ([session] if session else [])
    for name in queue:
        if name in held:
            continue
        if broken(name):
            held[name] = f"broken (record {{ kind = {broken(name)}; line = 1; column = 1 }})"
            continue
        text = read(name)
        if text is None:
            continue
        try:
            reader = Reader(text).layer()
        except Unread:
            # what a reader answers of such a text is given: it is printed with the faults
            held[name] = "broken (record { kind = %s; line = %s; column = %s })" % refusal_of(name)
            continue
        held[name] = layer_term(reader)
        if any("active" in x["meta"] for x in reader.specs.values()):
            raise Unread("metadata `active`, whose value does not compute")
        for x in reader.specs.values():
            for n, p in x["properties"].items():
                types.setdefault(n, set()).add(p["type"])
        queue += [anchored(name, a) for a in assets_of(reader)]
    return held, types


def refusal_in(expected, layer):
    m = re.search(r"BrokenLayer .* @" + re.escape(layer) + r"@\S*(?: \([^)]*\))? (\w+) (\d+):(\d+)$", expected, re.M)
    return m.groups() if m else ("Syntax", "1", "1")


HEAD = """-- {doc}
use Rattle.std.specs.Prelude.{{codes, pos, negsuc, true, false, List, [], ◌∷◌, Option, Some, None}}
use Rattle.sdf_paths.specs.declared.element.Element.TheVariants.{{Prim, Selection, Property}}
use Rattle.spec_parts.specs.Blank.{{no_edits}}
use Rattle.spec_parts.specs.declared.items.Specifier.TheVariants.{{Def, Over, Class}}
use Rattle.spec_properties.specs.declared.property.Property.TheVariants.{{Attr, Rel}}
use Rattle.sdf_values.specs.declared.decimal.Num.TheVariants as num
use Rattle.sdf_values.specs.declared.refusal.RefusalKind.TheVariants.{{Crate, Package, Syntax, BadHeader, NotUtf8, ValueShape, UnknownType, DuplicateSpec}}
use Rattle.sdf_values.specs.declared.type_name.ElementType.TheVariants as element
use Rattle.sdf_values.specs.declared.type_name.Matrix.TheVariants as matrix
use Rattle.sdf_values.specs.declared.type_name.Precision.TheVariants as precision
use Rattle.sdf_values.specs.declared.type_name.Role.TheVariants as role
use Rattle.sdf_values.specs.declared.type_name.Width.TheVariants as width
use Rattle.sdf_values.specs.declared.value.DictType.TheVariants as dict_type
use Rattle.sdf_values.specs.declared.value.Value.TheVariants as value
use Rattle.composition.specs.World.{{World}}
use {crate}.Listed.{{Held, present, broken, listed_world}}

abbrev pub world : World
world = listed_world {root} {session} (
{layers}
    [])
"""


def world_file(crate, doc, root, session, held):
    layers = "".join(f"    ({word(name)}, {term}) ∷\n" for name, term in held.items())
    return HEAD.format(doc=doc, crate=f"Rattle.{crate}.specs", root=word(root), session=option(None if session is None else word(session)), layers=layers)


def replies(text):
    """The first line of each reply with the lines that belong to it."""
    found = []
    for line in text.split("\n"):
        if line.startswith("  ") and found:
            found[-1] += "\n" + line
        else:
            found.append(line)
    return found


QUESTION = re.compile(r"(children|sites|faults|value|default|samples|targets) (\S+)(?: (\S+))?$")


class World:
    """A world: the names of its root and session layer, the texts of layers by name, and questions with their answers."""

    def __init__(self, root, session, layers, asked):
        self.root, self.session, self.layers, self.asked = root, session, layers, asked

    def expected(self):
        return "".join(answer + "\n" for _, answer in self.asked)


def world_in_folder(folder):
    def read(*names):
        with open(os.path.join(folder, *names), encoding="utf-8") as f:
            return f.read()

    words = read("words").split()
    layers = {}
    for at, _, files in os.walk(folder):
        for name in files:
            path = os.path.relpath(os.path.join(at, name), folder)
            if path not in ("words", "script", "expected"):
                layers[path] = read(path)
    asked = list(zip(read("script").split("\n"), replies(read("expected"))[1:]))
    return World(words[1], words[3] if len(words) > 3 else None, layers, asked)


def world_in_rows(rows):
    """A world of a table: `layer` and `session` lines, a layer's text behind `|`, questions behind `? ask`, their answers behind `=`."""
    session, layers, asked, into = None, {}, [], None
    for row in rows:
        if row.startswith("? batch"):
            break
        if row.startswith("layer "):
            layers[row[6:]] = into = []
        elif row.startswith("session "):
            session = row[8:]
        elif row.startswith("?"):
            into = []
            if row.startswith("? ask "):
                asked.append((row[6:], into))
        elif row[:1] in ("|", "="):
            into.append(row[1:])
    texts = {name: "\n".join(lines) + "\n" for name, lines in layers.items()}
    return World("root.usda", session, texts, [(line, "\n".join(answer)) for line, answer in asked])


def world_of(worlds, name):
    """The world of a name, in a folder of worlds or in a table of them."""
    if os.path.isdir(worlds):
        return world_in_folder(os.path.join(worlds, name))
    with open(worlds, encoding="utf-8") as f:
        parts = re.split(r"^world\n", f.read(), flags=re.M)
    return world_in_rows(parts[int(name)].split("\n"))


def questions(asked):
    by_path = {}
    for line, answer in asked:
        m = QUESTION.match(line)
        if not m:
            break
        if answer.endswith(": NoPrim"):
            continue
        path = m.group(2)
        prim = path[:path.rindex(".")] if m.group(1) in ("value", "default", "samples", "targets") else path
        by_path.setdefault(prim, []).append((m.group(1), path, m.group(3), answer))
    return by_path


def asked_term(kind, path, time):
    name = word(path_of(path)[-1][1])
    return f"(value_at_time {name} {number(units(time))})" if kind == "value" else f"({kind} {name})"


def answer_term(kind, path, answer, types):
    text = answer.split(": ", 1)[1]
    if text in ("NoProperty", "NoValue"):
        return {"NoProperty": "no_property", "NoValue": "no_value"}[text]
    reader = Reader("#usda 1.0\n" + text)
    ty = types.get(path_of(path)[-1][1], "none")
    if kind == "targets":
        return "(are_targets " + listed([path_term(p) for p in reader.items("targets", [])]) + ")"
    if len(set(ty)) != 1 and kind != "targets":
        raise Unread("two types of " + path)
    ty = list(ty)[0]
    if kind == "samples":
        reader.take("{")
        found = []
        while not reader.maybe("}"):
            time = units(reader.next()[1])
            reader.take(":")
            found.append(f"({number(time)}, {value_term(reader.value(ty))})")
            reader.maybe(",")
        return "(are_samples " + listed(found) + ")"
    return "(is_value value.Block)" if text == "Blocked" else f"(is_value {value_term(reader.value(ty))})"


def is_typed(question, types):
    """The answer's type is known: no two types stand under the name."""
    kind, path, _, answer = question
    try:
        answer_term(kind, path, answer, types)
    except Unread:
        return False
    return True


def equation(number_, prim, asked, types):
    texts = [(k, a) for k, _, _, a in asked if k in ("children", "sites", "faults")]
    others = [q for q in asked if q[0] not in ("children", "sites", "faults") and is_typed(q, types)]
    wanted = "".join(a + "\n" for _, a in texts)
    answers = listed([answer_term(k, p, a, types) for k, p, _, a in others])
    return (f"(replies world_{number_} {path_term(path_of(prim))} {listed([k for k, _ in texts])} {listed([asked_term(k, p, t) for k, p, t, _ in others])} "
            f"≡ record {{ text = {word(wanted)}; answers = {answers} }})")


ANSWERS = """-- World {number}, by computing.
use Rattle.std.proofs.Common.{{refl}}
use Rattle.std.specs.Fmt.{{digits}}
use Rattle.composition.specs.Compose.{{meaning}}
{words}use Rattle.{crate}.proofs.world_{number}.world_{number}.Goals as goal

pub returns : goal.returns
unfolding meaning digits{names}
returns c = {terms}
"""

# the words of faults that are not an arc's and not a sublayer's, as they print, and their definitions
FAULT_WORDS = {"TargetOutside ": "target_word", "TimeOutside ": "time_word", '  PathTooLong \\"': "child_word"}


def fault_words(equations):
    """What the answers of a world have to unfold beside the meaning."""
    names = [name for text, name in FAULT_WORDS.items() if any(text in e for e in equations)]
    use = f"use Rattle.prim_view.specs.Printing.{{{', '.join(names)}}}\n" if names else ""
    return use, "".join(" " + name for name in names)


def nested(terms):
    return terms[0] if len(terms) == 1 else "(" + ", ".join(terms) + ")"


def main():
    if len(sys.argv) < 4:
        sys.exit(__doc__)
    worlds, crate, numbers = sys.argv[1], sys.argv[2], sys.argv[3:]
    name = os.path.basename(os.path.normpath(crate))
    done = []
    title = lambda n: "World" + "".join(part.capitalize() for part in n.split("_"))
    for number_ in numbers:
        try:
            world = world_of(worlds, number_)
            root, session, expected = world.root, world.session, world.expected()
            held, types = opened(world.layers.get, root, session, lambda layer: refusal_in(expected, layer))
            asked = questions(world.asked)
            equations = [equation(number_, prim, qs, types) for prim, qs in asked.items()]
        except (Unread, ValueError, KeyError, IndexError, AttributeError, UnicodeDecodeError) as e:
            print(number_, "left out:", e)
            continue
        with open(os.path.join(crate, "specs", title(number_) + ".antt"), "w", encoding="utf-8") as f:
            f.write(world_file(name, "A world of " + str(len(held)) + " layers.", root, session, held))
        uses = ("//! What composition makes of a small world, as closed equations.\n"
                "ghost use Rattle.std.specs.Prelude.{◌≡◌, codes, pos, negsuc, [], ◌∷◌};\n"
                "ghost use Rattle.sdf_paths.specs.declared.element.Element.TheVariants.{Prim, Property};\n"
                "ghost use Rattle.std.specs.Prelude.{true, false, Some, None};\n"
                "ghost use Rattle.sdf_values.specs.declared.decimal.Num.TheVariants as num;\n"
                "ghost use Rattle.sdf_values.specs.declared.value.Value.TheVariants as value;\n"
                f"ghost use Rattle.{name}.specs.Replies.{{replies, children, sites, faults, value_at_time, default, samples, targets, no_property, no_value, is_value, are_samples, are_targets}};\n"
                f"ghost use Rattle.{name}.specs.{title(number_)}.{{world as world_{number_}}};\n")
        law = (f"\n/// Prim by prim.\npub fn world_{number_}()\n    ensures {{ "
               + "\n        × ".join(equations) + " }\n{}\n")
        with open(os.path.join(crate, "src", f"world_{number_}.rt"), "w", encoding="utf-8") as f:
            f.write(uses + law)
        proof = os.path.join(crate, "proofs", f"world_{number_}", f"world_{number_}")
        os.makedirs(proof, exist_ok=True)
        with open(os.path.join(proof, "Answers.antt"), "w", encoding="utf-8") as f:
            use, names = fault_words(equations)
            f.write(ANSWERS.format(number=number_, crate=name, words=use, names=names, terms=nested(["refl"] * len(equations))))
        done.append(number_)
    print(len(done), "worlds:", " ".join(done))


if __name__ == "__main__":
    main()
