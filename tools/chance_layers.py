#!/usr/bin/env python3
"""Writes texts of layers that are made by chance from a seed, as rows of a table: each is to be read, written and read again as the same layer.

    python3 tools/chance_layers.py [SEED] [COUNT] > crates/text_tables/data/chance.rows

Each layer has some of everything that the format has: metadata of every kind, fields with lists and edits, attributes of every type with
defaults, samples and connections, relationships, orders, variant sets with variants inside variants, and nested prims. What a text says is
laid out by chance too: blanks, comments, semicolons, and the forms in which a value may be written.
"""
import random
import sys

WHOLE = {"uchar": (0, 255), "int": (-2**31, 2**31 - 1), "uint": (0, 2**32 - 1), "int64": (-2**63, 2**63 - 1), "uint64": (0, 2**64 - 1)}
REAL = ["half", "float", "double"]
PLAIN = ["bool", *WHOLE, *REAL, "timecode", "string", "token", "asset"]
TUPLES = [(f"{name}{n}", n, name) for name in ("int", *REAL) for n in (2, 3, 4)]
ROLES = [("point3", 3), ("vector3", 3), ("normal3", 3), ("color3", 3), ("color4", 4), ("texCoord2", 2), ("texCoord3", 3), ("quat", 4)]
TUPLES += [(name + letter, n, "double") for name, n in ROLES for letter in "hfd"]
MATRICES = [("matrix2d", 2), ("matrix3d", 3), ("matrix4d", 4), ("frame4d", 4)]
NAMES = ["A", "b", "_c", "World", "Ä", "中", "x1", "def", "rel", "None", "custom", "over_2", "timeSamples", "dictionary", "inf1"]
KEYS = ["kind", "doc", "note", "a:b", "uniform", "custom", "zebra", "Key", "documentation", "customData", "assetInfo", "é", "sdrMetadata"]
EDITS = ["delete", "add", "prepend", "append", "reorder"]
STRINGS = ["", "a", "two words", "it's", 'say "hi"', "line\nline", "tab\there", "back\\slash", "é中😀", "\x01\x7f", "%", "'''", '"""', "a\r"]
ASSETS = ["a.usda", "./b.usda", "dir/c d.usda", "x@y.usda", "e@@f.png", "ends@", "é.usda", "plain", "q.usdz"]


class Layer:
    """A text that is being made."""

    def __init__(self, seed):
        self.by = random.Random(seed)
        self.parts = []

    def maybe(self, chance):
        return self.by.random() < chance

    def pick(self, items):
        return self.by.choice(items)

    def some(self, items, most):
        return self.by.sample(items, self.by.randint(0, min(most, len(items))))

    def blank(self):
        """What stands between two tokens: at least one blank."""
        kind = self.by.random()
        if kind < 0.82:
            return " "
        return self.pick(["\n", "\t", "  ", " # a comment\n", " /* a\ncomment */ ", " // a comment\n", "\r\n"])

    def say(self, *words):
        for word in words:
            self.parts += [word, self.blank()]

    def end(self):
        self.say(*([";"] if self.maybe(0.2) else []))

    # values

    def quoted(self, text):
        mark = self.pick(['"', "'", '"""', "'''"])
        out = ""
        for c in text:
            if c in "\"'\\" or c in "\n\r" and len(mark) == 1:
                c = {"\n": "\\n", "\r": "\\r"}.get(c, "\\" + c)
            elif ord(c) < 32 and c not in "\n\t\r" or ord(c) == 127:
                c = f"\\x{ord(c):02x}"
            elif self.maybe(0.05) and ord(c) < 128 and c.isalpha():
                c = f"\\x{ord(c):02X}" if self.maybe(0.5) else f"\\{ord(c):03o}"
            out += c
        return mark + out + mark

    def string(self):
        return self.quoted("".join(self.some(STRINGS, 3)))

    def asset(self, empty=True):
        text = self.pick(ASSETS + ([""] if empty else []))
        if "@" in text or self.maybe(0.2):
            return f"@@@{text}@@@"
        return f"@{text}@"

    def digits(self, count):
        return "".join(self.pick("0123456789") for _ in range(self.by.randint(1, count)))

    def real(self):
        kind = self.by.random()
        if kind < 0.08:
            return self.pick(["inf", "-inf", "nan"])
        sign = self.pick(["", "", "-", "+"])
        if kind < 0.4:
            return sign + self.digits(6)
        if kind < 0.6:
            return sign + self.digits(4) + "."
        if kind < 0.7:
            return sign + "." + self.digits(8)
        return sign + self.digits(5) + "." + self.digits(5) + self.pick(["", "", "e3", "E-7", "e+12", "e-330", "e380"])

    def whole(self, low, high):
        n = self.pick([low, high, 0, 1, self.by.randint(low, high), self.by.randint(0, 100)])
        return ("+" if n >= 0 and self.maybe(0.1) else "") + ("-" if n < 0 else "") + ("0" if self.maybe(0.1) else "") + str(abs(n))

    def time(self):
        return self.pick([str(self.by.randint(-200, 200)), f"{self.by.randint(0, 99)}.{self.by.randint(0, 99)}", "1e3", "-0.5", "12.000000000000000001"])

    def listed(self, items, left, right, least=0):
        out = left
        for n, item in enumerate(items):
            out += (", " if n else "") + item
        return out + ("," if items and self.maybe(0.2) else "") + right

    def plain(self, ty):
        if ty == "bool":
            return self.pick(["true", "false", "1", "0"])
        if ty in WHOLE:
            return self.whole(*WHOLE[ty])
        if ty in REAL:
            return self.real()
        if ty == "timecode":
            return self.time()
        return self.asset() if ty == "asset" else self.string()

    def typed(self):
        """A type, and what makes a value of it."""
        kind = self.by.random()
        if kind < 0.55:
            ty = self.pick(PLAIN)
            make = lambda: self.plain(ty)
        elif kind < 0.85:
            ty, n, of = self.pick(TUPLES)
            make = lambda: self.listed([self.plain(of) for _ in range(n)], "(", ")")
        else:
            ty, n = self.pick(MATRICES)
            make = lambda: self.listed([self.listed([self.plain("double") for _ in range(n)], "(", ")") for _ in range(n)], "(", ")")
        if self.maybe(0.3):
            one = make
            return ty + self.pick(["[]", "[ ]"]), lambda: self.listed([one() for _ in range(self.by.randint(0, 4))], "[", "]")
        return ty, make

    def value(self, make):
        return "None" if self.maybe(0.08) else make()

    def free(self, depth=0):
        """A value where no type is expected."""
        kind = self.by.random()
        if depth < 3 and kind < 0.12:
            return self.listed([self.free(depth + 1) for _ in range(self.by.randint(1, 4))], "(", ")")
        if depth < 3 and kind < 0.24:
            return self.listed([self.free(depth + 1) for _ in range(self.by.randint(0, 4))], "[", "]")
        if depth < 3 and kind < 0.36:
            return self.dictionary(depth + 1)
        return self.pick([self.string, self.asset, self.real, lambda: self.pick(["true", "false", "None", "word", "a:b"]), lambda: self.whole(-2**70, 2**70),
                          lambda: "</" + self.pick(NAMES) + self.pick(["", "/x", ".p", "{s=v}y"]) + ">"])()

    def dictionary(self, depth=0):
        out = "{"
        for key in self.some(KEYS + ["two words", "", "a.b"], 3):
            name = key if key.replace(":", "").isidentifier() and self.maybe(0.6) else self.quoted(key)
            if depth < 3 and self.maybe(0.2):
                out += f" dictionary {name} = {self.dictionary(depth + 1)}"
            else:
                ty, make = self.typed()
                out += f" {ty} {name} = {make()}"
            out += self.pick([";", ",", "", "\n"])
        return out + "}"

    # fields and metadata

    def path(self, prims_only=True):
        parts = [self.pick(NAMES) for _ in range(self.by.randint(1, 3))]
        text = "/" + "/".join(parts) if self.maybe(0.7) else "/".join(parts)
        return f"<{text}>" if prims_only else f"<{text}{self.pick(['', '.p', '.a:b'])}>"

    def offsets(self):
        if self.maybe(0.6):
            return ""
        parts = self.some([f"offset = {self.pick(['0', '-7', '+12', '1e3', '1000000000'])}", f"scale = {self.pick(['1', '2', '007', '1000000'])}"], 2)
        return " (" + " ".join(part + self.pick(["", ";"]) for part in parts) + ")"

    def reference(self):
        asset = self.asset(empty=False) if self.maybe(0.7) else ""
        path = self.path() if not asset or self.maybe(0.5) else ""
        return asset + path + self.offsets()

    def list_of(self, make, explicit):
        items = [make() for _ in range(self.by.randint(0, 4))]
        if explicit and self.maybe(0.1):
            return "None"
        if len(items) == 1 and self.maybe(0.5):
            return items[0]
        return self.listed(items, "[", "]")

    def field(self, name, make):
        """The statements of a field: an explicit list, or edits, each once."""
        if self.maybe(0.4):
            return [f"{name} = {self.list_of(make, True)}"]
        return [f"{edit} {name} = {self.list_of(make, False)}" for edit in self.some(EDITS, 3)]

    def keys(self):
        found = []
        for key in self.some(KEYS, 2):
            found.append(f"{key} = {self.free()}")
        for key in self.some(["active", "hidden", "instanceable"], 2):
            found.append(f"{key} = {self.pick(['true', 'false', '1', '0'])}")
        if self.maybe(0.2):
            found.append(self.string() if self.maybe(0.5) else f"comment = {self.string()}")
        return found

    def bracketed(self, items):
        if items or self.maybe(0.1):
            self.by.shuffle(items)
            self.say("(")
            for item in items:
                self.say(item)
                self.end()
            self.say(")")

    def prim_metadata(self, sets):
        items = self.keys()
        names = lambda: self.quoted(self.pick(NAMES + STRINGS))
        for field in self.some(["variantSets", "apiSchemas", "clipSets"], 1):
            items += self.field(field, names)
        for field in self.some(["inherits", "specializes"], 1):
            items += self.field(field, self.path)
        for field in self.some(["references", "payload"], 1):
            items += self.field(field, self.reference)
        if self.maybe(0.3):
            chosen = "; ".join(f"string {name} = {self.quoted(self.pick(['x', '.y', '1', '']))}" for name in self.some(NAMES[:6], 3))
            items.append("variants = {" + chosen + "}")
        return items

    # properties, prims, variants

    def flags(self):
        return self.pick(["", "", "custom ", "uniform ", "varying ", "custom uniform "])

    def attribute(self, name):
        ty, make = self.typed()
        if self.maybe(0.7):
            self.say(f"{self.flags()}{ty} {name}" + (f" = {self.value(make)}" if self.maybe(0.7) else ""))
            self.bracketed(self.keys() if self.maybe(0.2) else [])
            self.end()
        if self.maybe(0.3):
            samples = sorted({self.time() for _ in range(self.by.randint(0, 5))})
            seen, rows = set(), []
            for time in samples:
                if float(time) not in seen:
                    seen.add(float(time))
                    rows.append(f"{time}: {self.value(make)}")
            self.say(f"{ty} {name}.timeSamples = " + self.listed(rows, "{", "}"))
            self.end()
        if self.maybe(0.3):
            for statement in self.field("connect", lambda: self.path(False)):
                edit, _, rest = statement.partition("connect")
                self.say(f"{edit}{ty} {name}.connect{rest}")
                self.end()

    def relationship(self, name):
        if self.maybe(0.5):
            self.say(f"{self.pick(['', 'custom ', 'uniform ', 'varying '])}rel {name}" + (f" = {self.list_of(lambda: self.path(False), True)}" if self.maybe(0.7) else ""))
            self.bracketed(self.keys() if self.maybe(0.2) else [])
            self.end()
            return
        for edit in self.some(EDITS, 3):
            self.say(f"{edit} rel {name} = {self.list_of(lambda: self.path(False), False)}")
            self.end()

    def body(self, depth):
        self.say("{")
        properties = ["p", "q", "a:b", "xformOp:t", "size", "é", "def", "connect"]
        for name in self.some(properties, 3):
            self.attribute(name) if self.maybe(0.7) else self.relationship(name)
        for order, names in (("nameChildren", NAMES), ("properties", properties)):
            if self.maybe(0.2):
                self.say(f"reorder {order} = " + self.listed([self.quoted(name) for name in self.some(names, 3)], "[", "]"))
                self.end()
        if depth < 4:
            for name in self.some(NAMES, 1 if depth else 2):
                self.prim(name, depth + 1)
            if self.maybe(0.4):
                self.variant_set(self.pick(["s", "light", "LOD"]), depth + 1)
        self.say("}")

    def variant_set(self, name, depth):
        self.say("variantSet", self.quoted(name), "=", "{")
        for variant in self.some(["x", ".y", "1", "a|b-c", "-"], 2):
            self.say(self.quoted(variant))
            self.bracketed(self.prim_metadata([]) if self.maybe(0.3) else [])
            self.body(depth)
        self.say("}")
        self.end()

    def prim(self, name, depth):
        self.say(self.pick(["def", "def", "over", "class"]), *([self.pick(["Xform", "Mesh", "a:b", "def", "rel"])] if self.maybe(0.5) else []), self.quoted(name))
        self.bracketed(self.prim_metadata([]) if self.maybe(0.5) else [])
        self.body(depth)
        self.end()

    def head(self):
        items = [item for item in self.keys()]
        if self.maybe(0.3):
            items.append(f"defaultPrim = {self.quoted(self.pick(['A', 'World', '/A/b']))}")
        if self.maybe(0.4):
            subs = [self.asset() + self.offsets() for _ in range(self.by.randint(0, 3))]
            items.append("subLayers = " + self.listed(subs, "[", "]"))
        return items

    def text(self):
        self.parts.append(self.pick(["#usda 1.0\n", "#usda 1.0  \n", "#usda 1.0\r\n"]))
        self.bracketed(self.head())
        for name in self.some(NAMES, 3):
            self.prim(name, 0)
        if self.maybe(0.3):
            self.say("reorder rootPrims = " + self.listed([self.quoted(name) for name in self.some(NAMES, 3)], "[", "]"))
        return "".join(self.parts)


def escaped(piece):
    return piece.replace("\\", "\\\\").replace("\r", "\\r").replace("\t", "\\t")


def rows(text):
    """The lines of a table that make a text: a line with its line feed, or a piece with escapes."""
    *whole, last = text.split("\n")
    for line in whole:
        yield f"~{escaped(line)}\\n" if "\r" in line else f">{line}"
    if last:
        yield f"~{escaped(last)}"


def main(seed, count):
    print(f"# Layers that are made by chance from the seed {seed}, by tools/chance_layers.py: each is read, written and read again.")
    for number in range(count):
        print(f"\n# layer {number + 1}\n? round")
        for row in rows(Layer(f"{seed}-{number}").text()):
            print(row)
        print("=the same layer")


if __name__ == "__main__":
    main(sys.argv[1] if len(sys.argv) > 1 else "1", int(sys.argv[2]) if len(sys.argv) > 2 else 200)
