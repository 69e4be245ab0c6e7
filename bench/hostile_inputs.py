"""The inputs of hostile.py: scenes of the repository, what spoils them by chance, deep and wide scenes, long tokens and lists."""
import os
import re

import measure
from index import unchosen
from session import all_rules, batch, removals, root_batches, root_prims_with_values, rules

FIRST = measure.FIRST.encode()

# Each construct of the text format, for texts that are spoiled.
WHOLE = rb"""#usda 1.0
(
    "a comment"
    defaultPrim = "A"
    customLayerData = {
        string note = "a \"quoted\" text"
        dictionary inner = { int[] list = [1, 2, 3]; double "a key" = -1.5e-3, token t = "x" }
    }
    subLayers = [@absent.usda@ (offset = 10; scale = 2), @@@also absent@.usda@@@]
)
reorder rootPrims = ["B", "A"]
def Xform "A" (
    prepend apiSchemas = ["One", "Two"]
    inherits = </_c>
    add references = [@absent.usda@</X> (offset = -3), </B>]
    delete payload = @none.usda@
    variants = { string v = "two" }
    variantSets = ["v", "w"]
    active = true
    doc = 'a text'
    assetInfo = { asset identifier = @a.png@ }
)
{
    reorder nameChildren = ["D", "C"]
    reorder properties = ["y", "x"]
    custom int x = 7 ( doc = "seven" )
    uniform token[] y = ["a", 'b', '''c
d''']
    float3 p = (1, 2.50, -0)
    matrix2d m = ((1, 0), (0, 1))
    double z.timeSamples = { 1: 0.5, 2.25: None, -3: inf, }
    timecode t = 24
    asset file = @@@tex@ture.png@@@
    quath[] q = [(1, 0, 0, 0)]
    prepend float3 p.connect = [</A.q>, <B.x>]
    rel r = [</A/C>, <../B>] ( custom = 1 )
    delete rel s = <C.x>
    variantSet "v" = {
        "one" { def "E" { string s = "\x41\102\n" } }
        "two" ( doc = "chosen" ) { over "C" { int a = 2 } }
    }
    def Scope "C" { int a = 1 /* inner */ }
    class "D" (hidden = false) { bool b = true // to the end
    }
}
class "_c" { int x = 1 }
over "B" (specializes = </_c>) { varying double w.connect = </A.z>; }
"""

WORDS = [b"def", b"over", b"class", b"variantSet", b"variants", b"references", b"payload", b"inherits", b"specializes", b"subLayers", b"reorder",
         b"prepend", b"append", b"delete", b"add", b"rel", b"custom", b"uniform", b"varying", b"timeSamples", b".timeSamples", b".connect", b".spline",
         b"dictionary", b"None", b"true", b"inf", b"-nan", b"int", b"token[]", b"double3", b"matrix4d", b"relocates", b"defaultPrim", b"offset",
         b"begin\n", b"commit\n", b"publish\n", b"flatten\n", b"\nset ", b"children /", b"#usda 1.0\n"]
NUMBERS = [b"0", b"-1", b"1e400", b"1e401", b"-1e-401", b"9" * 34, b"9" * 35, b"0" * 90 + b"1", b"1000000000001", b"0.0000000000000000001", b".5", b"5.",
           b"1e", b"+", b"18446744073709551616", b"170141183460469231731687303715884105728", b"1..2", b"0x10"]
BYTES = [b'"', b"'", b'"""', b"@", b"@@@", b"<", b">", b"(", b")", b"[", b"]", b"{", b"}", b"=", b",", b";", b":", b".", b"/", b"..", b"\\", b"\\x", b"#",
         b"/*", b"*/", b"//", b"\n", b"\r", b"\t", b" ", b"\0", b"\x7f", b"\x80", b"\xff", b"\xc3", b"\xed\xa0\x80", b"\xf4\x90\x80\x80", b"\xef\xbb\xbf",
         "é".encode(), "\u2028".encode(), "中".encode(), b"(" * 70, b"[" * 70, b"{" * 70, b"</A>", b"@a@", b'"A"', b"PXR-USDC", b"PK\3\4"]


EXAMPLES = os.path.join(measure.TOP, "examples")


def put(folder, name, data):
    path = os.path.join(folder, name)
    os.makedirs(os.path.dirname(path), exist_ok=True)
    with open(path, "wb") as file:
        file.write(data)


def get(path):
    with open(path, "rb") as file:
        return file.read()


class Scene:
    """The layers of a folder of the repository, with the root and the script."""

    def __init__(self, name, layers, root, script):
        self.name, self.layers, self.root, self.script = name, layers, root, script

    def write(self, folder):
        for name, text in self.layers.items():
            put(folder, name, text)


def scene(folder, root="", script=""):
    layers = {}
    for above, _, names in os.walk(folder):
        for name in names:
            if name.endswith(".usda"):
                path = os.path.join(above, name)
                layers[os.path.relpath(path, folder)] = get(path)
    return Scene(os.path.basename(folder), layers, root, get(os.path.join(folder, script)) if script else b"")


def with_scripts():
    """The examples that have a script."""
    roots = {"shot": "shot.usda", "character": "shot.usda", "factory": "line.usda"}
    return [scene(os.path.join(EXAMPLES, name), root, "script.txt") for name, root in roots.items()]


def without_scripts():
    """The layers of the format, and the small worlds of the rules."""
    rules = os.path.join(EXAMPLES, "rules")
    return [scene(os.path.join(EXAMPLES, "format"))] + [scene(os.path.join(rules, name)) for name in sorted(os.listdir(rules))]


def scenes():
    """The examples that have a script, the worlds of the tests, and the text with each construct."""
    found = with_scripts()
    worlds = os.path.join(measure.TOP, "tests", "worlds")
    found += [scene(os.path.join(worlds, name), "root.usda", "script") for name in sorted(os.listdir(worlds))]
    questions = b"children /A\nvalue /A.z 2.5\nsamples /A.z\ntargets /A.r\nfaults /A\nsites /A\ndefault /A.p\nflatten\n"
    found.append(Scene("each construct", {"root.usda": WHOLE}, "root.usda", questions))
    return found


# Spoiling

def spoil_once(random, text, other):
    """One change by chance; `other` is a text from which pieces are taken."""
    at = random.randrange(len(text) + 1)
    end = min(len(text), at + random.choice((1, 1, 1, 2, 3, 8, 30)))
    piece = text[at:end]
    kind = random.randrange(9)
    if kind == 0:
        return text[:at] + text[end:]
    if kind == 1:
        return text[:end] + piece + text[end:]
    if kind == 2:
        to = random.randrange(end, len(text) + 1)
        upto = min(len(text), to + len(piece))
        return text[:at] + text[to:upto] + text[end:to] + piece + text[upto:]
    if kind == 3:
        start = random.randrange(len(other) + 1)
        return text[:at] + other[start:start + random.choice((3, 20, 200))] + text[at:]
    if kind == 4:
        return words_swapped(random, text)
    new = random.choice(random.choice((BYTES, BYTES, WORDS, NUMBERS)))
    if kind == 5:
        return text[:at] + new + text[at:]
    if kind == 6:
        return text[:at] + new + text[end:]
    if kind == 7:
        return words_replaced(random, text, new)
    return text[:at] + bytes([random.randrange(256)]) + text[at + 1:]


def words_swapped(random, text):
    """Two words change places."""
    words = list(re.finditer(rb"\w+", text))
    if len(words) < 2:
        return text
    first, last = sorted(random.sample(words, 2), key=lambda w: w.start())
    return text[:first.start()] + last[0] + text[first.end():last.start()] + first[0] + text[last.end():]


def words_replaced(random, text, new):
    """A word, a number or a string gives way to something else."""
    words = list(re.finditer(rb'[\w.]+|"[^"\n]*"|@[^@\n]*@|<[^>\n]*>', text))
    if not words:
        return text
    word = random.choice(words)
    return text[:word.start()] + new + text[word.end():]


def spoil(random, text, other):
    for _ in range(random.choice((1, 1, 1, 1, 2, 2, 3, 5))):
        text = spoil_once(random, text, other)
    return text


LINES = [b"begin", b"commit", b"publish", b"flatten", b"faults /", b"sites /", b"children /", b"open @.@", b"open @..@", b"open @absent.usda@", b"open @a.usdc@",
         b"open @@", b'newlayer @new.usda@ "#usda 1.0"', b"newlayer @new.usda@", b'newlayer @bad.usda@ "#usda 1.0\\ndef"', b"children /" + b"A/" * 64 + b"A",
         b"children /" + b"A" * 4096, b"set @root.usda@ /A.x (" + b"(" * 70, b"value /A.x 1e12", b"value /A.x inf", b"value /A.x 0.0000000000000000001",
         b"sublayers @root.usda@ = [@root.usda@, @@]", b"/* */ publish", b"publish /* */ # end", b"/* publish", b"look children /", b"tree", b"\0", b"\xff", b"unload /A",
         b"load /A{v=x}", b"meta @root.usda@ / defaultPrim = \"A\"", b"meta @root.usda@ / relocates = 1", b"order @root.usda@ / nameChildren = [\"A\", \"A\"]",
         b"spec def @root.usda@ /A/New Xform", b"remove @root.usda@ /A", b"remove @root.usda@ /", b"attr @root.usda@ /A.x int custom uniform",
         b"sample @root.usda@ /A.x inf 3", b"list @root.usda@ /A inherits = [</A>, <../A>]", b"select @root.usda@ /A v = \"\\xff\"", b"  \t\r", b""]


def spoil_script(random, script, other):
    """A script some of whose lines are swapped, dropped, doubled, spoiled, or come from elsewhere."""
    lines = script.split(b"\n")
    for _ in range(random.choice((1, 1, 2, 3, 5, 8))):
        at = random.randrange(len(lines))
        kind = random.randrange(8)
        if kind == 0 and len(lines) > 1:
            del lines[at]
        elif kind == 1:
            lines.insert(at, lines[random.randrange(len(lines))])
        elif kind == 2:
            to = random.randrange(len(lines))
            lines[at], lines[to] = lines[to], lines[at]
        elif kind == 3:
            lines.insert(at, random.choice(LINES))
        elif kind == 4:
            lines[at:at] = [b"begin", random.choice(LINES), b"commit", random.choice(LINES)]
        elif kind == 5:
            lines.insert(at, random.choice(other.split(b"\n")))
        elif kind == 6:
            lines[at] = spoil(random, lines[at], other)
        else:
            lines[at] = words_replaced(random, lines[at], random.choice(random.choice((BYTES, WORDS, NUMBERS))))
    return b"\n".join(lines)


# Deep and wide scenes: what it is, how many (and with --quick), its layers, its script, the replies, and the bound in the processor's seconds

def levels(count):
    return {"root": measure.nested(count, "int level = 1")}


def siblings(count):
    return {"root": "".join(f'def "s{i}" {{}}\n' for i in range(count))}


def sublayers(count):
    names = ", ".join(f"@l/{i}.usda@" for i in range(count))
    return {"root": f"(subLayers = [{names}])\n", **{f"l/{i}": f'over "p" {{ int a = {i} }}\n' for i in range(count)}}


def referenced(count):
    return {"root": "".join(f'def "r{i}" (references = @l/{i}.usda@</p>) {{}}\n' for i in range(count)),
            **{f"l/{i}": f'def "p" {{ int a = {i} }}\n' for i in range(count)}}


def chains(count):
    """Prims each of which begins a chain of 64 references."""
    model = "".join(f'def "c{i}" (references = </c{i + 1}>) {{}}\n' for i in range(1, 64)) + 'def "c64" { int x = 1 }\n'
    return {"root": "".join(f'def "p{i}" (references = @m.usda@</c1>) {{}}\n' for i in range(count)), "m": model}


def variants(count):
    """A variant set whose last variant is chosen."""
    made = "".join(f'"v{i}" {{ int x = {i} def "c{i}" {{}} }}\n' for i in range(count))
    return {"root": f'def "A" (variantSets = "s" variants = {{ string s = "v{count - 1}" }}) {{ variantSet "s" = {{ {made} }} }}\n'}


def to_itself(count):
    """Prims that refer to themselves by the name of their own layer."""
    return {"root": "".join(f'def "p{i}" (references = @root.usda@</p{i}>) {{}}\n' for i in range(count))}


def to_one(count):
    """Prims that refer to one prim of their own layer, by its name."""
    return {"root": 'def "m" { int x = 1 }\n' + "".join(f'def "p{i}" (references = @root.usda@</m>) {{}}\n' for i in range(count))}


def lists(count):
    """A list of so many items, edited in every way."""
    names = ", ".join(f"</t{i}>" for i in range(count))
    edits = "".join(f"{edit} rel r = [{names}]\n" for edit in ("delete", "add", "prepend", "append", "reorder"))
    return {"root": f'(subLayers = [@w.usda@]) def "A" {{ {edits} }}\n', "w": f'def "A" {{ rel r = [{names}] }}\n'}


def silent(count):
    """So many layers that say nothing of a prim but that it is there, over one that gives it two thousand children."""
    names = ", ".join(f"@l/{i}.usda@" for i in range(count))
    children = "".join(f'def "c{i}" {{}}\n' for i in range(2000))
    return {"root": f"(subLayers = [{names}, @w.usda@])\n", "w": f'def "A" {{ {children} }}\n', **{f"l/{i}": 'over "A" {}\n' for i in range(count)}}


def with_value(_count):
    return {"root": 'def "A" { int b = 0 }\n'}


def accepted(count):
    return "".join(f"batch {i + 1} accepted\n" for i in range(count))


def keep_rules(count):
    """A batch that sets so many load rules, and two thousand that set a value."""
    return all_rules(count) + "".join(batch("/A", i) for i in range(2000))


def path_of(count):
    return "".join(f"/n{i}" for i in range(count))


SCENES = [
    ("prims inside each other", 64, 32, levels, lambda n: f"default {path_of(n)}.level\n", lambda n: (n, f"default {path_of(n)}.level: 1\n"), 120),
    ("siblings", 200_000, 20_000, siblings, lambda n: f"children /s{n - 1}\n", lambda n: (n, f"children /s{n - 1}: []\n"), 120),
    ("sublayers that say the same", 4_000, 400, sublayers, lambda n: "faults /\ndefault /p.a\n", lambda n: (1, "faults /: 0\ndefault /p.a: 0\n"), 60),
    ("layers, each referenced", 4_000, 400, referenced, lambda n: f"default /r{n - 1}.a\n", lambda n: (n, f"default /r{n - 1}.a: {n - 1}\n"), 60),
    ("prims with a chain of 64 references", 1_000, 50, chains, lambda n: f"default /p{n - 1}.x\nfaults /p0\n", lambda n: (n, f"default /p{n - 1}.x: 1\nfaults /p0: 0\n"), 150),
    ("variants of one set", 1_000, 1_000, variants, lambda n: "default /A.x\nchildren /A\n", lambda n: (2, f'default /A.x: {n - 1}\nchildren /A: ["c{n - 1}"]\n'), 30),
    ("prims that refer to themselves", 10_000, 1_000, to_itself, lambda n: "faults /p0\n",
     lambda n: (n, "faults /p0: 1\n  ArcCycle @root.usda@</p0> references @root.usda@</p0>\n"), 60),
    ("prims that refer to one of their layer", 10_000, 1_000, to_one, lambda n: f"default /p{n - 1}.x\n", lambda n: (n + 1, f"default /p{n - 1}.x: 1\n"), 60),
    ("root prims, 500 batches of one set", 32_768, 4_096, root_prims_with_values, root_batches, lambda n: (n, accepted(500)), 60),
    ("batches of one load rule", 8_192, 1_024, with_value, rules, lambda n: (1, accepted(n)), 60),
    ("load rules, then 2,000 batches of one set", 16_384, 1_024, with_value, keep_rules, lambda n: (1, accepted(2_001)), 60),
    ("layers that say nothing of 2,000 children", 256, 16, silent, lambda n: "faults /A\n", lambda n: (2_001, "faults /A: 0\n"), 60),
    ("variant sets, each the empty variant", 64_000, 4_000, unchosen, lambda n: "sites /A\nfaults /A\n", lambda n: (1, "sites /A: 1\n  @root.usda@ /A\nfaults /A: 0\n"), 10),
    ("root prims, each removed, in one batch", 16_000, 2_000, siblings, removals, lambda n: (n, "batch 1 accepted\n"), 60),
    ("items of a list with all edits", 20_000, 2_000, lists, lambda n: "faults /A\n", lambda n: (1, "faults /A: 0\n"), 60),
]


# Long tokens and long lists: what it is, the text behind the first line for a number of bytes or items, and how `flatten` ends

LONG = [
    ("digits of a number", lambda n: f'def "A" {{ int x = {"9" * n} }}', "5: 2:19: NumberTooLong"),
    ("zeros before a number", lambda n: f'def "A" {{ int x = {"0" * n}1 }}', "0"),
    ("zeros behind a point", lambda n: f'def "A" {{ double x = 1.{"0" * n} }}', "0"),
    ("bytes of a string", lambda n: f'def "A" {{ string x = "{"a" * n}" }}', "0"),
    ("escapes of a string", lambda n: f'def "A" {{ string x = "{chr(92) * 2 * n}" }}', "0"),
    ("brackets", lambda n: f'def "A" {{ int[] x = {"[" * n}', "5: 2:22: ValueShape"),
    ("brackets of metadata", lambda n: f'def "A" (k = {"[" * n}', "5: 2:78: TooDeep"),
    ("prims inside each other", lambda n: 'def "A" {' * n, "5: 2:585: TooDeep"),
    ("bytes of a path", lambda n: f'def "A" {{ rel x = <{"/a" * (n // 2)}> }}', "5: 2:19: Syntax"),
    ("steps up of a path", lambda n: f'def "A" {{ rel x = <{"../" * n}a> }}', "5: 2:19: Syntax"),
    ("bytes of an asset", lambda n: f'def "A" (references = @{"a/" * (n // 2)}@) {{}}', "0"),
    ("bytes of a name", lambda n: f'def "A" {{ int {"a" * n} = 1 }}', "0"),
    ("joined names", lambda n: f'def "A" {{ int a{":a" * n} = 1 }}', "0"),
    ("bytes of a prim's name", lambda n: f'def "{"a" * n}" {{}}', "5: 2:5: TooLong"),
    ("bytes of comments", lambda n: f'#{"/*" * n}\n/*{"*" * n}*/', "0"),
    ("bytes of a comment without its end", lambda n: f'/*{"*" * n}', "5: 2:1: Syntax"),
    ("quotes", lambda n: f'def "A" {{ string x = {chr(34) * 6 * n} }}', "5: 2:28: Syntax"),
    ("semicolons", lambda n: f'def "A" {{}}{";" * n}', "5: 2:12: Syntax"),
    ("line feeds and a fault", lambda n: "\n" * n + "!", None),
    ("equal items of a list", lambda n: f'def "A" (apiSchemas = [{(chr(34) + "s" + chr(34) + ", ") * n}]) {{}}', "0"),
    ("keys of metadata", lambda n: f'def "A" ({"".join(f"k{i} = 1;" for i in range(n // 10))}) {{}}', "0"),
    ("properties", lambda n: f'def "A" {{{"".join(f"int p{i};" for i in range(n // 10))}}}', "0"),
    ("samples, the last first", lambda n: f'def "A" {{ int x.timeSamples = {{{"".join(f"{n - i}: 1," for i in range(n // 10))}}} }}', "0"),
]
