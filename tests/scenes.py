#!/usr/bin/env python3
"""Runs the built program over small scenes, each with the answers that the rules of composition and of sessions give it.

    python3 tests/scenes.py [PROGRAM]

Scenes stand below, and each folder of tests/worlds is one: its layers, the words behind the program's name a line each (`words`), the
script, and what is written (`expected`). tools/world_equations.py makes equations of the same folders. Answers are worked out from the
rules, and never taken from what was written.
"""
import os
import resource
import subprocess
import sys
import tempfile

from shared import BUILT, FIRST, PROGRAM, TOP, run, write

CLASSES = "".join(f'class "c{i}" (inherits = </c{i + 1}>) {{}}\n' for i in range(12)) + 'class "c12" {}\n'
LONG = "v" * 4090
MANY = "(subLayers = [" + ", ".join(f"@s{i}.usda@" for i in range(4095)) + "])"

# name, layers, script, number of prims at the opening, what is written behind the reply to the opening
SCENES = [
    ("a removal that is done twice", {"root": 'def "A" { def "B" { int x = 1 } }'},
     "begin\nremove @root.usda@ /A/B\nremove @root.usda@ /A/B\ncommit\npublish\nbegin\nremove @root.usda@ /A/B\ncommit\npublish\nchildren /A\ndefault /A/B.x\n", 2,
     "batch refused: op 2 NoSpec\npublished 1: batches 0, prims 2\nbatch 1 accepted\npublished 2: batches 1, prims 1\nchildren /A: []\ndefault /A/B.x: NoPrim\n"),
    ("a batch whose third operation is refused", {"root": 'def "A" { int x = 1 }'},
     "begin\nset @root.usda@ /A.x 2\nattr @root.usda@ /A.y int\nset @root.usda@ /B.z 3\ncommit\npublish\ndefault /A.x\n", 1,
     "batch refused: op 3 NoSpec\npublished 1: batches 0, prims 1\ndefault /A.x: 1\n"),
    ("a broken layer", {"root": 'def "A" (references = @t.usda@</T>) { int x = 1 }', "t": 'def "T'},
     "faults /A\ndefault /A.x\n", 1,
     "faults /A: 1\n  BrokenLayer @root.usda@</A> references @t.usda@</T> Syntax 2:5\ndefault /A.x: 1\n"),
    # the first of thirteen classes in a chain has 4,096 nodes, and what inherits from it has more; so has each listing on the way to /B
    ("a target below a prim that is overgrown", {"root": CLASSES + 'def "A" (inherits = </c0>) { def "k" {} } def "B" (references = </A/k>) {}'},
     "faults /c0\nfaults /A\nfaults /B\nsites /B\nchildren /A\n", 15,
     "faults /c0: 0\nfaults /A: 1\n  Overgrown\nfaults /B: 1\n  Overgrown\nsites /B: 0\nchildren /A: []\n"),
    # the variant's path has 4,096 bytes, and below it no path has room: the variant gives nothing there, and no fault
    ("a variant whose children have no room", {"root": f'def "A" (variantSets = "s" variants = {{ string s = "{LONG}" }}) {{ def "k" {{ int x = 1 }} variantSet "s" = {{ "{LONG}" {{ int y = 2 }} }} }}'},
     "default /A.y\nsites /A/k\nfaults /A/k\n", 2,
     "default /A.y: 2\nsites /A/k: 1\n  @root.usda@ /A/k\nfaults /A/k: 0\n"),
    # the class is visited for /N, and lifted for /M and for /A: a lifted visit yields to one of the same class behind it
    ("a class behind two references of one layer", {"root": 'class "_c" {} def "N" (inherits = </_c>) {} def "M" (references = </N>) {} def "A" (references = </M>) {}'},
     "sites /A\n", 4,
     "sites /A: 4\n  @root.usda@ /A\n  @root.usda@ /M\n  @root.usda@ /N\n  @root.usda@ /_c\n"),
    ("a new layer whose text is refused, and an empty batch", {"root": 'def "A" { int x = 1 }'},
     'begin\nnewlayer @n.usda@ "#usda 1.1"\ncommit\nbegin\ncommit\nopen @root.usda@\n', 1,
     "batch refused: op 1 LayerText BadHeader 1:1\nbatch 1 accepted\nbatch 2 accepted\n"),
    ("a list that is explicit, then appended to, deleted from and prepended to",
     {"root": '(subLayers = [@d.usda@, @c.usda@, @e.usda@]) def "A" { prepend rel r = </b> }', "d": 'over "A" { delete rel r = </a> }', "c": 'over "A" { append rel r = </c> }', "e": 'over "A" { rel r = [</a>, </b>] }'},
     "targets /A.r\n", 1, "targets /A.r: [</b>, </c>]\n"),
    ("items that two layers add", {"root": '(subLayers = [@w.usda@]) def "A" { add rel r = </a> }', "w": 'over "A" { add rel r = </b> }'},
     "targets /A.r\n", 1, "targets /A.r: [</b>, </a>]\n"),
    ("a reorder of five items", {"root": '(subLayers = [@w.usda@]) def "A" { reorder rel r = [</d>, </b>] }', "w": 'over "A" { rel r = [</a>, </b>, </c>, </d>, </e>] }'},
     "targets /A.r\n", 1, "targets /A.r: [</a>, </d>, </e>, </b>, </c>]\n"),
    ("a payload that is unloaded and loaded", {"root": 'def "A" (payload = @p.usda@) {} def "B" {}', "p": '(defaultPrim = "P") def "P" { def "k" {} }'},
     "begin\nunload /A\ncommit\npublish\nchildren /A\nbegin\nload /A\ncommit\npublish\nchildren /A\n", 3,
     'batch 1 accepted\npublished 1: batches 1, prims 2\nchildren /A: []\nbatch 2 accepted\npublished 2: batches 2, prims 3\nchildren /A: ["k"]\n'),
]


class Checks:
    """Counts the runs that end as they have to, and tells those that do not."""

    def __init__(self):
        self.passed = self.failed = 0

    def count(self, is_right, what):
        if is_right:
            self.passed += 1
        else:
            self.failed += 1
            print(what)

    def compare(self, name, got, wanted):
        """A run ended well and wrote this."""
        is_right = (got.returncode, got.stdout, got.stderr) == (0, wanted.encode(), b"")
        self.count(is_right, f"{name}: status {got.returncode} {got.stderr.decode()}\n{got.stdout.decode()}")

    def ends(self, what, got, status, begin, line):
        """A run ended with this status and said this line, and what it wrote begins so; where this is empty, it wrote nothing."""
        is_right = (got.returncode, got.stderr) == (status, line) and got.stdout.startswith(begin) and bool(got.stdout) == bool(begin)
        self.count(is_right, f"{what}: status {got.returncode}, said {got.stderr}, written {got.stdout[:80]}")


def check_scenes(checks):
    """Runs the scenes that stand above."""
    for name, layers, script, prims, wanted in SCENES:
        with tempfile.TemporaryDirectory() as folder:
            write(folder, layers)
            got = run(folder, ["session", "root.usda"], script)
        checks.compare(name, got, f"published 0: batches 0, prims {prims}\n{wanted}")


def check_worlds(checks):
    """Runs the script of each folder of tests/worlds on its layers."""
    worlds = os.path.join(TOP, "tests", "worlds")
    for name in sorted(os.listdir(worlds)):
        words, script, wanted = (open(os.path.join(worlds, name, part), encoding="utf-8").read() for part in ("words", "script", "expected"))
        checks.compare(name, run(os.path.join(worlds, name), words.split("\n")[:-1], script), wanted)


def check_limits(checks, folder):
    """Runs at the limits of a stage, of a world and of memory."""
    def small():
        resource.setrlimit(resource.RLIMIT_AS, (64 << 20, 64 << 20))

    write(folder, {"root": MANY})
    checks.ends("4,095 sublayers that are absent", run(folder, ["session", "root.usda"], "faults /\n"), 0,
                b"published 0: batches 0, prims 0\nfaults /: 4095\n", b"")
    write(folder, {"root": MANY.replace("[", "[@more.usda@, ")})
    checks.ends("4,096 sublayers that are absent", run(folder, ["session", "root.usda"]), 8, b"", b"usdstage: too many layers or bytes\n")
    prims = "".join(f'def "p{i}" {{}}\n' for i in range(262143))
    write(folder, {"root": prims})
    low = subprocess.run([BUILT, "flatten", "root.usda"], cwd=folder, capture_output=True, preexec_fn=small, timeout=600)
    checks.ends("262,143 prims in little memory", low, 9, b"", b"usdstage: out of memory\n")
    more = "begin\nspec def @root.usda@ /one_more\ncommit\npublish\n"
    checks.ends("262,143 prims, and one more by a batch", run(folder, ["session", "root.usda"], more), 7,
                b"published 0: batches 0, prims 262143\nbatch 1 accepted\n", b"usdstage: more than 262144 paths\n")
    write(folder, {"root": prims + 'def "one_more" {}\n'})
    checks.ends("262,144 prims", run(folder, ["session", "root.usda"]), 7, b"", b"usdstage: more than 262144 paths\n")


def check_scripts(checks, folder):
    """Scripts that are refused on an empty layer, and a root layer that is gone when it is opened again."""
    write(folder, {"root": ""})
    first = b"published 0: batches 0, prims 0\n"
    checks.ends("a line that is none", run(folder, ["session", "root.usda"], "publish\nnonsense\n"), 6,
                first + b"published 1: batches 0, prims 0\n", b"usdstage: script line 2: BadLine\n")
    checks.ends("a batch without an end", run(folder, ["session", "root.usda"], "begin"), 6, first, b"usdstage: script line 2: Unfinished\n")
    most = 16777216
    checks.ends("a script of a byte too many", run(folder, ["session", "root.usda"], "publish\n#" + " " * (most - 8)), 6,
                first + b"published 1: batches 0, prims 0\n", b"usdstage: script line 2: TooLong\n")
    write(folder, {"shot": 'def "A" { int x = 1 }', "over": 'over "A" { int x = 2 }'})
    checks.ends("a session layer", run(folder, ["session", "--session", "over.usda", "shot.usda"], "default /A.x"), 0,
                b"published 0: batches 0, prims 1\ndefault /A.x: 2\n", b"")
    program = subprocess.Popen([PROGRAM, "session", "root.usda"], cwd=folder, stdin=subprocess.PIPE, stdout=subprocess.PIPE)
    opened = program.stdout.readline()
    os.remove(os.path.join(folder, "root.usda"))
    rest, _ = program.communicate(b"open @root.usda@\n", timeout=600)
    is_right = (program.returncode, opened, rest) == (0, first, b"batch refused: op 1 RootLayer\n")
    checks.count(is_right, f"a root layer that is gone: status {program.returncode}, written {opened + rest}")


def commented(length):
    """A layer of this many bytes that says nothing: comments up to the last line feed."""
    line = b"#" + 62 * b"-" + b"\n"
    body = length - len(FIRST)
    lines, rest = divmod(body, len(line))
    if rest == 0:
        lines, rest = lines - 1, len(line)
    return FIRST.encode() + lines * line + b"#" * (rest - 1) + b"\n"


def check_bytes(checks, folder):
    """Openings that fetch the most bytes, 268,435,456, and one more: a root layer with three layers of the most bytes of a layer and one of the
    rest. A layer that is opened behind the most bytes is too much."""
    root = FIRST.encode() + b"(subLayers = [@a.usda@, @b.usda@, @c.usda@, @d.usda@])\n"
    most = 67108864
    for more, begin in ((0, b"published 0: batches 0, prims 0\nfaults /: 0\n"), (1, b"")):
        for name, data in (("root", root), ("a", commented(most)), ("b", commented(most)), ("c", commented(most)), ("d", commented(most - len(root) + more))):
            with open(os.path.join(folder, name + ".usda"), "wb") as file:
                file.write(data)
        checks.ends(f"268,435,456 bytes and {more} more", run(folder, ["session", "root.usda"], "faults /\nopen @d.usda@\n"), 8, begin,
                    b"usdstage: too many layers or bytes\n")


def main():
    checks = Checks()
    check_scenes(checks)
    check_worlds(checks)
    for check in (check_limits, check_bytes, check_scripts):
        with tempfile.TemporaryDirectory() as folder:
            check(checks, folder)
    print(f"scenes: {checks.passed} passed, {checks.failed} failed")
    sys.exit(1 if checks.failed else 0)


if __name__ == "__main__":
    main()
