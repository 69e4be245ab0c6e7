#!/usr/bin/env python3
"""Runs the built program: layers that are flattened or refused, scripts with their replies, and files, scripts and outputs that fail.

    python3 tests/runs.py [PROGRAM]
"""
import os
import pty
import resource
import signal
import subprocess
import sys
import tempfile
import termios
import tty

from shared import BUILT, FIRST, PROGRAM

READING = "usdstage: reading failed\n"
WRITING = "usdstage: writing failed\n"
FOLDER = None

SHOT = '''#usda 1.0
(
    defaultPrim = "World"
    metersPerUnit = 0.01
    upAxis = "Y"
)

def Xform "World" (
    kind = "assembly"
)
{
    def "chair" (
        prepend references = @./chair.usda@
    )
    {
        double3 xformOp:translate = (1.5, 0, -2)
        uniform token[] xformOpOrder = ["xformOp:translate"]
    }
}
'''
CHAIR = '(defaultPrim = "Chair") def Xform "Chair" { int legs = 4 }'
FLAT_SHOT = '''(
    defaultPrim = "World"
    metersPerUnit = 0.01
    upAxis = "Y"
)

def Xform "World" (
    kind = "assembly"
)
{

    def Xform "chair"
    {
        int legs = 4
        double3 xformOp:translate = (1.5, 0, -2)
        uniform token[] xformOpOrder = ["xformOp:translate"]
    }
}
'''
ONE_PRIM = {"root.usda": 'def "A" { int x = 1 }'}
STRONGER = {"root.usda": 'def "A" { int x = 1 }', "s.usda": 'over "A" { int x = 2 }'}

# the words behind `flatten`, the layers behind their first line, what is written behind the first line
FLATTENED = [
    ("shot.usda", {"shot.usda": SHOT[len(FIRST):], "chair.usda": CHAIR}, FLAT_SHOT),
    ("root.usda", {"root.usda": ""}, ""),
    ("root.usda", {"root.usda": 'def Xform "A" { int b = -7 def "C" { int x = 3 } int a = 0 }'},
     '\ndef Xform "A"\n{\n    int b = -7\n    int a = 0\n\n    def "C"\n    {\n        int x = 3\n    }\n}\n'),
    ("./sets/../root.usda", {"root.usda": 'over "A" {}'}, '\nover "A"\n{\n}\n'),
    ("sets/room.usda", {"sets/room.usda": 'def "A" (references = @../props/c.usda@</C>) {}', "props/c.usda": 'def "C" { int x = 1 }'},
     '\ndef "A"\n{\n    int x = 1\n}\n'),
    ("--session s.usda root.usda", STRONGER, '\ndef "A"\n{\n    int x = 2\n}\n'),
    ("root.usda --session=s.usda", STRONGER, '\ndef "A"\n{\n    int x = 2\n}\n'),
]

# the words, the layers, what is said
REFUSED = [
    ("flatten other.usda", {"root.usda": ""}, "other.usda: absent"),
    ("flatten ../root.usda", {"root.usda": ""}, "../root.usda: absent"),
    ("session root.usda", {"other.usda": ""}, "root.usda: absent"),
    ("flatten root.usda --session s.usda", {"root.usda": ""}, "s.usda: absent"),
    ("session t.usda", {"t.usda": 'def "T'}, "t.usda:2:5: Syntax"),
    ("flatten t.usda", {"t.usda": 'def "T'}, "t.usda:2:5: Syntax"),
    ("session root.usda --session t.usda", {"root.usda": "", "t.usda": 'def "T'}, "t.usda:2:5: Syntax"),
    ("flatten t.usda --session s.usda", {"t.usda": 'def "T', "s.usda": 'def "S'}, "t.usda:2:5: Syntax"),
    ("flatten root.usda", {"root.usda": 'def "A" { int x = 1.0 }'}, "root.usda:2:19: ValueShape"),
    ("flatten root.usda", {"root.usda": b"# \xff\n"}, "root.usda:2:3: NotUtf8"),
    ("flatten a.usdc", {"a.usdc": ""}, "a.usdc:1:1: Crate"),
]

# words that are no command; a blank parts two words
NO_COMMAND = [
    "flatten", "session", "flatten ", "flatten -", "flatten --", "flatten -root.usda", "flatten root.usda root.usda",
    "flatten root.usda --", "flatten root.usda --session", "flatten root.usda --session=", "flatten root.usda --sess root.usda",
    "flatten root.usda --session root.usda --session=root.usda", "flatten --session root.usda", "flat root.usda", "Flatten root.usda",
    "root.usda flatten", "--session root.usda flatten root.usda",
]

# a script on one prim, the replies behind that of the opening
ANSWERED = [
    ("", ""),
    ("begin\nset @root.usda@ /A.x 2\nset @root.usda@ /B.z 3\ncommit\npublish\ndefault /A.x\n",
     "batch refused: op 2 NoSpec\npublished 1: batches 0, prims 1\ndefault /A.x: 1\n"),
    ("begin\nset @root.usda@ /A.x 2\ncommit\nbegin\nset @root.usda@ /A.x 3\ncommit\npublish\ndefault /A.x",
     "batch 1 accepted\nbatch 2 accepted\npublished 1: batches 2, prims 1\ndefault /A.x: 3\n"),
    ("begin\nset @root.usda@ /A.x 2\ncommit\ndefault /A.x\npublish\ndefault /A.x\n",
     "batch 1 accepted\ndefault /A.x: 1\npublished 1: batches 1, prims 1\ndefault /A.x: 2\n"),
    ("begin\nset @other.usda@ /A.x 2\ncommit\n", "batch refused: op 1 NoLayer\n"),
    ("begin\ncommit\n", "batch 1 accepted\n"),
    ("begin\nset @root.usda@ /A.x -2147483648\ncommit\npublish\ndefault /A.x\nbegin\nset @root.usda@ /A.x 2147483647\ncommit\npublish\ndefault /A.x\nbegin\nset @root.usda@ /A.x 2147483648\ncommit\n",
     "batch 1 accepted\npublished 1: batches 1, prims 1\ndefault /A.x: -2147483648\nbatch 2 accepted\npublished 2: batches 2, prims 1\ndefault /A.x: 2147483647\nbatch refused: op 1 ValueShape\n"),
    ("default /B.x\ndefault /A.y\ndefault /A/B.x\n", "default /B.x: NoPrim\ndefault /A.y: NoProperty\ndefault /A/B.x: NoPrim\n"),
    ("\n \t\r\n# one\n  // two\n/* three */ nonsense\r\npublish # four\n\tdefault /A.x // six\n",
     "published 1: batches 0, prims 1\ndefault /A.x: 1\n"),
    ("begin\n\n# a change\nset @root.usda@ /A.x 007\n\ncommit\npublish\ndefault /A.x\n",
     "batch 1 accepted\npublished 1: batches 1, prims 1\ndefault /A.x: 7\n"),
    ("open @root.usda@\nopen @none.usda@\npublish\n", "batch 1 accepted\nbatch 2 accepted\npublished 1: batches 2, prims 1\n"),
    ("flatten", 'flatten: 37 bytes\n#usda 1.0\n\ndef "A"\n{\n    int x = 1\n}\n'),
]

# a script on one prim that has a line which is refused: the replies behind that of the opening, and the line
LINES = [
    ("begin", "", "2: Unfinished"),
    ("begin\n", "", "2: Unfinished"),
    ("begin\nset @root.usda@ /A.x 2\n\n", "", "4: Unfinished"),
    ("commit\n", "", "1: BadLine"),
    ("begin\nbegin\n", "", "2: BadLine"),
    ("set @root.usda@ /A.x 2\n", "", "1: BadLine"),
    ("begin\npublish\n", "", "2: BadLine"),
    ("begin\ndefault /A.x\n", "", "2: BadLine"),
    ("begin\nopen @root.usda@\n", "", "2: BadLine"),
    ("begin\nset @root.usda@ /A.x\n", "", "2: BadLine"),
    ("begin\nset @root.usda@ A.x 2\n", "", "2: BadLine"),
    ("/* publish\n", "", "1: BadLine"),
    ("publish publish\n", "", "1: BadLine"),
    ("begin\nset @@ /A.x 2\n", "", "2: BadLine"),
    ("Publish\n", "", "1: BadLine"),
    ("value /A.x inf\n", "", "1: BadLine"),
    ("value /A.x 1e13\n", "", "1: BadLine"),
    ("value /A.x 1e-19\n", "", "1: BadLine"),
    ("value /A 1\n", "", "1: BadLine"),
    ("default /A\n", "", "1: BadLine"),
    ("samples /A\n", "", "1: BadLine"),
    ("targets /A\n", "", "1: BadLine"),
    ("publish\nnonsense", "published 1: batches 0, prims 1\n", "2: BadLine"),
    ("publish\nnonsense\npublish\n", "published 1: batches 0, prims 1\n", "2: BadLine"),
    (b"publish\n# \xff\n", "published 1: batches 0, prims 1\n", "2: BadLine"),
    ("publish\n" + 16_777_209 * "#", "published 1: batches 0, prims 1\n", "2: TooLong"),
]

# layers of which a folder stands for one that cannot be read
BROKEN = {"root.usda": 'def "A" (references = @m.usda@</M>) { int x = 1 }', "m.usda": "(subLayers = [@n.usda@])", "n.usda": 'def "M" { int y = 2 }'}
FLAT = '#usda 1.0\n\ndef "A"\n{\n    int y = 2\n    int x = 1\n}\n'
OPENING = "published 0: batches 0, prims 1\n"
ONE = OPENING + "published 1: batches 0, prims 1\n"
TWO = ONE + "published 2: batches 0, prims 1\n"


def layers_in(folder, layers):
    """Writes the layers behind their first line; a layer that is None is a folder."""
    for name, text in layers.items():
        path = os.path.join(folder, name)
        os.makedirs(os.path.dirname(path) if text is not FOLDER else path, exist_ok=True)
        if text is not FOLDER:
            with open(path, "wb") as file:
                file.write(FIRST.encode() + (text.encode() if isinstance(text, str) else text))


def words_of(command):
    return command.split(" ")


class Runs:
    """Counts the runs that end as they have to, and tells those that do not."""

    def __init__(self):
        self.passed = self.failed = 0

    def compare(self, what, got, wanted):
        if got == wanted:
            self.passed += 1
        else:
            self.failed += 1
            print(f"{what}: {got} (wanted {wanted})"[:2000])

    def expect(self, command, layers, script, status, written, said):
        """A run whose script comes in one piece."""
        data = script.encode() if isinstance(script, str) else script
        with tempfile.TemporaryDirectory() as folder:
            layers_in(folder, layers)
            got = subprocess.run([PROGRAM, *words_of(command)], cwd=folder, input=data, capture_output=True, timeout=600)
        self.compare(f"{command} {data[:80]}", (got.returncode, got.stdout.decode(), got.stderr.decode()), (status, written, said))

    def expect_bytewise(self, script, written):
        """A session on one prim whose script comes byte by byte."""
        with tempfile.TemporaryDirectory() as folder:
            layers_in(folder, ONE_PRIM)
            with subprocess.Popen([PROGRAM, "session", "root.usda"], cwd=folder, stdin=subprocess.PIPE, stdout=subprocess.PIPE, bufsize=0) as run:
                for byte in script.encode():
                    run.stdin.write(bytes([byte]))
                run.stdin.close()
                got = run.stdout.read()
        self.compare(f"byte by byte {script[:80]}", (run.returncode, got.decode()), (0, written))

    def expect_at_a_terminal(self, script, written, said, status):
        """A session on one prim whose script comes from a terminal that is torn off behind it."""
        with tempfile.TemporaryDirectory() as folder:
            layers_in(folder, ONE_PRIM)
            near, far = pty.openpty()
            tty.setraw(far)
            os.write(far, script.encode())
            os.close(far)
            got = subprocess.run([PROGRAM, "session", "root.usda"], cwd=folder, stdin=near, capture_output=True, timeout=600)
            os.close(near)
        self.compare(f"torn off behind {script!r}", (got.returncode, got.stdout.decode(), got.stderr.decode()), (status, written, said))

    def expect_at_an_ended_terminal(self, script, ends, written):
        """A session on one prim whose script is typed at a terminal, and ended there; one more line is typed behind the end."""
        with tempfile.TemporaryDirectory() as folder:
            layers_in(folder, ONE_PRIM)
            near, far = pty.openpty()
            modes = termios.tcgetattr(far)
            modes[3] &= ~termios.ECHO
            termios.tcsetattr(far, termios.TCSANOW, modes)
            os.write(near, (script + ends + "publish\n").encode())
            got = subprocess.run([PROGRAM, "session", "root.usda"], cwd=folder, stdin=far, capture_output=True, timeout=600)
            os.close(far)
            os.close(near)
        self.compare(f"typed {script!r} and ended", (got.returncode, got.stdout.decode(), got.stderr.decode()), (0, written, ""))

    def expect_in_bytes(self, command, layers, script, room, status, written, said):
        """A run whose output is a file that takes so many bytes."""
        def limit():
            signal.signal(signal.SIGXFSZ, signal.SIG_IGN)
            resource.setrlimit(resource.RLIMIT_FSIZE, (room, room))

        with tempfile.TemporaryDirectory() as folder:
            layers_in(folder, layers)
            with open(os.path.join(folder, "out"), "w+b") as out:
                got = subprocess.run([PROGRAM, *words_of(command)], cwd=folder, input=script.encode(), stdout=out, stderr=subprocess.PIPE, preexec_fn=limit, timeout=600)
                out.seek(0)
                taken = out.read().decode()
        self.compare(f"{command} {script!r} in {room} bytes", (got.returncode, taken, got.stderr.decode()), (status, written, said))


def faults(runs):
    """Files, scripts and outputs that fail: what was written before is the front, and the first fault ends the run."""
    for name in BROKEN:
        runs.expect("flatten root.usda", {**BROKEN, name: FOLDER}, "", 3, "", READING)
        runs.expect_in_bytes("flatten root.usda", {**BROKEN, name: FOLDER}, "", 0, 3, "", READING)
    for room in (0, 1, 7, 49, len(FLAT) - 1):
        runs.expect_in_bytes("flatten root.usda", BROKEN, "", room, 4, FLAT[:room], WRITING)
    runs.expect_in_bytes("flatten root.usda", BROKEN, "", len(FLAT), 0, FLAT, "")
    for room in (0, 5, len(OPENING), len(OPENING) + 9, len(ONE), len(TWO) - 1):
        runs.expect_in_bytes("session root.usda", ONE_PRIM, "publish\npublish\n", room, 4, TWO[:room], WRITING)
    runs.expect_in_bytes("session root.usda", ONE_PRIM, "publish\npublish\n", len(TWO), 0, TWO, "")
    runs.expect("session root.usda", {**ONE_PRIM, "n.usda": FOLDER}, "publish\nopen @n.usda@\npublish\n", 3, ONE, READING)
    runs.expect("session root.usda", {"root.usda": FOLDER}, "publish\n", 3, "", READING)
    runs.expect("flat root.usda", {"root.usda": FOLDER}, "publish\n", 2, "", "usdstage: not a command\n")
    # a folder cannot be read as a script; `flatten` reads none
    with tempfile.TemporaryDirectory() as folder:
        layers_in(folder, ONE_PRIM)
        for command, status, written, said in (("session", 3, OPENING, READING), ("flatten", 0, '#usda 1.0\n\ndef "A"\n{\n    int x = 1\n}\n', "")):
            script = os.open(folder, os.O_RDONLY)
            got = subprocess.run([PROGRAM, command, "root.usda"], cwd=folder, stdin=script, capture_output=True, timeout=600)
            os.close(script)
            runs.compare(f"{command} with a folder as its script", (got.returncode, got.stdout.decode(), got.stderr.decode()), (status, written, said))
    # whole lines are answered before the fault; the front of a line is none
    for script, written in (("", OPENING), ("publish\n", ONE), ("publish\npublish", ONE), ("publish\npublish\n", TWO)):
        runs.expect_at_a_terminal(script, written, READING, 3)
    runs.expect_at_a_terminal("publish\nnonsense\npublish\n", ONE, "usdstage: script line 2: BadLine\n", 6)
    # a script that is ended at a terminal ends there: it is not read once more. Behind a line without its feed a terminal is ended twice
    for script, ends in (("publish\n", "\x04"), ("publish", "\x04\x04")):
        runs.expect_at_an_ended_terminal(script, ends, ONE)


def limits(runs):
    """As many bytes and edit calls as a session takes; one more of each is in the tables of lines and below."""
    runs.expect("session root.usda", ONE_PRIM, "publish\n" + 16_777_208 * "#", 0, ONE, "")
    said = [f"batch {n} accepted\n" for n in range(1, 65_537)]
    runs.expect("session root.usda", ONE_PRIM, 65_537 * "begin\ncommit\n", 0, OPENING + "".join(said) + "batch refused: journal full\n", "")


def main():
    runs = Runs()
    for words, layers, written in FLATTENED:
        runs.expect("flatten " + words, layers, "nonsense", 0, FIRST + written, "")
    for command, layers, said in REFUSED:
        runs.expect(command, layers, "publish", 5, "", f"usdstage: {said}\n")
    for command in NO_COMMAND:
        runs.expect(command, {"root.usda": ""}, "publish", 2, "", "usdstage: not a command\n")
    # without words the launcher prints its page of help, so the program itself is run
    none = subprocess.run([BUILT], stdin=subprocess.DEVNULL, capture_output=True, timeout=600)
    runs.compare("no words", (none.returncode, none.stdout, none.stderr), (2, b"", b"usdstage: not a command\n"))
    for script, replies in ANSWERED:
        runs.expect("session root.usda", ONE_PRIM, script, 0, OPENING + replies, "")
        runs.expect_bytewise(script, OPENING + replies)
    for script, replies, said in LINES:
        runs.expect("session root.usda", ONE_PRIM, script, 6, OPENING + replies, f"usdstage: script line {said}\n")
    faults(runs)
    limits(runs)
    print(f"runs: {runs.passed} passed, {runs.failed} failed")
    sys.exit(1 if runs.failed else 0)


if __name__ == "__main__":
    main()
