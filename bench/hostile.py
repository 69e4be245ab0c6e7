#!/usr/bin/env python3
"""Runs the built program on hostile inputs, and says where it breaks a promise of the README.

    python3 bench/hostile.py [PROGRAM] [--quick] [--seed NUMBER] [--only PART ..]

The parts are words (commands and files that are none), cut (each layer and script of the examples, cut at every byte), texts and scripts
(of the examples that have a script and of tests/worlds, spoiled by chance from the seed), scenes (deep and wide ones), and long (tokens
and lists). Every run has to end with a status and a line of the table in the README, within its time. Beyond that:

- status 5: nothing is written, and the place of the refusal is in the text. What stands before that place is good, or ends too early;
  what is put behind the text changes nothing. Bytes that are not UTF-8 and another first line are told by this script as well.
- status 0 of `flatten`: what is written is read again, and gives the same text.
- scripts: the replies are those that the lines ask for, with their numbers. At a refused line the script that is cut before it has the
  same replies.
- a text is refused at the same place and for the same reason as the root, as a layer that is referenced, and in `newlayer`. Many texts
  are asked in one session: where a fetch that fails ends it, they are not compared, and how many these are is printed.

Each find is printed. Of the first twenty the input is kept in a folder, but not of scenes, of long tokens and lists, and of streams that
are closed or no files; a run with the same seed makes all of them again. With --quick each part takes a share of its inputs, but for the
words, which are all tried, and the variants of one set, which are as many; this takes less than a minute.
"""
import argparse
import os
import random
import re
import resource
import shutil
import subprocess
import sys
import tempfile
import time

import measure
from hostile_inputs import FIRST, LONG, SCENES, get, put, scenes, spoil, spoil_script, with_scripts, without_scripts

BOUND = 5  # the processor's seconds of a run on a small input
KINDS = (b"TooLong|Crate|Package|NotUtf8|BadHeader|Syntax|NumberTooLong|UnknownType|ValueShape|TimeRange|OffsetRange|DuplicateSpec|Relocates|"
         b"Spline|ReferenceData|TooDeep")
REASONS = (b"NoLayer|WrongPath|LayerThere|LayerLimit|LayerText (?:" + KINDS + rb") \d+:\d+|NoParent|SpecThere|NoSuchType|NoSpec|ValueShape|"
           b"TimeRange|OffsetRange|BadArc|RootLayer")
FAULTS = (b"ArcCycle|TooDeep|OffsetRange|PathTooLong|MissingLayer|BrokenLayer|NoDefaultPrim|BadTarget|UnresolvedPrim|Sublayer(?:Cycle|Missing|"
          b"Broken|Offset)|TimeOutside|TargetOutside|Overgrown")

LARGE = f"{'input':42} {'count':>8} {'bytes':>11} {'seconds':>8} {'bound':>6} {'peak MiB':>9}"

# what stands on standard error at each status
TABLE = {
    0: b"",
    2: b"usdstage: not a command\n",
    3: b"usdstage: reading failed\n",
    4: b"usdstage: writing failed\n",
    5: rb"usdstage: (?:[^\n]*: absent|[^\n]*:(\d+):(\d+): (" + KINDS + rb"))\n",
    6: rb"usdstage: script line (\d+): (BadLine|Unfinished|TooLong)\n",
    7: b"usdstage: more than 262144 paths\n",
    8: b"usdstage: too many layers or bytes\n",
    9: b"usdstage: out of memory\n",
}


class Ran:
    """What a run of the program did."""

    def __init__(self, status, out, err):
        self.status, self.out, self.err = status, out, err


def fed(program, script, lengths):
    """Writes a script to a program in pieces, and gives what is left where the program ends before."""
    while script:
        end = next(lengths)
        try:
            os.write(program.stdin.fileno(), script[:end])
        except BrokenPipeError:
            return b""
        script = script[end:]
    return script


class Check:
    """The program, what was found so far, and where its inputs are kept."""

    def __init__(self, program, seed):
        self.program, self.seed, self.runs, self.finds, self.slowest, self.kept, self.statuses = program, seed, 0, [], 0.0, None, {}
        self.texts, self.left_out = 0, 0

    def run(self, folder, words, script=b"", pieces=None):
        """A run, whose status, line and time are judged; `pieces` gives the script in pieces of these lengths."""
        before = resource.getrusage(resource.RUSAGE_CHILDREN)
        program = subprocess.Popen([self.program, *words], cwd=folder, stdin=subprocess.PIPE, stdout=subprocess.PIPE, stderr=subprocess.PIPE)
        resource.prlimit(program.pid, resource.RLIMIT_CPU, (BOUND, 2 * BOUND))
        if pieces:
            script = fed(program, script, pieces)
        try:
            out, err = program.communicate(script, timeout=40 * BOUND)
        except subprocess.TimeoutExpired:
            program.kill()
            out, err = program.communicate()
        after = resource.getrusage(resource.RUSAGE_CHILDREN)
        status = program.returncode
        self.counted(status, after.ru_utime + after.ru_stime - before.ru_utime - before.ru_stime)
        if status not in TABLE or not re.fullmatch(TABLE[status], err):
            self.found(f"{words}: status {status}, said {err[:200]}", folder, script)
        return Ran(status, out, err)

    def counted(self, status, seconds):
        self.runs += 1
        self.slowest = max(self.slowest, seconds)
        self.statuses[status] = self.statuses.get(status, 0) + 1

    def measured(self, name, count, size, command, folder, script, bound):
        """A run on a large input, with a line of a table on what it took."""
        took = measure.measured([self.program, *command], folder, script, bound)
        self.counted(took.status, took.seconds)
        print(f"{name:42} {count:>8} {size:>11} {took.seconds:8.2f} {bound:>6} {took.peak / 2**20:9.1f}", flush=True)
        return took

    def found(self, what, folder=None, script=None):
        """Notes a find, and keeps the files of its folder and its script."""
        if len(self.finds) < 20 and folder is not None:
            self.kept = self.kept or tempfile.mkdtemp(prefix="hostile-")
            at = os.path.join(self.kept, str(len(self.finds)))
            shutil.copytree(folder, at, symlinks=True)
            if script:
                with open(os.path.join(at, "script.of.the.find"), "wb") as file:
                    file.write(script)
            what += f" [{at}]"
        self.finds.append(what)
        print("FIND", what, flush=True)


# Judging

def offset_of(text, line, column):
    """The byte at this place, none where the text has no such place."""
    lines = text.split(b"\n")
    if not 1 <= line <= len(lines) or not 1 <= column <= len(lines[line - 1]) + 1:
        return None
    return sum(len(it) + 1 for it in lines[:line - 1]) + column - 1


def refusal(ran):
    """Line, column and kind of a refused text, none where it is accepted or absent."""
    told = re.fullmatch(TABLE[5], ran.err) if ran.status == 5 else None
    return (int(told[1]), int(told[2]), told[3]) if told and told[1] else None


def first_refusal(text):
    """The refusal by the first checks, which are judged over all bytes, none where a text passes them."""
    for begin, kind in ((b"PXR-USDC", b"Crate"), (b"PK\3\4", b"Package")):
        if text.startswith(begin):
            return 1, 1, kind
    try:
        text.decode()
    except UnicodeDecodeError as bad:
        before = text[:bad.start]
        return before.count(b"\n") + 1, len(before) - before.rfind(b"\n"), b"NotUtf8"
    return None if re.match(rb"#usda 1\.0[ \t\r]*(\n|\Z)", text) else (1, 1, b"BadHeader")


def judge_refusal(check, folder, text, told):
    """Looks at the place of a refusal: before it stands a text that is good or ends too early, and what comes behind it does not matter."""
    due = first_refusal(text)
    if due is not None:
        if due != told:
            check.found(f"refused {told}, due is {due}", folder)
        return
    at = offset_of(text, told[0], told[1])
    if at is None:
        check.found(f"a refusal at {told[:2]}, where the text has no byte", folder)
        return
    put(folder, "cut.usda", text[:at])
    before = check.run(folder, ["flatten", "cut.usda"])
    told_before = refusal(before)
    if told_before is not None and (told_before[2] != b"Syntax" or offset_of(text[:at], *told_before[:2]) != at):
        check.found(f"refused {told}, and what stands before it {told_before}", folder)
    if at < len(text):
        put(folder, "cut.usda", text + b"\n\0")
        behind = refusal(check.run(folder, ["flatten", "cut.usda"]))
        if behind != told:
            check.found(f"refused {told}, and with more behind it {behind}", folder)


def judge_text(check, folder, name, thorough):
    """Flattens a text as the root, and gives its refusal."""
    ran = check.run(folder, ["flatten", name])
    text = get(os.path.join(folder, name))
    if ran.status == 5:
        told = refusal(ran)
        if ran.out:
            check.found(f"status 5 with {ran.out[:80]} written", folder)
        if not ran.err.startswith(f"usdstage: {name}:".encode()):
            check.found(f"another name is refused: {ran.err}", folder)
        if told and (thorough or first_refusal(text)):
            judge_refusal(check, folder, text, told)
        return told
    if ran.status == 0:
        judge_flattened(check, folder, ran.out)
        if thorough:
            put(folder, "cut.usda", text + b"\n\0")
            behind = check.run(folder, ["flatten", "cut.usda"])
            if refusal(behind) != (text.count(b"\n") + 2, 1, b"Syntax"):
                check.found(f"accepted, and with a byte behind it {behind.err}", folder)
    return None


def judge_flattened(check, folder, text):
    """A flattened text is read again, and gives itself."""
    put(folder, "flat.usda", text)
    again = check.run(folder, ["flatten", "flat.usda"])
    if (again.status, again.out) != (0, text):
        check.found(f"a flattened text is flattened to another: status {again.status} {again.err}", folder)


class Replies:
    """Reads the replies of a session in order, and tells where they are not those that the lines ask for."""

    def __init__(self, out):
        self.out, self.at, self.accepted, self.version, self.texts = out, 0, 0, 0, []

    def take(self, form):
        """The groups of a reply of this form, none where another stands there."""
        told = re.compile(form).match(self.out, self.at)
        if told:
            self.at = told.end()
        return told

    def batch(self, operations):
        if self.take(b"batch %d accepted\n" % (self.accepted + 1)):
            self.accepted += 1
            return True
        told = self.take(rb"batch refused: op (\d+) (?:" + REASONS + rb")\n")
        return told is not None and 1 <= int(told[1]) <= operations or self.take(b"batch refused: journal full\n") is not None

    def publish(self):
        self.version += 1
        return self.take(rb"published %d: batches %d, prims \d+\n" % (self.version, self.accepted)) is not None

    def listed(self, word, form):
        """A number, and so many lines behind two spaces, or that there is no such prim."""
        told = self.take(word + rb" /\S*: (?:(\d+)|NoPrim)\n")
        if not told:
            return False
        return all(self.take(rb"  (?:" + form + rb")") for _ in range(int(told[1] or 0)))

    def question(self, word):
        if word == b"flatten":
            told = self.take(rb"flatten: (\d+) bytes\n")
            if told:
                self.texts.append(self.out[self.at:self.at + int(told[1])])
                self.at += int(told[1])
            return told is not None and self.at <= len(self.out)
        if word == b"faults":
            return self.listed(word, rb"(?:" + FAULTS + rb")[^\n]*\n(?:(?!  )[^\n]*[@>][^\n]*\n)*?")
        if word == b"sites":
            return self.listed(word, rb"@[^\n]*@ /[^\n]*\n")
        if word in (b"children", b"targets"):
            return self.take(word + rb" /\S*: (?:\[[^\n]*\]|NoPrim|NoProperty|NoValue)\n") is not None
        time = rb" \S+" if word == b"value" else b""
        return self.take(word + rb" /\S*" + time + rb": [^\n]+\n") is not None


def lines_of(script):
    """The lines of a script; what stands behind the last line feed is a line where it is not empty."""
    lines = script.split(b"\n")
    return lines if lines[-1] else lines[:-1]


def judge_replies(out, lines):
    """Whether these are the replies to the opening and to all of these lines: the place of the first that is not, and the flattened texts."""
    replies, operations = Replies(out), None
    if not replies.take(rb"published 0: batches 0, prims \d+\n"):
        return "the opening", []
    for number, line in enumerate(lines, 1):
        word = re.match(rb"[ \t\r]*(#|//|/\*|\w*)", line)[1]
        good = True
        if word in (b"#", b"//", b"/*", b""):
            continue
        if word == b"begin":
            operations = 0
        elif word == b"commit":
            good, operations = replies.batch(operations or 0), None
        elif operations is not None:
            operations += 1
        elif word == b"open":
            good = replies.batch(1)
        else:
            good = replies.publish() if word == b"publish" else replies.question(word)
        if not good:
            return f"line {number}, {line[:60]}: {out[replies.at:replies.at + 80]}", replies.texts
    return ("more than the replies" if replies.at != len(out) else None), replies.texts


def judge_script(check, folder, root, script, flatten):
    """Runs a session with the script, and looks at its replies."""
    ran = check.run(folder, ["session", root], script)
    lines = lines_of(script)
    if ran.status == 6:
        told = re.fullmatch(TABLE[6], ran.err)
        number, kind = int(told[1]), told[2]
        if not 1 <= number <= len(lines) + (kind == b"Unfinished"):
            check.found(f"line {number} is refused, the script has {len(lines)}", folder, script)
            return
        lines = lines[:number - 1]
        before = b"".join(line + b"\n" for line in lines)
        cut = check.run(folder, ["session", root], before)
        unfinished = b"usdstage: script line %d: Unfinished\n" % number
        if cut.out != ran.out or not (cut.status == 0 or (cut.status, cut.err) == (6, unfinished)):
            check.found(f"refused {told[0]}, the script before it: status {cut.status} {cut.err}", folder, script)
    elif ran.status in (3, 8):
        judge_opening(check, folder, root, script, ran)
        return
    elif ran.status != 0:
        check.found(f"a session on good layers: status {ran.status}", folder, script)
        return
    wrong, texts = judge_replies(ran.out, lines)
    if wrong:
        check.found(f"other replies than the lines ask for: {wrong}", folder, script)
    for text in texts if flatten else []:
        judge_flattened(check, folder, text)


def judge_opening(check, folder, root, script, ran):
    """At a fetch that ended a session the replies are those of the script before one of its lines `open`."""
    lines = lines_of(script)
    for at, line in enumerate(lines):
        if re.match(rb"[ \t\r]*open\b", line):
            before = check.run(folder, ["session", root], b"".join(it + b"\n" for it in lines[:at]))
            if before.status == 0 and before.out == ran.out:
                return
    check.found(f"status {ran.status}, and the replies are those of no script before a line `open`", folder, script)


# Parts

def told_so_far(number, count, what):
    if number and number % 1000 == 0:
        print(f"{number} of {count} {what}", file=sys.stderr, flush=True)


def run_words(check, quick):
    """Words that are no command, names of every kind, files that are none, and streams that are closed."""
    long_name = "n" * 300
    commands = [[], [""], ["flatten"], ["session"], ["flatten", ""], ["flatten", "--"], ["flatten", "-a"], ["flatten", "a", "b"], ["flatten", b"\xff"], ["flatten", b"a\xc3"],
                ["flatten", "a\nb"], ["flatten", "a\x7f.usda"], ["flatten", "--session", "a.usda"], ["flatten", "--session=", "a.usda"], ["flatten", "a.usda", "--session=a.usda"],
                ["flatten", "a.usda", "--session", "a.usda", "--session=a.usda"], ["flatten", "--sess=a.usda", "a.usda"], ["flatten", "a.usda", "--session"], ["flat", "a.usda"],
                ["flatten", "."], ["flatten", "/"], ["flatten", ".."], ["flatten", "//a"], ["flatten", "./../x/a.usda"], ["flatten", "n/" * 2100], ["flatten", "a" * 4096],
                ["flatten", "a" * 4097], ["flatten", long_name], ["flatten", "a.usda/b"], ["flatten", "loop.usda"], ["flatten", "folder.usda"], ["flatten", "a.usdc"],
                ["flatten", "a.usdz"], ["flatten", "a.usdz[b.usda]"], ["flatten", "/dev/null"], ["flatten", "/dev/zero"], ["flatten", "a.usda", "--session", "/dev/zero"],
                ["session", "a.usda", "--session=-a"], ["session", "-"], ["a" * 100000], ["flatten"] + ["a"] * 5000, ["flatten", "names.usda"], ["flatten", "folders.usda"]]
    with tempfile.TemporaryDirectory() as folder:
        put(folder, "a.usda", FIRST)
        os.mkdir(os.path.join(folder, "folder.usda"))
        os.symlink("loop.usda", os.path.join(folder, "loop.usda"))
        put(folder, "names.usda", FIRST + f'def "A" (references = [@{long_name}@, @a.usda/b@, @loop.usda@, @{"n/" * 2040}@]) {{}}\n'.encode())
        put(folder, "folders.usda", FIRST + b'def "A" (references = [@.@, @/@, @..@, @folder.usda@]) {}\n')
        for words in commands:
            ran = check.run(folder, words)
            if ran.status not in (0,) and ran.out:
                check.found(f"{words}: status {ran.status}, written {ran.out[:80]}", folder)
        opened = b"published 0: batches 0, prims 0\n"
        for source, status, out in (("/dev/zero", 6, opened), ("/dev/null", 0, opened), (folder, 3, opened)):
            handle = os.open(source, os.O_RDONLY)
            ran = subprocess.run([check.program, "session", "a.usda"], cwd=folder, stdin=handle, capture_output=True, timeout=40 * BOUND)
            os.close(handle)
            check.counted(ran.returncode, 0)
            if (ran.returncode, ran.stdout) != (status, out) or not re.fullmatch(TABLE[status], ran.stderr):
                check.found(f"a script from {source}: status {ran.returncode}, said {ran.stderr}, written {ran.stdout[:80]}")
        reading, writing = os.pipe()
        os.close(reading)
        ran = subprocess.run([check.program, "session", "a.usda"], cwd=folder, input=b"", stdout=writing, stderr=subprocess.PIPE, timeout=40 * BOUND)
        os.close(writing)
        check.counted(ran.returncode, 0)
        if (ran.returncode, ran.stderr) != (4, TABLE[4]):
            check.found(f"an output that nobody reads: status {ran.returncode}, said {ran.stderr}")


def run_cut(check, quick):
    """Each layer and each script of the examples, cut at every byte."""
    first, step = (check.seed % 16, 16) if quick else (0, 1)
    for made in with_scripts() + without_scripts():
        for layer, text in made.layers.items():
            with tempfile.TemporaryDirectory() as at:
                made.write(at)
                whole = refusal(check.run(at, ["flatten", layer]))
                for end in range(first, len(text) + 1, step):
                    put(at, layer, text[:end])
                    told = judge_text(check, at, layer, False)
                    if told and told != whole and not is_at_the_end(text[:end], told):
                        check.found(f"{made.name}/{layer} cut at {end} is refused {told}, before its last token", at)
    for made in with_scripts():
        with tempfile.TemporaryDirectory() as at:
            made.write(at)
            for end in range(first, len(made.script) + 1, step):
                judge_script(check, at, made.root, made.script[:end], False)


# a token, or the front of one: a long string, a string of a line, an asset, a comment, a path, a word or a number, a mark
TOKEN = b"|".join([
    rb'"""(?:\\(?s:.)|(?!""")[^\\])*\\?(?:""")?',
    rb"'''(?:\\(?s:.)|(?!''')[^\\])*\\?(?:''')?",
    rb'"(?:\\.|[^"\\\n])*\\?"?',
    rb"'(?:\\.|[^'\\\n])*\\?'?",
    rb"@@@(?:(?!@@@)(?s:.))*(?:@@@@?)?",
    rb"@[^@\n]*@?",
    rb"/\*(?:(?!\*/)(?s:.))*(?:\*/)?",
    rb"<[^>\n]*>?",
    rb"[\w:.+-]+",
    rb"[^\w\s]",
])


def is_at_the_end(text, told):
    """Whether a refusal stands at the last token of a text or at its end; the first line is one token."""
    at = offset_of(text, told[0], told[1])
    if at is None:
        return False
    return told[2] == b"BadHeader" and b"\n" not in text or re.fullmatch(rb"(?:" + TOKEN + rb")?\s*", text[at:]) is not None


def run_texts(check, quick):
    """Texts that are spoiled by chance, as the root, and as layers of a scene."""
    chance, all_scenes, count = random.Random(check.seed), scenes(), 1000 if quick else 20000
    texts = [text for made in all_scenes for text in made.layers.values()]
    refused = []
    folders = {made.name: tempfile.mkdtemp() for made in all_scenes}
    for made in all_scenes:
        made.write(folders[made.name])
    for number in range(count):
        told_so_far(number, count, "texts")
        made = chance.choice(all_scenes[:3] + all_scenes[-1:] * 3 + [chance.choice(all_scenes)])
        layer, folder = chance.choice(sorted(made.layers)), folders[made.name]
        text = spoil(chance, made.layers[layer], chance.choice(texts))
        put(folder, layer, text)
        refused.append((text, judge_text(check, folder, layer, number % 2 == 0)))
        if layer != made.root and number % 4 == 0:
            ran = check.run(folder, ["flatten", made.root])
            if ran.status == 0:
                judge_flattened(check, folder, ran.out)
        put(folder, layer, made.layers[layer])
        if len(refused) == 400 or number + 1 == count:
            judge_ways(check, refused)
            refused = []
    for folder in folders.values():
        shutil.rmtree(folder)
    print(f"{check.left_out} of {check.texts} texts were not compared by the other ways, as a fetch failed", flush=True)


def judge_ways(check, refused):
    """The same texts as layers that are referenced, and as texts of new layers, many in one session: the same refusals."""
    with tempfile.TemporaryDirectory() as folder:
        root, script, due = [FIRST], [], []
        for i, (text, told) in enumerate(refused):
            put(folder, f"t{i}.usda", text)
            root.append(b'def "r%d" (references = @t%d.usda@</none__>) {}\n' % (i, i))
            place = b"" if told is None else b" %s %d:%d" % (told[2], told[0], told[1])
            script.append(b"faults /r%d\n" % i)
            due.append((b"faults", i, place))
            if first_refusal(text) is None or first_refusal(text)[2] != b"NotUtf8":
                said = "".join(chr(c) if chr(c).isalnum() and c < 128 or c == 32 else f"\\x{c:02x}" for c in text)
                script.append(f'begin\nnewlayer @n{i}.usda@ "{said}"\ncommit\n'.encode())
                due.append((b"newlayer", i, place))
        put(folder, "root.usda", b"".join(root))
        ran = check.run(folder, ["session", "root.usda"], b"".join(script))
        check.texts += len(refused)
        if ran.status == 3:
            check.left_out += len(refused)
            return
        replies = Replies(ran.out)
        replies.take(rb"published 0: batches 0, prims %d\n" % len(refused))
        for way, i, place in due:
            broken = rb"faults /r%d: 1\n  BrokenLayer @root.usda@</r%d> references @t%d.usda@</none__>%s\n" % (i, i, i, re.escape(place))
            good = rb"faults /r%d: \d+\n(?:  (?!BrokenLayer @root)[^\n]*\n(?:(?!faults|batch|  )[^\n]*\n)*)+" % i
            if way == b"newlayer":
                broken, good = rb"batch refused: op 1 LayerText%s\n" % re.escape(place), rb"batch \d+ accepted\n"
            if not replies.take(broken if place else good):
                check.found(f"text {i} by {way}: due is {place or 'accepted'}, told {ran.out[replies.at:replies.at + 120]}", folder, b"".join(script))
                return


def run_scripts(check, quick):
    """Scripts that are spoiled by chance, on good layers."""
    chance, all_scenes, count = random.Random(check.seed + 1), scenes(), 200 if quick else 2000
    scripts = [made.script for made in all_scenes]
    for number in range(count):
        told_so_far(number, count, "scripts")
        made = chance.choice(all_scenes[:3] + all_scenes[-1:] + [chance.choice(all_scenes)])
        script = spoil_script(chance, made.script, chance.choice(scripts))
        with tempfile.TemporaryDirectory() as folder:
            made.write(folder)
            judge_script(check, folder, made.root, script, number % 4 == 0)
            if number % 10 == 0:
                judge_pieces(check, folder, made.root, script, chance)


def judge_pieces(check, folder, root, script, chance):
    """A script that comes in pieces has the same replies."""
    whole = check.run(folder, ["session", root], script)
    lengths = iter(lambda: chance.choice((1, 2, 7, 40)), 0)
    ran = check.run(folder, ["session", root], script, lengths)
    if (ran.status, ran.out, ran.err) != (whole.status, whole.out, whole.err):
        check.found(f"a script in pieces: status {ran.status} {ran.err}, else {whole.status} {whole.err}", folder, script)


def run_scenes(check, quick):
    """Deep and wide scenes, each with a bound of time."""
    print(LARGE)
    for name, many, few, make, script, due, bound in SCENES:
        count = few if quick else many
        layers = make(count)
        with tempfile.TemporaryDirectory() as folder:
            measure.write(folder, layers)
            size = sum(len(text) for text in layers.values())
            took = check.measured(name, count, size, ["session", "root.usda"], folder, script(count), bound)
        prims, replies = due(count)
        if took.status != 0 or took.out != f"published 0: batches 0, prims {prims}\n{replies}".encode():
            check.found(f"{count} {name}: status {took.status}, {took.seconds:.1f} seconds, {took.out[:200]} {took.err[:100]}")


def run_long(check, quick):
    """Long tokens and long lists."""
    count = 100_000 if quick else 1_000_000
    print(LARGE)
    for name, make, due in LONG:
        text = make(count)
        with tempfile.TemporaryDirectory() as folder:
            measure.write(folder, {"root": text})
            took = check.measured(name, count, len(text), ["flatten", "root.usda"], folder, "", 12 * BOUND)
        due = due or f"5: {count + 2}:1: Syntax"
        status, _, said = due.partition(": ")
        if took.status != int(status) or took.err != (f"usdstage: root.usda:{said}\n" if said else ""):
            check.found(f"{count} {name}: status {took.status}, said {took.err[:100]}, due is {due}")


PARTS = {"words": run_words, "cut": run_cut, "texts": run_texts, "scripts": run_scripts, "scenes": run_scenes, "long": run_long}


def main():
    words = argparse.ArgumentParser(description="Runs the built program on hostile inputs.")
    words.add_argument("program", nargs="?", default=measure.PROGRAM)
    words.add_argument("--quick", action="store_true", help="a share of most parts")
    words.add_argument("--seed", type=int, default=1)
    words.add_argument("--only", nargs="+", choices=list(PARTS), default=list(PARTS))
    given = words.parse_args()
    check = Check(measure.program_of(given.program), given.seed)
    for part in given.only:
        start, runs = time.monotonic(), check.runs
        check.statuses, check.slowest = {}, 0.0
        PARTS[part](check, given.quick)
        ended = ", ".join(f"{count} with status {status}" for status, count in sorted(check.statuses.items(), key=str))
        print(f"{part}: {check.runs - runs} runs in {time.monotonic() - start:.0f} s, the slowest {check.slowest:.2f} s{'; ' + ended if ended else ''}", flush=True)
    print(f"hostile: {check.runs} runs with seed {check.seed}, {len(check.finds)} finds")
    sys.exit(1 if check.finds else 0)


if __name__ == "__main__":
    main()
