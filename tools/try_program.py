#!/usr/bin/env python3
"""Makes a trial of the program: its sources as `rt try` compiles them, with checks and without any proof. It takes about a minute.

    python3 tools/try_program.py               keeps the trial at crates/usdstage/out/trial; status 1 where it cannot be kept
    python3 tools/try_program.py run WORDS ..  runs `rt try` once with these words, standard input, and copies of the layers below this folder

`rt try` removes what it compiles, so the trial is linked while `rt try` runs it on a sample. Where a kit compiles in another way, nothing is
kept, and `run` is what is left: it sees the layers below the current folder alone, and writes at most 1 MiB.
"""
import os
import re
import shutil
import subprocess
import sys
import tempfile
import time

import scratch_repository as scratch

CRATE = os.path.join(scratch.TOP, "crates", "usdstage")
OUT = os.path.join(CRATE, "out")
TRIAL = os.path.join(OUT, "trial")
# the sample: a session whose script takes long enough for the trial to be met while it runs
PUBLISHES = 100
SCRIPT = PUBLISHES * "publish\n"
REPLIES = "".join(f"published {k}: batches 0, prims 1\n" for k in range(PUBLISHES + 1))
LAYER = '#usda 1.0\ndef "A" {}\n'
# what copies of layers may take, as a world of the program: names and bytes
FILES, BYTES = 4096, 268_435_456
NOT_RUN = 70


def command(data, words):
    """The command that tries the program with these files by name and these words, in the folder of its crate."""
    return ["rt", "try", *(part for name, file in data for part in ("--data", f"{name}={file}")), "--", *words]


def met(folder):
    """The program that a run of `rt try` below this folder has compiled, if it stands there."""
    for place, _, names in os.walk(folder):
        if "program" in names and os.access(os.path.join(place, "program"), os.X_OK):
            return os.path.join(place, "program")
    return None


def keep():
    """Compiles the sources, and keeps the trial where it answers the sample well."""
    if not shutil.which("rt"):
        return False
    os.makedirs(OUT, exist_ok=True)
    begun = time.time()
    with tempfile.TemporaryDirectory(prefix="trial-", dir=OUT) as folder:
        layer, script, kept = (os.path.join(folder, name) for name in ("layer", "script", "kept"))
        for name, text in ((layer, LAYER), (script, SCRIPT)):
            with open(name, "w", encoding="utf-8") as file:
                file.write(text)
        place = os.path.join(folder, "place")
        os.mkdir(place)
        with open(script, "rb") as given, open(os.path.join(folder, "replies"), "w+b") as out, open(os.path.join(OUT, "trial.log"), "wb") as log:
            tried = subprocess.Popen(command([("root.usda", layer)], ["session", "root.usda"]), cwd=CRATE, env={**os.environ, "TMPDIR": place},
                                     stdin=given, stdout=out, stderr=log)
            try:
                while tried.poll() is None:
                    time.sleep(0.01)
                    program = None if os.path.exists(kept) else met(place)
                    if program:
                        try:
                            os.link(program, kept)
                        except FileNotFoundError:
                            pass  # it was removed meanwhile
            finally:
                tried.terminate()
                tried.wait()
            out.seek(0)
            if tried.returncode != 0 or out.read().decode() != REPLIES or not os.path.exists(kept):
                return False
        # it is as old as the sources that were read, and whoever runs it meanwhile finds it whole
        os.utime(kept, (begun, begun))
        os.replace(kept, TRIAL)
    return True


def layers_below(words):
    """The layers below the current folder, and the files that are named by the words, by their names; nothing where there are too many."""
    found, count = [], 0
    for place, folders, names in os.walk("."):
        folders.sort()
        for name in sorted(names):
            path = os.path.normpath(os.path.join(place, name))
            is_layer = name.endswith((".usda", ".usd")) or path in map(os.path.normpath, words)
            if is_layer and os.path.isfile(path) and "=" not in path:
                count += os.path.getsize(path)
                found.append((path, os.path.abspath(path)))
                if len(found) > FILES or count > BYTES:
                    return None
    return found


def run(words):
    """One run of `rt try`: what the program writes and says, and its exit status."""
    data = layers_below(words)
    if not shutil.which("rt"):
        print("usdstage: there is no command `rt`, which the Rattle kit has", file=sys.stderr)
        return NOT_RUN
    if data is None:
        print("usdstage: too many layers stand below this folder for a trial", file=sys.stderr)
        return NOT_RUN
    tried = subprocess.run(command(data, words), cwd=CRATE, stdout=subprocess.PIPE, stderr=subprocess.PIPE)
    ended = re.search(rb"^(?:checked|interpreter): .*\n(?:.*\n)*?run=ended status=(\d+) .*\n\Z", tried.stderr, re.M)
    if not ended:
        sys.stderr.buffer.write(tried.stderr)
        return NOT_RUN
    sys.stdout.buffer.write(tried.stdout)
    sys.stderr.buffer.write(tried.stderr[:ended.start()])
    return int(ended[1])


if __name__ == "__main__":
    sys.exit(run(sys.argv[2:]) if sys.argv[1:2] == ["run"] else 0 if keep() else 1)
