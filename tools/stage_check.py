#!/usr/bin/env python3
"""Opens a stage by the program, and tells every fault of every prim: a lost reference, a missing sublayer, a target that leads nowhere.

    python3 tools/stage_check.py ROOT [--session LAYER]

ROOT and LAYER are named from the current folder. Each fault is a line on standard output, `PRIM: FAULT`, with the faults of docs/COMPOSITION.md;
the sublayers of the stage are those of `/`. The exit status is 0 where there is none, 1 where there is one, and the program's where the stage
does not open: the program's line then stands on standard error. A status of 70 is that of this script: what it wrote to was closed.
"""
import os
import re
import subprocess
import sys

PROGRAM = os.path.join(os.path.dirname(os.path.dirname(os.path.abspath(__file__))), "usdstage")
SCRIPT_BYTES = 16_777_216  # of one session


class Unanswered(Exception):
    """The program ended with this status."""


class Stage:
    """A stage that answers questions, by as many sessions one after the other as the bytes of the questions take."""

    def __init__(self, words):
        self.words, self.program, self.room = words, None, 0

    def line(self):
        """The next line that the program writes."""
        line = self.program.stdout.readline()
        if not line.endswith("\n"):
            raise Unanswered(self.program.wait())
        return line[:-1]

    def begin(self):
        self.end()
        self.program = subprocess.Popen([PROGRAM, "session", *self.words], stdin=subprocess.PIPE, stdout=subprocess.PIPE, encoding="utf-8")
        self.room = SCRIPT_BYTES
        self.line()

    def end(self):
        if self.program:
            self.program.stdin.close()
            self.program.wait()

    def ask(self, question):
        """The answer to a question, on its line."""
        asked = len(question.encode()) + 1
        if asked > self.room:
            self.begin()
        self.room -= asked
        try:
            self.program.stdin.write(question + "\n")
            self.program.stdin.flush()
        except BrokenPipeError:
            raise Unanswered(self.program.wait()) from None
        return self.line().removeprefix(question + ": ")

    def children(self, prim):
        return re.findall('"([^"]*)"', self.ask("children " + prim))

    def faults(self, prim):
        return [self.line().strip() for _ in range(int(self.ask("faults " + prim)))]


def main():
    sys.stdout.reconfigure(encoding="utf-8")
    stage, found = Stage(sys.argv[1:]), False
    left = ["/"]
    try:
        while left:
            prim = left.pop()
            for fault in stage.faults(prim):
                print(f"{prim}: {fault}")
                found = True
            left += [prim.rstrip("/") + "/" + name for name in reversed(stage.children(prim))]
        stage.end()
        sys.stdout.flush()
    except Unanswered as ended:
        return ended.args[0]
    except BrokenPipeError:
        os.dup2(os.open(os.devnull, os.O_WRONLY), sys.stdout.fileno())  # nothing more is written at the end
        return 70
    return 1 if found else 0


if __name__ == "__main__":
    sys.exit(main())
