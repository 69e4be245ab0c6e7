#!/usr/bin/env python3
"""Runs the sessions of tests/tables/sessions.rows through the program, and compares all that it writes with what they want.

    python3 tests/sessions.py [PROGRAM]

The table is lines of bytes. What a line is shows at its front:

    session root.usda       a new session, by the words of its command
    layer a.usda            the name of a layer; its lines follow
    |#usda 1.0              a line of a layer
    !def "A" {}             a line without its line feed
    >children /A            a line of the script
    =children /A: ["B"]     a line that is written
"""
import os
import subprocess
import sys
import tempfile

from shared import PROGRAM, TOP

TABLE = os.path.join(TOP, "tests", "tables", "sessions.rows")


class Session:
    def __init__(self, line, words):
        self.line, self.words = line, words
        self.layers, self.script, self.wanted = {}, b"", b""
        self.layer = None

    def take(self, line):
        """Takes a line of the table; false where none is so."""
        mark, rest = line[:1], line[1:]
        if line.startswith(b"layer "):
            self.layer = line[6:].decode()
            self.layers[self.layer] = b""
        elif mark in (b"|", b"!") and self.layer is not None:
            self.layers[self.layer] += rest + (b"\n" if mark == b"|" else b"")
        elif mark == b">":
            self.script += rest + b"\n"
        elif mark == b"=":
            self.wanted += rest + b"\n"
        else:
            return False
        return True

    def differs(self):
        """Runs the session; what is different from what it wants, or nothing."""
        with tempfile.TemporaryDirectory() as folder:
            for name, text in self.layers.items():
                place = os.path.join(folder, name)
                os.makedirs(os.path.dirname(place), exist_ok=True)
                with open(place, "wb") as file:
                    file.write(text)
            got = subprocess.run([PROGRAM, *self.words], cwd=folder, input=self.script, capture_output=True, timeout=600)
        if got.returncode != 0 or got.stderr:
            return f"status {got.returncode}, {got.stderr!r}"
        pairs = zip(got.stdout.split(b"\n") + [b"the end"], self.wanted.split(b"\n") + [b"the end"])
        return next((f"{one!r} in the place of {other!r}" for one, other in pairs if one != other), "")


def sessions():
    """The sessions of the table."""
    found = []
    with open(TABLE, "rb") as file:
        for number, line in enumerate(file.read().split(b"\n")[:-1], 1):
            if line.startswith(b"session"):
                found.append(Session(number, line.decode().split(" ")))
            elif line and not line.startswith(b"#") and not (found and found[-1].take(line)):
                sys.exit(f"sessions: line {number} of {TABLE} is none of a table")
    return found


def main():
    failed = 0
    table = sessions()
    for session in table:
        told = session.differs()
        if told:
            failed += 1
            print(f"session of line {session.line}: {told}")
    replies = sum(session.wanted.count(b"\n") for session in table)
    print(f"sessions: {len(table) - failed} passed, {failed} failed, {replies} lines written")
    sys.exit(1 if failed or not table else 0)


if __name__ == "__main__":
    main()
