#!/usr/bin/env python3
"""Says which wrong bodies no longer fit the code: of each edit of wrong_bodies/ and of the must-fail folders every `old:` text has to stand
in its file exactly once, after the pairs before it were made. The prover tries none of them here: see tools/wrong_bodies.py.

    python3 tests/edits.py
"""
import os
import re
import sys

TOP = os.path.dirname(os.path.dirname(os.path.abspath(__file__)))


def edits():
    """Each edit with the folder of the crate that it changes."""
    for name in sorted(os.listdir(os.path.join(TOP, "crates"))):
        crate = os.path.join(TOP, "crates", name)
        for folder in (os.path.join(crate, "must-fail"), os.path.join(TOP, "wrong_bodies", name)):
            if os.path.isdir(folder):
                yield from ((os.path.join(folder, edit), crate) for edit in sorted(os.listdir(folder)) if edit.endswith(".edit"))
    for name in sorted(os.listdir(os.path.join(TOP, "wrong_bodies"))):
        if not os.path.isdir(os.path.join(TOP, "crates", name)):
            yield os.path.join(TOP, "wrong_bodies", name), None


def misfit(edit, crate):
    """Why an edit does not fit; none where it does."""
    if crate is None:
        return "there is no crate of this name"
    texts, file, old = {}, None, None
    with open(edit, encoding="utf-8") as lines:
        for line in lines.read().split("\n"):
            word, _, text = line.partition(":")
            text = text[1:] if text.startswith(" ") else text
            if word == "file":
                file = os.path.join(crate, text.strip())
                if not os.path.isfile(file):
                    return f"there is no {text.strip()}"
                if file not in texts:
                    with open(file, encoding="utf-8") as source:
                        texts[file] = source.read()
            elif word == "old":
                old = text
            elif word == "new" and file is not None and old is not None:
                count = len(re.findall(re.escape(old), texts[file]))
                if count != 1:
                    return f"{count} times in its file: {old.strip()}"
                texts[file] = texts[file].replace(old, text)
                old = None
    return None if texts and old is None else "it has no whole pair of lines"


def main():
    every = list(edits())
    wrong = [(edit, why) for edit, why in ((edit, misfit(edit, crate)) for edit, crate in every) if why]
    for edit, why in wrong:
        print(f"{os.path.relpath(edit, TOP)}: {why}")
    print(f"{len(every) - len(wrong)} passed, {len(wrong)} failed")
    return 1 if wrong or not every else 0


if __name__ == "__main__":
    sys.exit(main())
