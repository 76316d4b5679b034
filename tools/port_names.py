#!/usr/bin/env python3
"""Brings the repository's own definitions and lemmas to the spelling of today's Rattle, after the kit's port.py.

usage: python3 tools/port_names.py        once, at the top

A word in camel case becomes one in snake case, as numberOf becomes number_of; types and modules keep their capitals.
Lists are read by get_or where they were read by getD, also in the names of lemmas. Two words would then have the name
of a lemma beside them: the lemma gets the dash back with which it was written.
Files of crates/ alone are turned: .rt and .antt files, and the lines of must-fail edits.
"""

import os
import re

CAMEL = re.compile(r"(?<![A-Za-z0-9_'\"\\])[a-z][a-z0-9]*(?:[A-Z][a-z0-9]*)+(?![A-Za-z0-9_])")
LISTS = [("List·getD-eq-default", "get_or-eq_default"), ("List·getD-append", "get_or-append"), ("List·getD-map", "get_or-map")]
# The words of which a lemma has the name, in the file or folder where both stand.
TAKEN = {
    "crates/compile_graph/proofs/Loop.antt": ["goes_on"],
    "crates/theorems/specs/Main.antt": ["goes_on"],
    "crates/theorems/specs/Extensions.antt": ["with_tail"],
    "crates/record_check/proofs/Fields.antt": ["head_at"],
}


def snake(word):
    if word.startswith("getD"):
        return "get_or" + snake(word[4:]) if word[4:] else "get_or"
    return re.sub(r"[A-Z]", lambda m: "_" + m.group(0).lower(), word)


def turned(path, text):
    for word in TAKEN.get(path.replace(os.sep, "/"), []):
        text = re.sub(r"(?<![\w-])" + word + r"(?![\w-])", word.replace("_", "-"), text)
    for old, new in LISTS:
        text = text.replace(old, new)
    return CAMEL.sub(lambda m: snake(m.group(0)), text)


def main():
    for folder, dirs, files in os.walk("crates"):
        dirs[:] = [d for d in dirs if d != "out"]
        for name in files:
            if name.endswith((".rt", ".antt", ".edit")):
                path = os.path.join(folder, name)
                with open(path, encoding="utf-8") as f:
                    text = f.read()
                new = turned(path, text)
                if new != text:
                    with open(path, "w", encoding="utf-8") as f:
                        f.write(new)


if __name__ == "__main__":
    main()
