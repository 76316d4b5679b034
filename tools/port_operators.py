#!/usr/bin/env python3
"""Imports each operator of the library from the library, as `rt ci` wants it.

usage: python3 tools/port_operators.py CRATE ..        at the top

An operator that a crate of this repository passed on, as laws.proofs.All did, is imported from Rattle.std.specs.Prelude
in code and specs/, and from Rattle.std.proofs.Common in proofs/.
"""

import os
import re
import sys

NAMES = "if◌then◌else◌ ◌%◌ ◌&&◌ ◌*◌ ◌++◌ ◌+◌ ◌-◌ ◌/◌ ◌<◌ ◌==◌ ◌^◌ ◌||◌ ◌↔◌ ◌∷◌ ◌≡◌ ◌≢◌ ◌≤◌ ◌⊎◌".split()
USE = re.compile(r"(?m)^((?:pub )?(?:ghost )?use )(\S+?)\.\{([^{}]*)\}(;?)\n")


def turned(text, home):
    moved = []

    def line(m):
        head, path, names, end = m.groups()
        if not path.startswith("Rattle.") or path.startswith("Rattle.std.") or path.startswith("Rattle.core."):
            return m.group(0)
        items = [n.strip() for n in names.split(",") if n.strip()]
        out = [n for n in items if n in NAMES]
        if not out:
            return m.group(0)
        if not head.startswith("pub"):
            moved.extend(n for n in out if n not in moved)
        keep = [n for n in items if n not in NAMES]
        return f"{head}{path}.{{{', '.join(keep)}}}{end}\n" if keep else ""

    text = USE.sub(line, text)
    if not moved:
        return text
    at = re.search(r"(?m)^((?:ghost )?use " + re.escape(home) + r"\.\{)([^{}]*)(\}.*)$", text)
    if at:
        have = [n.strip() for n in at.group(2).split(",")]
        new = at.group(1) + ", ".join([n for n in moved if n not in have] + have) + at.group(3)
        return text[: at.start()] + new + text[at.end() :]
    first = re.search(r"(?m)^(ghost )?use ", text)
    ghost, end = ("ghost ", ";") if first and first.group(1) else ("", "")
    return text[: first.start()] + f"{ghost}use {home}.{{{', '.join(moved)}}}{end}\n" + text[first.start() :]


def main(names):
    for name in names:
        for folder, dirs, files in os.walk(os.path.join("crates", name)):
            dirs[:] = [d for d in dirs if d != "out"]
            for file in files:
                if file.endswith((".rt", ".antt")):
                    path = os.path.join(folder, file)
                    with open(path, encoding="utf-8") as f:
                        text = f.read()
                    in_proofs = "/proofs/" in path.replace(os.sep, "/")
                    new = turned(text, "Rattle.std.proofs.Common" if in_proofs else "Rattle.std.specs.Prelude")
                    if new != text:
                        with open(path, "w", encoding="utf-8") as f:
                            f.write(new)


if __name__ == "__main__":
    main(sys.argv[1:])
