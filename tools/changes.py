#!/usr/bin/env python3
"""Prints, as Markdown, the public functions, types and definitions that differ between a commit and the work tree, old and new.

usage: changes.py COMMIT [NOTES]     NOTES: a file of lines 'CRATE NAME: what states its promise now', for what is gone
"""
import glob
import re
import subprocess
import sys

COMMIT = sys.argv[1]
NOTES = {}
if len(sys.argv) > 2:
    for l in open(sys.argv[2]):
        if ":" in l:
            k, v = l.split(":", 1)
            NOTES[tuple(k.split())] = v.strip()


def old_files(pattern):
    names = subprocess.check_output(["git", "ls-tree", "-r", "--name-only", COMMIT, "crates"], text=True).split("\n")
    for n in names:
        if re.match(pattern, n):
            yield n, subprocess.check_output(["git", "show", COMMIT + ":" + n], text=True)


def new_files(pattern):
    for n in sorted(glob.glob("crates/**/*", recursive=True)):
        if re.match(pattern, n) and "/out/" not in n:
            yield n, open(n).read()


def functions(files):
    """(crate, name) to (place, text of signature and clauses) of each public function, and of each public type"""
    out = {}
    for n, t in files:
        crate = n.split("/")[1]
        t = re.sub(r"(?m)^[ \t]*(//|ghost use |#\[).*\n", "", t)
        owner, depth_owner = "", 0
        for m in re.finditer(r"(?m)^( *)(pub (?:const )?fn (\w+)|impl(?:<[^>]*>)? (?:\w+ for )?(\w+)|pub (struct|enum) (\w+))", t):
            if m.group(4):
                owner = m.group(4)
                continue
            i = m.start()
            if m.group(6):
                end = re.compile(r"\n\}|;\n").search(t, i)
                out[(crate, m.group(6))] = (n, t[i : end.end()].strip())
                continue
            if not m.group(1):
                owner = ""
            j = t.index("(", i)
            depth, j = 1, j + 1
            while depth:
                depth += {"(": 1, ")": -1}.get(t[j], 0)
                j += 1
            while True:
                k, square = j, 0
                while t[k] not in "{;" or square:
                    square += {"[": 1, "]": -1}.get(t[k], 0)
                    k += 1
                if not re.search(r"(requires|ensures|ghost)\*?\s*\w*\s*$", t[j:k]):
                    break
                depth, k = 1, k + 1
                while depth:
                    depth += {"{": 1, "}": -1}.get(t[k], 0)
                    k += 1
                j = k
            text = t[i:k].rstrip()
            text = "\n".join(l[len(m.group(1)) :] if l.startswith(m.group(1)) else l for l in text.split("\n"))
            name = (owner + "::" if owner and m.group(1) else "") + m.group(3)
            out[(crate, name)] = (n, text)
    return out


def definitions(files):
    out = {}
    for n, t in files:
        crate = n.split("/")[1]
        for block in re.split(r"\n\s*\n", t):
            lines = [l for l in block.split("\n") if not l.strip().startswith("--")]
            body = "\n".join(lines).strip()
            m = re.match(r"(?:abbrev |unfoldable )?pub (?:abbrev |unfoldable )?(?:record |data )?([^\s:(]+)", body)
            if m and not body.startswith(("pub mod", "pub use")):
                out[(crate, m.group(1))] = (n, body)
    return out


def plain(s):
    return re.sub(r"\s+", " ", s)


def report(title, old, new, lang):
    print("\n### " + title + "\n")
    short = {}
    for k in new:
        short.setdefault((k[0], k[1].split("::")[-1]), k)
    used = set()
    for k in sorted(old):
        n = k if k in new else short.get((k[0], k[1].split("::")[-1]))
        if n:
            used.add(n)
            if plain(old[k][1]) == plain(new[n][1]):
                continue
            print("`%s`: `%s`%s\n" % (k[0], k[1], "" if n == k else ", now `%s`" % n[1]))
            print("```%s\n%s\n```\n```%s\n%s\n```\n" % (lang, old[k][1], lang, new[n][1]))
        else:
            print("`%s`: `%s` is gone. %s\n" % (k[0], k[1], NOTES.get(k, NOTES.get((k[0], "*"), ""))))
            print("```%s\n%s\n```\n" % (lang, old[k][1]))
    for k in sorted(new):
        if k not in used and k not in old:
            print("`%s`: `%s` is new.\n" % k)
            print("```%s\n%s\n```\n" % (lang, new[k][1]))


RT = r"crates/[^/]+/src/.*\.rt$"
SPECS = r"crates/[^/]+/specs/.*\.antt$"
report("Public functions and types", functions(old_files(RT)), functions(new_files(RT)), "rust")
report("Definitions and theorems of specs/", definitions(old_files(SPECS)), definitions(new_files(SPECS)), "text")
