#!/usr/bin/env python3
"""Counts the places of the eight points of docs/DESIGN-PASS.md in crates/*/src and crates/*/proofs.

usage: places.py [-l POINT]      in the top folder of a checkout; -l lists the places of one point, as 1, 2, 3, 4, 5, 6, 7 or 8
"""
import difflib
import glob
import re
import sys

FILES = sorted(glob.glob("crates/*/src/**/*.rt", recursive=True))
TEXT = {f: open(f).read() for f in FILES}
CODE = {f: re.sub(r"(?m)^[ \t]*(//|ghost use ).*$", "", t) for f, t in TEXT.items()}


def line(f, at):
    return CODE[f].count("\n", 0, at) + 1


def functions():
    """(file, line, name, parameters, clauses, body) of each function with a body"""
    out = []
    for f, t in CODE.items():
        for m in re.finditer(r"\bfn (\w+)(?:<[^>]*>)?\(", t):
            depth, i = 1, m.end()
            while depth and i < len(t):
                depth += {"(": 1, ")": -1}.get(t[i], 0)
                i += 1
            params = t[m.end() : i - 1]
            clauses = []
            j = i
            while True:
                while j < len(t) and t[j] not in "{;":
                    j += 1
                if j >= len(t) or t[j] == ";":
                    break
                word = re.search(r"(requires|ensures|ghost)\*?\s*[\w]*\s*$", t[i:j])
                depth, k = 1, j + 1
                while depth and k < len(t):
                    depth += {"{": 1, "}": -1}.get(t[k], 0)
                    k += 1
                if not word:
                    out.append((f, line(f, m.start()), m.group(1), params, clauses, t[j:k]))
                    break
                clauses.append(re.sub(r"\s+", " ", t[j + 1 : k - 1]).strip())
                i = j = k
    return out


FUNCTIONS = functions()


def point1():
    found = []
    for f, t in CODE.items():
        for m in re.finditer(r"enum (\w+)(?:<[^>]*>)? \{(.*?)\n\}", t, re.S):
            variants = re.findall(r"(?m)^    (\w+)([^\n]*)", m.group(2))
            variants = [v for v in variants if v[0][0].isupper()]
            carries = [v for v in variants if "(" in v[1] or "{" in v[1]]
            if len(variants) <= 3 and carries and not m.group(1).endswith("Error"):
                found.append((f, line(f, m.start()), "enum " + m.group(1)))
        for m in re.finditer(r"struct (\w+)(?:<[^>]*>)? \{(.*?)\n\}", t, re.S):
            fields = [x for x in m.group(2).split("\n") if ":" in x]
            if len(fields) > 1 and re.search(r"(few|crowded|brings|good|found|read): bool,|: Verdict,", m.group(2)):
                found.append((f, line(f, m.start()), "flag in struct " + m.group(1)))
    for f, t in TEXT.items():
        lines = t.split("\n")
        for i, s in enumerate(lines):
            if re.match(r"\s*//", s) and re.search(
                r"\b\d+ (for none|where there is none|where it has none)|, or (0|k|255|128|16|2048)\.|or the (length|count) where", s
            ):
                found.append((f, i + 1, "number: " + s.strip()))
    return found


def tokens(body):
    body = re.sub(r"\b\d[\d_]*(u8|u16|u32|u64|usize)?\b", "0", body)
    body = re.sub(r"\b(u8|u16|u32|u64|usize)\b", "T", body)
    return re.findall(r"\w+|[^\w\s]", body)


def point2():
    found = []
    items = [(f, n, name, tokens(body)) for f, n, name, p, c, body in FUNCTIONS]
    items = [x for x in items if len(x[3]) >= 20 and not x[0].startswith(("crates/sbc/", "crates/sbc_c/"))]
    for i, a in enumerate(items):
        for b in items[i + 1 :]:
            if abs(len(a[3]) - len(b[3])) > 8:
                continue
            s = difflib.SequenceMatcher(None, a[3], b[3], autojunk=False)
            if s.real_quick_ratio() > 0.9 and s.quick_ratio() > 0.9 and s.ratio() > 0.9:
                found.append((a[0], a[1], "%s and %s (%s:%d)" % (a[2], b[2], b[0], b[1])))
    return found


def point3():
    found = []
    for f, t in CODE.items():
        for i, s in enumerate(t.split("\n")):
            if re.match(r"\s*(while|loop)\b", s) and "while let" not in s:
                found.append((f, i + 1, s.strip()))
    return found


def point4():
    found = []
    names = r"fn (least|less|smaller|larger|between|same\w*|is_same\w*|less_one|wide|index|copy|is_width|hold)\("
    for f, t in CODE.items():
        for m in re.finditer(names, t):
            found.append((f, line(f, m.start()), m.group(0)[:-1]))
        for m in re.finditer(r"if [^\n]* \{\n\s*return (false|true);\n\s*\}\n\s*([^\n]*[^;{]|return (false|true);)\n\s*\}", t):
            found.append((f, line(f, m.start()), "a test by return: " + m.group(0).split("\n")[0].strip()))
    return found


def point5():
    found = []
    for f, n, name, params, clauses, body in FUNCTIONS:
        count = len([p for p in params.split(",") if ":" in p])
        if count >= 8:
            found.append((f, n, "%s has %d parameters" % (name, count)))
    seen = {}
    for f, n, name, params, clauses, body in FUNCTIONS:
        for c in clauses:
            for fact in c.split(" × "):
                fact = fact.strip("() ")
                if len(fact) > 24:
                    seen.setdefault(fact, set()).add((f, n, name))
    for fact, where in sorted(seen.items()):
        if len(where) >= 3 and not any("sbc" in w[0] for w in where):
            w = sorted(where)
            found.append((w[0][0], w[0][1], "%d contracts: %s" % (len(where), fact)))
    return found


def point6():
    found = []
    for f, n, name, params, clauses, body in FUNCTIONS:
        p = re.sub(r"\s+", " ", params)
        if re.search(r"low: &(mut )?\[u64\], high: &|start: &(mut )?\[u16; 257\], first|head: &(mut )?\[u16; 256\], link", p):
            found.append((f, n, "parallel arrays in " + name))
        elif re.search(r"out: &mut \[u8\], at: usize", p):
            found.append((f, n, "a buffer and a place in " + name))
    for f, t in CODE.items():
        for m in re.finditer(r"struct (\w+)(?:<[^>]*>)? \{(.*?)\n\}", t, re.S):
            sizes = re.findall(r": \[\w+; (\d+)\]", m.group(2))
            if len(sizes) > len(set(sizes)):
                found.append((f, line(f, m.start()), "parallel arrays in struct " + m.group(1)))
            elif sizes and re.search(r"(count|len|states|size): usize", m.group(2)):
                found.append((f, line(f, m.start()), "a buffer and its length in struct " + m.group(1)))
    return found


def point7():
    found = []
    for f, n, name, params, clauses, body in FUNCTIONS:
        if re.search(r": bool\b", params) and re.search(r"\bif \w+ \{", body) and re.search(r"\w+\(", body):
            found.append((f, n, "%s takes a flag" % name))
        for m in re.finditer(r"match \w+ \{((?:\n\s+\w+::\w+(?:\([^\n]*\))? => \w+(::\w+)*\([^\n]*\),)+)", body):
            if len(re.findall("=>", m.group(1))) >= 3:
                found.append((f, n, "%s matches to choose a call" % name))
    return found


def point8():
    found = []
    for f in sorted(glob.glob("crates/*/proofs/**/*.antt", recursive=True)):
        t = open(f).read()
        for m in re.finditer(r"(?m)^pub ([\w-]+) : goal\.", t):
            found.append((f, t.count("\n", 0, m.start()) + 1, m.group(1)))
    return found


POINTS = {"1": point1, "2": point2, "3": point3, "4": point4, "5": point5, "6": point6, "7": point7, "8": point8}

if __name__ == "__main__":
    if sys.argv[1:2] == ["-l"]:
        for f, n, what in POINTS[sys.argv[2]]():
            print("%s:%d: %s" % (f, n, what))
    else:
        for k, p in POINTS.items():
            print(k, len(p()))
