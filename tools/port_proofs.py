#!/usr/bin/env python3
"""Turns the Proof.antt of each function of a crate to Invariants.antt and Answers.antt, where the names of its goals
and steps are known.

usage: python3 tools/port_proofs.py NAMES.json CRATE_FOLDER [FUNCTION_FOLDER ..]

NAMES.json is what `rt check --generated DIR --old-names` leaves. What cannot be turned is said. The old files go to
the folder that OLD_PROOFS names, for a look by hand.
"""

import json
import os
import re
import shutil
import sys

TOK = re.compile(r"\s+|--[^\n]*|\"(?:[^\"\\]|\\.)*\"|[(){}\[\],;]|[^\s(){}\[\],;\"]+")


def norm(s):
    return re.sub(r"[-_]", "", s)


class Bad(Exception):
    pass


def tokens(text):
    out, i = [], 0
    while i < len(text):
        m = TOK.match(text, i)
        if not m:
            raise Bad("token at " + text[i:i + 20])
        out.append(m.group(0))
        i = m.end()
    return out


OPEN, CLOSE = {"(": ")", "{": "}", "[": "]"}, {")", "}", "]"}


def close_at(ts, i):
    depth = 0
    for j in range(i, len(ts)):
        if ts[j] in OPEN:
            depth += 1
        elif ts[j] in CLOSE:
            depth -= 1
            if depth == 0:
                return j
    raise Bad("no close")


def blank(t):
    return t.isspace() or t.startswith("--")


def parameters(folder, path):
    """The names of a function's parameters, from its source."""
    parts = path.split("/")
    for base in ["src/" + "/".join(parts[:-1]) + ".rt"] if parts[:-1] else ["src/lib.rt", "src/main.rt"]:
        file = os.path.join(folder, base)
        if os.path.exists(file):
            with open(file, encoding="utf-8") as f:
                m = re.search(r"(?s)fn " + re.escape(parts[-1]) + r"\b[^(]*\((.*?)\)\s*(?:->|\n|\{)", f.read())
            if m:
                return re.findall(r"(?:^|,)\s*(?:mut )?(\w+)\s*:", m.group(1))
    return []


class Function:
    def __init__(self, names, params):
        self.n, self.params = names, params
        self.parent, self.step, self.newstep, self.index, self.newplace = {}, {}, {}, {}, {}
        for k, (p, par, st, call, _x) in enumerate(names["places"]):
            key = norm(p)
            self.parent[key] = norm(par) if par else None
            self.step[key], self.newstep[key] = st[0], st[1]
            self.index[key] = k
            self.newplace[key] = names["places_by_name"][k]
        self.said = []
        self.uses = set()
        self.at = set()
        self.macros, self.convs, self.helpers, self.bodies = {}, {}, {}, {}
        self.loops = {norm(a[0]): (a[1], v) for a, v in names["loops"]}
        self.changed = {norm(l[0][0]): c for l, c in zip(names["loops"], names["changed"])}

    def say(self, s):
        self.said.append(s)

    # names of goals
    def goal(self, old):
        o = norm(old)
        ns = self.n["needs"]
        for k, (a, b) in enumerate(ns):
            if norm(a) == o:
                return k
        for k, (a, b) in enumerate(ns):
            if norm(b) == o:
                return k
        for pre in ("overflow", "nonzero", "bounds", "slicebounds"):
            if o.startswith(pre):
                for k, (a, b) in enumerate(ns):
                    if norm(a) == o[len(pre):]:
                        return k
        return None

    def place_of_type(self, t):
        key = norm(t)
        if key in self.index:
            return key
        return None

    def clause_fields(self, place):
        c = self.n["clauses"][self.index[place]]
        return c["fields"] if c else []

    def up(self, place, name):
        """The nearest place at or above with a step of this name."""
        p = place
        while p:
            if self.step[p] and norm(self.step[p]) == norm(name):
                return p
            p = self.parent[p]
        # a place whose parents are not on the way
        for q, s in self.step.items():
            if s and norm(s) == norm(name):
                return q
        return None

    # paths
    def tuple_of(self, base, fs):
        return "(" + ", ".join(base + "." + f for f in fs) + ")"

    def ensures(self, base, fields, rest):
        """base.ensures with the old path rest."""
        b = base
        if not fields or fields == [None]:
            return b + "".join("." + r for r in rest), None
        if len(fields) == 1:
            return b + "." + fields[0] + "".join("." + r for r in rest), None
        if not rest:
            return self.tuple_of(b, fields), None
        left = list(fields)
        rest = list(rest)
        while rest:
            r = rest.pop(0)
            if r == "0":
                return b + "." + left[0] + "".join("." + x for x in rest), None
            if r == "1":
                left = left[1:]
                if len(left) == 1:
                    return b + "." + left[0] + "".join("." + x for x in rest), None
                continue
            return b + "." + r + "".join("." + x for x in rest), None
        return self.tuple_of(b, left), None

    def arguments(self, fields):
        """An argument that had a number, as t1, has its own name today."""
        m = re.match(r"t(\d+)$", fields[0]) if fields else None
        if m and int(m.group(1)) <= len(self.params) and fields[0] not in self.params:
            return [self.params[int(m.group(1)) - 1]] + fields[1:]
        return fields

    def requires(self, root, rest):
        pre = self.n.get("pre")
        b = root + ".requires"
        fields = pre if isinstance(pre, list) else (pre or {}).get("fields") if isinstance(pre, dict) else None
        if not fields:
            return b + "".join("." + r for r in rest)
        return self.ensures(b, fields, rest)[0]

    def in_step(self, root, place, rest, goalplace):
        """The text of root.STEP.rest, where STEP is that of the place, and its kind."""
        arm = self.n["arms"][self.index[place]]
        old, new = self.step[place], self.newstep[place]
        # the field of an arm, at this place or a place below it on the way
        ways = []
        for k, a in enumerate(self.n["arms"]):
            if a:
                for f, s, path in a[2]:
                    if norm(s) == norm(old) and rest[:len(path)] == path and path:
                        ways.append((len(path), a[0], f))
        if ways:
            ways.sort(reverse=True)
            n, armname, f = ways[0]
            return root + "." + armname + "." + f + "".join("." + r for r in rest[n:]), None
        if rest and rest[0] == "given" and goalplace and self.n["typed"][self.index[goalplace]]:
            for var, st in self.n["typed"][self.index[goalplace]]:
                if norm(st) == norm(old):
                    return root + ".type_inv." + var + "".join("." + r for r in rest[1:]), None
        if old == "match" and rest and rest[0].startswith("keys"):
            return root + "." + new + "." + new + "-own." + ".".join(rest), None
        b = root + "." + new
        if rest and rest[0] in ("ensures", "told"):
            t, k = self.ensures(b + ".ensures", self.clause_fields(place), rest[1:])
            if len(rest) == 1 and len(self.clause_fields(place)) > 1:
                return t, ("ensures", b + ".ensures", self.clause_fields(place))
            return t, k
        if rest and rest[0] == "new" and len(rest) > 1 and rest[1] in ("0", "1"):
            params = self.n["params"].get(self.n["places"][self.index[place]][3], [])
            k = 1
            while k < len(rest) and rest[k] == "1":
                k += 1
            if k - 1 < len(params) and k < len(rest) and rest[k] == "0":
                return b + ".new." + params[k - 1] + "".join("." + r for r in rest[k + 1:]), None
        if rest:
            r0 = rest[0]
            if r0 == "inv":
                rest = ["invariant"] + rest[1:]
            elif r0 == "taken":
                rest = ["true"] + rest[1:]
            elif r0 == "not-taken":
                rest = ["false"] + rest[1:]
            if new.startswith("if-not-") and rest in (["true"], ["false"]):
                return "(ap not " + b + "." + rest[0] + ")", None
            return b + "".join("." + r for r in rest), None
        return b, ("step", root, place)

    def path(self, value, fields, goalplace):
        """value is a kind with its data; returns text and kind."""
        kind = value[0]
        if kind == "place":
            root, place = value[1], value[2]
            fields = list(fields)
            while fields and fields[0] == "before":
                place = self.parent[place] or place
                fields.pop(0)
            if not fields:
                return None, ("place", root, place)
            f = fields.pop(0)
            if f in ("args", "ranges", "well_formed", "well-formed"):
                if f == "args" and not fields:
                    return root + ".args", ("args", root)
                fields = self.arguments(fields) if f == "args" else fields
                return root + "." + f.replace("-", "_") + "".join("." + x for x in fields), None
            if f in ("requires", "pre"):
                return self.requires(root, fields), None
            q = self.up(place, f) or (self.up(place, f[:-4]) if f.endswith("_lem") else None)
            if q is None:
                self.say("no step " + f)
                return root + "." + f + "".join("." + x for x in fields), None
            return self.in_step(root, q, fields, goalplace)
        if kind == "args":
            return value[1] + ".args" + "".join("." + x for x in self.arguments(list(fields))), None
        if kind == "step":
            return self.in_step(value[1], value[2], list(fields), goalplace)
        if kind == "ensures":
            return self.ensures(value[1], value[2], list(fields))
        raise Bad("kind")


class Walk:
    """Turns the text of one answer or lemma."""

    def __init__(self, fn, root, place, goal):
        self.fn, self.root, self.place, self.goal = fn, root, place, goal

    def bare(self, value, want=None):
        """The text of a place as a value; want is the place that a lemma takes."""
        _k, root, place = value
        p = want or place
        if p == self.place:
            return root
        if self.goal is not None and root == self.root:
            self.fn.uses.add(self.fn.newplace[p])
            self.fn.at.add(self.goal)
            return f"(goal.at.{self.goal} {root}).{self.fn.newplace[p]}"
        self.fn.say(f"cross {self.place} -> {p}")
        return f"(CROSS {root} {self.fn.newplace[p]})"

    def atom(self, ts, i, env):
        """The value of the atom at i if it is a place, and where it ends."""
        j = i
        while j < len(ts) and blank(ts[j]):
            j += 1
        if j >= len(ts):
            return None, i
        if ts[j] == "(":
            k = close_at(ts, j)
            v = self.placed(ts[j + 1:k], env)
            k += 1
            fields = []
            if v and k < len(ts) and ts[k].startswith("."):
                fields = ts[k].split(".")[1:]
                k += 1
            if v is None:
                return None, i
            if fields:
                _t, kd = self.fn.path(v, fields, self.place)
                if kd and kd[0] == "place":
                    return kd, k
                return None, i
            return v, k
        t = ts[j].split(".")
        if t[0] in env:
            if env[t[0]][0] != "place":
                return None, i
            try:
                _x, kd = self.fn.path(env[t[0]], t[1:], self.place)
            except Bad:
                return None, i
            if kd and kd[0] == "place":
                return kd, j + 1
        return None, i

    def placed(self, ts, env):
        """The place that the tokens are, or None."""
        ws = [k for k, t in enumerate(ts) if not blank(t)]
        if not ws:
            return None
        first = ts[ws[0]]
        if first in self.fn.convs:
            v, k = self.atom(ts, ws[0] + 1, env)
            if v and all(blank(t) for t in ts[k:]):
                return ("place", v[1], self.fn.convs[first][1])
            return None
        v, k = self.atom(ts, ws[0], env)
        if v and all(blank(t) for t in ts[k:]):
            return v
        return None

    def run(self, ts, env):
        out, i, start = [], 0, dict(env)
        env = dict(env)
        while i < len(ts):
            t = ts[i]
            if blank(t) or t.startswith('"'):
                out.append(t)
                i += 1
            elif t in (",", ";"):
                env = dict(start)
                out.append(t)
                i += 1
            elif t == "let":
                i = self.let(ts, i, env, out)
            elif t.startswith("λ"):
                out.append(t)
                i += 1
                while i < len(ts) and not ts[i].endswith("."):
                    if ts[i] in OPEN:
                        k = close_at(ts, i)
                        inner = ts[i + 1:k]
                        name = [x for x in inner if not blank(x)][:1]
                        for x in name:
                            env.pop(x, None)
                        out.append(ts[i] + self.run(inner, env) + ts[k])
                        i = k + 1
                        continue
                    env.pop(ts[i], None)
                    out.append(ts[i])
                    i += 1
                if i < len(ts):
                    env.pop(ts[i][:-1], None)
                    out.append(ts[i])
                    i += 1
            elif t in OPEN:
                k = close_at(ts, i)
                v = self.placed(ts[i + 1:k], env) if t == "(" else None
                if v is not None:
                    fields = []
                    if k + 1 < len(ts) and ts[k + 1].startswith("."):
                        fields = ts[k + 1].split(".")[1:]
                    text, kd = self.fn.path(v, fields, self.place)
                    out.append(self.bare(kd) if kd and kd[0] == "place" else text)
                    i = k + 1 + (1 if fields else 0)
                    continue
                inner = self.run(ts[i + 1:k], env)
                its = tokens(inner.strip())
                if t == "(" and its and its[0] == "(" and close_at(its, 0) == len(its) - 1:
                    out.append(inner.strip())
                else:
                    out.append(t + inner + ts[k])
                i = k + 1
            elif t in ("not-false", "not-true") and self.tested(ts, i, env) is not None:
                text, i = self.tested(ts, i, env)
                out.append(text)
            elif t in self.fn.macros and t not in env:
                i = self.macro(ts, i, env, out)
            elif t in self.fn.helpers and t not in env:
                want = self.fn.helpers[t]
                v, k = self.atom(ts, i + 1, env)
                if v and v[1] == self.root and self.goal is None and want != self.place and t in self.fn.bodies:
                    param, body = self.fn.bodies[t]
                    out.append("(" + self.run(tokens(body), {param: ("place", v[1], want)}).strip() + ")")
                    i = k
                    continue
                out.append(t)
                i += 1
                if v:
                    out.append(" " + self.bare(v, want))
                    i = k
            elif t in self.fn.convs:
                v, k = self.atom(ts, i + 1, env)
                if v is None:
                    self.fn.say("conv " + t)
                    out.append(t)
                    i += 1
                else:
                    out.append(self.bare(("place", v[1], self.fn.convs[t][1])))
                    i = k
            else:
                out.append(self.word(t, env))
                i += 1
        return "".join(out)

    def tested(self, ts, i, env):
        """not-false _ X, where X is what a test of !x says: today that says it of x."""
        ws = [k for k in range(i + 1, len(ts)) if not blank(ts[k])][:2]
        if len(ws) < 2 or ts[ws[0]] != "_":
            return None
        if ts[ws[1]] in OPEN:
            k = close_at(ts, ws[1])
            text = self.run(ts[ws[1]:k + 1], env)
            k += 1
            if k < len(ts) and ts[k].startswith("."):
                return None
            return text, k
        text = self.word(ts[ws[1]], env)
        m = re.match(r"\(ap not (.*)\)$", text)
        if m:
            return m.group(1), ws[1] + 1
        if re.search(r"\.(true|false)$", text):
            return text, ws[1] + 1
        return None

    def word(self, t, env):
        parts = t.split(".")
        if parts[0] in env:
            text, kd = self.fn.path(env[parts[0]], parts[1:], self.place)
            if kd and kd[0] == "place":
                return self.bare(kd)
            if env[parts[0]][0] == "args":
                return parts[0] + text[len(env[parts[0]][1] + ".args"):]
            if env[parts[0]][0] != "place" and not parts[1:]:
                return parts[0] if env[parts[0]][0] == "step" else self.fn.tuple_of(parts[0], env[parts[0]][2])
            if env[parts[0]][0] in ("step", "ensures") and len(env[parts[0]]) > 3:
                pass
            if env[parts[0]][0] == "step" and text.startswith(env[parts[0]][1] + "." + self.fn.newstep[env[parts[0]][2]]):
                pre = env[parts[0]][1] + "." + self.fn.newstep[env[parts[0]][2]]
                return parts[0] + text[len(pre):]
            if env[parts[0]][0] == "ensures" and text.startswith(env[parts[0]][1]):
                return parts[0] + text[len(env[parts[0]][1]):]
            return text
        return t

    def macro(self, ts, i, env, out):
        name = ts[i]
        place, param, body = self.fn.macros[name]
        if param is None:
            v, k = ("place", self.root, self.place), i + 1
            if name in self.fn.outer:
                w, k2 = self.atom(ts, i + 1, env)
                if w:
                    v, k = w, k2
        else:
            v, k = self.atom(ts, i + 1, env)
        if v is None:
            self.fn.say("macro " + name)
            out.append(name)
            return i + 1
        par = param or self.fn.outer.get(name)
        sub = Walk(self.fn, self.root, self.place, self.goal)
        out.append("(" + sub.run(tokens(body), {par: ("place", v[1], place)}) + ")")
        return k

    def let(self, ts, i, env, out):
        """let PATTERN (: TYPE)? = EXPR in"""
        j, depth, eq, colon = i + 1, 0, None, None
        while j < len(ts):
            if ts[j] in OPEN:
                j = close_at(ts, j)
            elif ts[j] == ":" and colon is None:
                colon = j
            elif ts[j] == "=":
                eq = j
                break
            j += 1
        if eq is None:
            raise Bad("let")
        nest, k = 0, eq + 1
        while k < len(ts):
            if ts[k] in OPEN:
                k = close_at(ts, k)
            elif ts[k] == "let":
                nest += 1
            elif ts[k] == "in":
                if nest == 0:
                    break
                nest -= 1
            k += 1
        pattern = ts[i + 1:(colon or eq)]
        expr = ts[eq + 1:k]
        names = [t for t in pattern if not blank(t) and t not in "(),{}"]
        typ = (": " + self.run(ts[colon + 1:eq], env).strip() + " ") if colon else ""
        v = self.placed(expr, env)
        ws = [t for t in expr if not blank(t)]
        kind = None
        if v is None and len(ws) == 1:
            parts = ws[0].split(".")
            if parts[0] in env:
                _t, kind = self.fn.path(env[parts[0]], parts[1:], self.place)
        if v is None and len(ws) > 1 and ws[0] == "(":
            a = expr.index("(")
            z = close_at(expr, a)
            inner = self.placed(expr[a + 1:z], env)
            tail = [t for t in expr[z + 1:] if not blank(t)]
            if inner and len(tail) == 1 and tail[0].startswith("."):
                _t, kind = self.fn.path(inner, tail[0].split(".")[1:], self.place)
        if v is not None and len(names) == 1:
            env[names[0]] = v
            e = k + 1
            while e < len(ts) and ts[e].isspace():
                e += 1
            return e
        if kind is not None and len(names) == 1 and kind[0] == "step":
            out.append("let " + names[0] + " " + typ + "= " + kind[1] + "." + self.fn.newstep[kind[2]] + " in")
            env[names[0]] = kind
            return k + 1
        if kind is not None and len(names) == 1 and kind[0] == "args":
            out.append("let " + names[0] + " " + typ + "= " + kind[1] + ".args in")
            env[names[0]] = kind
            return k + 1
        if kind is not None and len(names) == 1 and kind[0] == "ensures":
            out.append("let " + names[0] + " " + typ + "= " + kind[1] + " in")
            env[names[0]] = kind
            return k + 1
        text = self.run(expr, env).strip()
        for n in names:
            env.pop(n, None)
        lead = expr[0] if expr and expr[0].isspace() and "\n" in expr[0] else " "
        out.append("let" + "".join(pattern).rstrip() + " " + typ + "=" + lead + text + " in")
        return k + 1


def split_args(ts):
    """The arguments at the top level."""
    out, i = [], 0
    while i < len(ts):
        if blank(ts[i]):
            i += 1
        elif ts[i] in OPEN:
            k = close_at(ts, i)
            out.append(ts[i:k + 1])
            i = k + 1
        else:
            out.append([ts[i]])
            i += 1
    return out


def trivial(s):
    return bool(re.match(r"\(λ c( κs)?\. (search|omega) (needs|rules|arith)\)$", s))


def aligned(args, needs, named):
    """Which old answers go to which goals, in the same order, where some have no counterpart."""
    m, n = len(args), len(needs)
    best = [[0] * (n + 1) for _ in range(m + 1)]
    come = [[None] * (n + 1) for _ in range(m + 1)]

    def fit(i, g):
        a = args[i]
        s = re.sub(r"\s+", " ", "".join(a))
        if len(a) == 1:
            return 50 if named.get(a[0]) == g else -50
        asks = needs[g][1].endswith("requires") or "-requires-" in needs[g][1]
        if bool(re.match(r"\(λ c κs", s)) != asks:
            return -20
        if g in named.values():
            return -50
        return 3 if not trivial(s) else 2

    for i in range(m + 1):
        for g in range(n + 1):
            if i == 0 and g == 0:
                continue
            cands = []
            if i and g:
                cands.append((best[i - 1][g - 1] + fit(i - 1, g - 1), "both"))
            if i:
                s = re.sub(r"\s+", " ", "".join(args[i - 1]))
                cands.append((best[i - 1][g] - (0 if trivial(s) else 2 if len(args[i - 1]) > 1 else 30), "old"))
            if g:
                cands.append((best[i][g - 1] - 3, "new"))
            best[i][g], come[i][g] = max(cands)
    out, i, g = [], m, n
    while i or g:
        c = come[i][g]
        if c == "both":
            out.append((g - 1, args[i - 1]))
            i, g = i - 1, g - 1
        elif c == "old":
            i -= 1
        else:
            g -= 1
    return list(reversed(out))


def wrapped(body, fields):
    """The old term for an unnamed conjunction, as a record of the clauses."""
    if not fields:
        return body
    if len(fields) == 1 and not body.strip().startswith("let "):
        b = body.strip()
        if "\n" in b:
            return "\n    record { " + fields[0] + " = " + b + " }"
        return " record { " + fields[0] + " = " + b + " }"
    ts = tokens(body)
    i, lets = 0, []
    while True:
        while i < len(ts) and blank(ts[i]):
            i += 1
        if i < len(ts) and ts[i] == "let":
            nest, k = 0, i + 1
            while k < len(ts):
                if ts[k] in OPEN:
                    k = close_at(ts, k)
                elif ts[k] == "let":
                    nest += 1
                elif ts[k] == "in":
                    if nest == 0:
                        break
                    nest -= 1
                k += 1
            lets.append("".join(ts[i:k + 1]))
            i = k + 1
            continue
        break
    rest = ts[i:]
    text = "".join(rest).strip()
    parts = []
    want = len(fields)
    cur = text
    while want > 1:
        c = tokens(cur)
        if c[0] == "(" and close_at(c, 0) == len(c) - 1:
            inner = c[1:-1]
            elems, depth, last = [], 0, 0
            for q, t in enumerate(inner):
                if t in OPEN:
                    depth += 1
                elif t in CLOSE:
                    depth -= 1
                elif t == "," and depth == 0:
                    elems.append("".join(inner[last:q]).strip())
                    last = q + 1
            if "".join(inner[last:]).strip():
                elems.append("".join(inner[last:]).strip())
            if len(elems) >= want:
                parts += elems[:want - 1]
                rest_e = elems[want - 1:]
                parts.append(rest_e[0] if len(rest_e) == 1 else "(" + ", ".join(rest_e) + ")")
                want = 0
                break
            if len(elems) == 2:
                parts.append(elems[0])
                cur = elems[1]
                want -= 1
                continue
        break
    if want == 1:
        parts.append(cur)
        want = 0
    if want:
        fs, path = [], "w"
        for q, f in enumerate(fields):
            fs.append(f"{f} = w" + ".1" * q + ("" if q == len(fields) - 1 else ".0"))
        lets.append("let w = " + text + " in")
        return "\n    " + "\n    ".join(lets) + "\n    record { " + "; ".join(fs) + " }"
    return "\n    " + "\n    ".join(lets + ["record { " + "; ".join(f"{f} = {p}" for f, p in zip(fields, parts)) + " }"])


DECL = re.compile(r"(?m)^(?=\S)")


def current(text):
    """now x is x.now today."""
    ts, out, i = tokens(text), [], 0
    while i < len(ts):
        if ts[i] == "now" and i + 2 < len(ts) and ts[i + 1].isspace() and out and not "".join(out).rstrip().endswith("{"):
            if ts[i + 2] == "(":
                k = close_at(ts, i + 2)
                field = ts[k + 1] if k + 1 < len(ts) and ts[k + 1].startswith(".") else ""
                out.append("(" + current("".join(ts[i + 3:k])) + ")" + field + ".now")
                i = k + 1 + (1 if field else 0)
                continue
            if re.match(r"[\w']", ts[i + 2]):
                out.append(ts[i + 2] + ".now")
                i += 3
                continue
        if ts[i] == "(" and i + 3 < len(ts) and ts[i + 1] == "now" and close_at(ts, i) == i + 4 and re.match(r"[\w']", ts[i + 3]):
            out.append(ts[i + 3] + ".now")
            i += 5
            continue
        out.append(ts[i])
        i += 1
    return "".join(out)


def declarations(text):
    """Blocks of a file: each begins at a line that is not indented; comments join what follows."""
    lines = text.split("\n")
    blocks, cur = [], []
    for l in lines:
        if l and not l[0].isspace() and l[0] not in ")}":
            if cur:
                blocks.append("\n".join(cur))
            cur = [l]
        else:
            cur.append(l)
    if cur:
        blocks.append("\n".join(cur))
    return [b.rstrip() for b in blocks if b.strip()]


def flat(text):
    """Declarations of a module over a place, or over a fact, as declarations that take it."""
    lines, out, i = text.split("\n"), [], 0
    while i < len(lines):
        m = re.match(r"module _ (\(.*\)) where$", lines[i])
        if not m or "{M :" in lines[i]:
            out.append(lines[i])
            i += 1
            continue
        j, body = i + 1, []
        while j < len(lines) and (not lines[j].strip() or lines[j].startswith("  ")):
            body.append(lines[j][2:])
            j += 1
        out += taking(m.group(1), flat("\n".join(body)))
        i = j
    return "\n".join(out)


def taking(binders, text):
    ps, ts, i = [], tokens(binders), 0
    while i < len(ts):
        if ts[i] == "(":
            k = close_at(ts, i)
            inner = "".join(ts[i + 1:k])
            names, typ = inner.split(":", 1)
            ps.append((names.split(), typ.strip()))
            i = k + 1
        else:
            i += 1
    args = [n for ns, _t in ps for n in ns]
    blocks = declarations(text)
    own = []
    for b in blocks:
        m = re.match(r"((?:abbrev |pub |unfoldable )*)([^\s:]+) :", b)
        if m and not b.startswith("--"):
            own.append(m.group(2))
    word = re.compile(r"(?<![\w.-])(" + "|".join(re.escape(n) for n in sorted(own, key=len, reverse=True)) + r")(?![\w-])") if own else None

    def put(s):
        return word.sub(lambda m: "(" + m.group(1) + " " + " ".join(args) + ")", s) if word else s

    out = []
    for b in blocks:
        m = re.match(r"(?s)((?:abbrev |pub |unfoldable )*)([^\s:]+) :(.*)$", b)
        if b.startswith("--") or b.startswith("unfolding"):
            out.append(b)
        elif m:
            typ = m.group(3).strip()
            if "abbrev" in m.group(1) and len(ps) == 1 and not typ.startswith("("):
                out.append(f"{m.group(1)}{m.group(2)} : {ps[0][1]} → {put(typ)}")
            else:
                bound = " → ".join("(" + " ".join(ns) + " : " + put(tt) + ")" for ns, tt in ps)
                out.append(f"{m.group(1)}{m.group(2)} : {bound} → {put(typ)}")
        else:
            m = re.match(r"(?s)(\S+)(.*)$", b)
            head, rest = m.group(2).split("=", 1)
            out.append(f"{m.group(1)} {' '.join(args)}{head}={put(rest)}")
            out.append("")
    return out


def used_only(uses, body):
    """The `use` lines with the names that the body has."""
    out = []
    words = set(re.findall(r"[^\s(){}\[\],;.:]+", body)) | set(re.findall(r"[^\s(){}\[\],;]+", body))
    for u in uses:
        m = re.match(r"(?s)use (\S+?)\.\{(.*)\}\s*$", u)
        if not m:
            out.append(u)
            continue
        keep = []
        for n in [x.strip() for x in m.group(2).split(",")]:
            shown = n.split(" as ")[-1]
            if "◌" in shown:
                bits = [b for b in shown.split("◌") if b]
                ok = all(b in words or b in body for b in bits)
            elif shown == "[]":
                ok = "[]" in body
            else:
                ok = shown in words or any(w.split(".")[0] == shown for w in words)
            if ok:
                keep.append(n)
        if keep:
            out.append("use " + m.group(1) + ".{" + ", ".join(keep) + "}")
    return out


def invariant(fn, loop, name, params, body):
    new, vs = fn.loops[loop]
    ch = fn.changed[loop]
    sub = {}
    for v, c, p in zip(vs, ch, params):
        sub[p] = ("l.initial." + v) if c else ("l." + v)
    cur = [v for v, c in zip(vs, ch) if c]
    for v, p in zip(cur, params[len(params) - len(cur):] if cur else []):
        sub[p] = "l." + v
    if len(params) != len(vs) + len(cur):
        fn.say(f"invariant of {len(params)} parameters, {len(vs)} + {len(cur)} known")

    def go(ts, sub):
        out, i, sub0 = [], 0, dict(sub)
        sub = dict(sub)
        while i < len(ts):
            t = ts[i]
            if t == "," or t == ";":
                sub = dict(sub0)
                out.append(t)
            elif t in OPEN:
                k = close_at(ts, i)
                inner = ts[i + 1:k]
                ws = [x for x in inner if not blank(x)]
                if ":" in ws and t == "(" and k + 1 < len(ts):
                    n = ws.index(":")
                    for x in ws[:n]:
                        sub.pop(x, None)
                out.append(t + go(inner, sub) + ts[k])
                i = k + 1
                continue
            elif t.startswith("λ"):
                while i < len(ts):
                    out.append(ts[i])
                    sub.pop(ts[i].rstrip("."), None)
                    if ts[i].endswith("."):
                        break
                    i += 1
            elif t == "let":
                j = i + 1
                while j < len(ts) and blank(ts[j]):
                    j += 1
                sub.pop(ts[j], None)
                out.append(t)
            else:
                parts = t.split(".")
                if parts[0] in sub:
                    out.append(".".join([sub[parts[0]]] + parts[1:]))
                else:
                    out.append(t)
            i += 1
        return "".join(out)

    return go(tokens(body), sub)


def turn(fn, crate, path, folder, text):
    """Returns the texts of Invariants.antt and Answers.antt, or None for each."""
    blocks = declarations(re.sub(r"(?<![\w-])needs(?![\w-])", "rules", flat(text) if "let now" in text or "(now :" in text else current(flat(text))))
    uses, head, comment = [], [], []
    decls = []
    spec = None
    k = 0
    while k < len(blocks):
        b = blocks[k]
        if b.startswith("--"):
            comment.append(b)
        elif b.startswith("use "):
            if not decls and comment:
                head += comment
                comment = []
            if ".Statement." not in b and not b.endswith("as tie"):
                uses.append(b)
        elif "tie.close" in b or re.match(r"pub \S+[-_]spec :", b):
            if "tie.spec" in b:
                spec = b
            comment = []
        else:
            m = re.match(r"(?s)((?:abbrev |pub |unfoldable )*)([^\s:]+) :(.*)$", b)
            if b.startswith("module"):
                decls.append(["module", b, comment])
            elif b.startswith("unfolding ") and decls:
                decls[-1].append(b)
            elif m and not (decls and decls[-1][0] == "decl" and re.match(r"(?:%s)(?:\s|$)" % re.escape(decls[-1][2]), b)):
                decls.append(["decl", m.group(1), m.group(2), m.group(3).strip(), [], comment])
            elif decls and decls[-1][0] == "decl":
                decls[-1][4].append(b)
            else:
                raise Bad("block " + b[:60])
            comment = []
        k += 1
    fn.outer = {}
    inv, ans = [], []
    answered = set()
    # path functions, macros, lemmas
    ordered = []
    for d in decls:
        if d[0] == "module":
            raise Bad("a module")
        _k, mods, name, sig, clauses, com = d[:6]
        unfold = [x for x in d[6:]] + [c for c in clauses if c.startswith("unfolding ")]
        clauses = [c for c in clauses if not c.startswith("unfolding ")]
        m = re.match(r"(?s)tie\.([^\s]+)((?: [^\s→]+)*)\s*→\s*tie\.([^\s]+)((?: [^\s→]+)*)$", sig)
        if m:
            fn.convs[name] = (fn.place_of_type(m.group(1)), fn.place_of_type(m.group(3)))
            if None in fn.convs[name]:
                raise Bad("place " + sig)
            continue
        m = re.match(r"(?s)tie\.([^\s]+)((?: (?:invariant|decreases)[^\s→]*)*)\s*→\s*(.+)$", sig)
        if m and not m.group(1).startswith("Need") and "abbrev" in mods:
            p = fn.place_of_type(m.group(1))
            if p is None:
                raise Bad("place " + m.group(1))
            c = re.match(r"(?s)\S+\s+(\S+)\s*=(.*)$", clauses[0])
            fn.macros[name] = (p, c.group(1), c.group(2).strip())
            continue
        m = re.match(r"(?s)\((\S+) : tie\.([^\s)]+)((?: [^\s)]+)*)\)", sig)
        if m:
            p = fn.place_of_type(m.group(2))
            if p is None:
                raise Bad("place " + m.group(2))
            fn.helpers[name] = p
        else:
            m = re.match(r"(?s)tie\.([^\s]+)((?: [^\s→]+)*)\s*→", sig)
            if m and not m.group(1).startswith("Need"):
                p = fn.place_of_type(m.group(1))
                if p is None:
                    raise Bad("place " + m.group(1))
                fn.helpers[name] = p
        if name in fn.helpers and len(clauses) == 1 and not unfold:
            c = re.match(r"(?s)\S+\s+(\S+)\s*=(.*)$", clauses[0])
            if c:
                fn.bodies[name] = (c.group(1), c.group(2).strip())
        ordered.append((mods, name, sig, clauses, com, unfold))
    for mods, name, sig, clauses, com, unfold in ordered:
        note = "".join(c + "\n" for c in com)
        unf = "".join(u + "\n" for u in unfold)
        m = re.match(r"tie\.(invariant|decreases)-(\S+)$", sig)
        if m:
            loop = norm(m.group(2))
            if loop not in fn.loops:
                raise Bad("loop " + m.group(2))
            c = re.match(r"(?s)\S+((?:\s+[^\s=]+)*)\s*=(.*)$", clauses[0])
            params = c.group(1).split()
            body = invariant(fn, loop, m.group(1), params, c.group(2))
            new = m.group(1) + "-" + fn.loops[loop][0]
            inv.append(note + f"abbrev pub {new} : goal.{new}\n" + unf + f"{new} l ={body}")
            continue
        m = re.match(r"tie\.Need-(\S+?)((?: \S+)*)$", sig)
        if m:
            g = fn.goal(m.group(1))
            if g is None:
                fn.say("no goal " + m.group(1))
                continue
            new = fn.n["needs"][g][1]
            old = fn.n["needs"][g][0]
            place = norm(fn.n["asked_at"][g][0])
            cl = clauses[0]
            c = re.match(r"(?s)(\S+)((?:\s+[^\s=]+)*)\s*=(.*)$", cl)
            params = [p for p in c.group(2).split() if not p.startswith("κ")]
            root = params[0] if params else "c"
            w = Walk(fn, root, place, new)
            src = c.group(3)
            if params[1:] and fn.n["asked"].get(old):
                src = " λ " + " ".join(params[1:]) + "." + src
                params = params[:1]
            body = w.run(tokens(src), {root: ("place", root, place)})
            body = wrapped(body, fn.n["asked"].get(old))
            answered.add(g)
            fn.named = getattr(fn, "named", {})
            fn.named[name] = g
            fn.at_goals = getattr(fn, "at_goals", [])
            ans.append(note + f"pub {new} : goal.{new}\n" + unf + f"{new} {' '.join(params)} ={body}")
            continue
        # a lemma
        if name in fn.helpers:
            place = fn.helpers[name]
            m = re.match(r"(?s)\((\S+) : tie\.([^\s)]+)((?: [^\s)]+)*)\)(.*)$", sig)
            fn.uses.add(fn.newplace[place])
            if m:
                root = m.group(1)
                w = Walk(fn, root, place, None)
                rest = w.run(tokens(m.group(4)), {root: ("place", root, place)})
                signew = f"({root} : {fn.newplace[place]}){rest}"
            else:
                m = re.match(r"(?s)tie\.([^\s]+)((?: (?:invariant|decreases)[^\s→]*)*)\s*→(.*)$", sig)
                signew = f"{fn.newplace[place]} →{m.group(3)}"
            outc = []
            for cl in clauses:
                c = re.match(r"(?s)(\S+)((?:\s+[^\s=]+)*)\s*=(.*)$", cl)
                params = c.group(2).split()
                root = params[0]
                w = Walk(fn, root, place, None)
                body = w.run(tokens(c.group(3)), {root: ("place", root, place)})
                outc.append(f"{name}{c.group(2)} ={body}")
            ans.append(note + f"{mods}{name} : {signew}\n" + unf + "\n".join(outc))
        else:
            if "tie." in sig:
                raise Bad("signature " + sig[:80])
            ans.append(note + f"{mods}{name} : {sig}\n" + unf + "\n".join(clauses))
    # answers that stand in the last term
    if spec:
        t = spec.split("tie.spec", 1)[1]
        ts = tokens(t)
        depth = 0
        for q, x in enumerate(ts):
            if x in OPEN:
                depth += 1
            elif x in CLOSE:
                depth -= 1
                if depth < 0:
                    ts = ts[:q]
                    break
        args = split_args(ts)
        args = args[2 * len(fn.loops):] if fn.loops else args
        needs = fn.n["needs"]
        pairs = list(enumerate(args))
        if len(args) != len(needs):
            fn.say(f"{len(args)} answers for {len(needs)} goals")
            pairs = aligned(args, needs, getattr(fn, "named", {}))
            got = {id(a) for _g, a in pairs}
            for a in args:
                s = re.sub(r"\s+", " ", "".join(a))
                if len(a) > 1 and id(a) not in got and not trivial(s):
                    fn.say("unplaced " + s)
        if True:
            for g, a in pairs:
                s = re.sub(r"\s+", " ", "".join(a))
                if len(a) == 1 or g in answered:
                    continue
                m = re.match(r"(?s)\(λ ((?:\S+ )*?\S+)\.(.*)\)$", "".join(a))
                if not m:
                    fn.say("answer " + s[:80])
                    continue
                body = m.group(2).strip()
                if re.sub(r"\s+", " ", body) in ("search needs", "search rules", "search arith", "omega arith"):
                    continue
                params = [p for p in m.group(1).split() if not p.startswith("κ")]
                root = params[0]
                old, new = needs[g]
                if params[1:] and fn.n["asked"].get(old):
                    body = "λ " + " ".join(params[1:]) + ". " + body
                    params = params[:1]
                place = norm(fn.n["asked_at"][g][0])
                w = Walk(fn, root, place, new)
                b = w.run(tokens(" " + body), {root: ("place", root, place)})
                b = wrapped(b, fn.n["asked"].get(old))
                ans.append(f"pub {new} : goal.{new}\n{new} {' '.join(params)} ={b}")
    mod = ".".join([crate, "proofs"] + path.split("/"))
    heads = [h for h in head if h.strip() != "-- Assumes nothing."]
    uses = [re.sub(r"(?<=[{ ])(rules|now)(?=[,}])(, )?", "", u) for u in uses] + ["use Rattle.std.proofs.Common.{rules}"]
    had = " ".join(uses)
    more = [w for w in ("ap", "not") if not re.search(r"[{ ]" + w + r"[,}]", had)]
    if more:
        uses.append("use Rattle.laws.proofs.All.{" + ", ".join(more) + "}")
    ti = ta = None
    if inv:
        body = "\n\n".join(inv)
        ti = "\n".join(heads + used_only(uses, body) + [f"use Rattle.{mod}.Given as goal"]) + "\n\n" + body + "\n"
    if ans:
        body = "\n\n".join(ans)
        more = []
        if fn.uses:
            more = [f"use Rattle.{mod}.Goals.{{{', '.join(sorted(fn.uses))}}}"]
        ta = "\n".join(([] if inv else heads) + used_only(uses, body) + more + [f"use Rattle.{mod}.Goals as goal"]) + "\n\n" + body + "\n"
    return ti, ta


def main(argv):
    with open(argv[0]) as f:
        names = json.load(f)
    folder = argv[1].rstrip("/")
    crate = os.path.basename(folder)
    only = argv[2:]
    for top, dirs, files in sorted(os.walk(os.path.join(folder, "proofs"))):
        if "Proof.antt" not in files:
            continue
        path = os.path.relpath(top, os.path.join(folder, "proofs"))
        if only and path not in only:
            continue
        key = f"Rattle-{crate}-proofs.{path.replace('/', '.')}.Lts"
        file = os.path.join(top, "Proof.antt")
        with open(file, encoding="utf-8") as f:
            text = f.read()
        if key not in names:
            print(f"{path}: not in the names")
            continue
        fn = Function(names[key], parameters(folder, path))
        try:
            ti, ta = turn(fn, crate, path, top, text)
        except (Bad, IndexError, KeyError, AttributeError, TypeError) as e:
            print(f"{path}: LEFT {type(e).__name__}: {e}")
            continue
        for name, t in (("Invariants.antt", ti), ("Answers.antt", ta)):
            if t:
                with open(os.path.join(top, name), "w", encoding="utf-8") as f:
                    f.write(t)
        aside = os.path.join(os.environ.get("OLD_PROOFS", "/tmp/old-proofs"), crate, path)
        os.makedirs(aside, exist_ok=True)
        shutil.move(file, os.path.join(aside, "Proof.antt"))
        for s in fn.said:
            print(f"{path}: {s}")
    return 0


if __name__ == "__main__":
    sys.exit(main(sys.argv[1:]))
