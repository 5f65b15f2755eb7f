#!/usr/bin/env python3
"""Turns the proofs of functions of the older kit, each a Proof.antt that answers the parts of `tie.spec` in order, to today's two files, Invariants.antt and
Answers.antt, whose goals go by name. It ran crate by crate while this repository was brought to today's kit, after port_names.py.

usage: python3 tools/port_proofs.py CRATE_FOLDER NAMES.json      NAMES.json: made by `rt check --generated FOLDER --old-names` in the crate's folder

An answer that only says `search rules` goes: the check tries that by itself. A Proof.antt that was not understood stays and is named.
"""

import json
import os
import re
import sys


def norm(s):
    return s.replace("_", "").replace("-", "").lower()


def blocks(text):
    """Top level blocks: a comment above a block belongs to it."""
    lines = text.split("\n")
    out, now = [], []
    for l in lines:
        starts = l and not l[0].isspace() and not l.startswith(")")
        if starts and now and not now[-1].startswith("--"):
            out.append("\n".join(now).rstrip())
            now = []
        now.append(l)
    if now:
        out.append("\n".join(now).rstrip())
    return [b for b in out if b.strip()]


def sig_name(b):
    for l in b.split("\n"):
        if l.startswith("--"):
            continue
        m = re.match(r"(?:abbrev |unfoldable )?(?:pub )?(\S+) :", l)
        return m[1] if m else None
    return None


def close(text, i):
    """The end of the argument that begins at i: a token with its fields, or a bracket."""
    while i < len(text) and text[i] == " ":
        i += 1
    return i


TOK = r"[\w'₀-₉ℕ→≡≢κσ-]+"


class Function:
    def __init__(self, crate, path, names):
        self.crate, self.path, self.v = crate, path, names
        self.place = {}
        for k, p in enumerate(names["places"]):
            self.place.setdefault(norm(p[0]), (k, p))
        # Several places may have one old name; then go by number.
        self.by_number = names["places"]
        self.new_number = {n: k for k, n in enumerate(names["places_by_name"])}
        self.trouble = []

    def number(self, old, new):
        if new in self.new_number:
            return self.new_number[new]
        return self.place[norm(old)][0]

    def parent(self, k):
        return self.place[norm(self.by_number[k][1])][0] if self.by_number[k][1] else None

    def path_at(self, k, fields):
        """The new path of `c` + fields at the place number k; fields is a list of old field names."""
        i = 0
        while i < len(fields) and fields[i] == "before":
            if k is not None:
                k = self.parent(k)
            i += 1
        rest = fields[i:]
        if k is None:
            # today's code has fewer steps: go by the name alone, where one step bears it
            if rest and rest[0] in ("args", "requires", "ranges", "pre"):
                return ".".join(["c", "requires" if rest[0] == "pre" else rest[0]] + rest[1:])
            found = [q for q in self.by_number if rest and q[2][0] and norm(q[2][0]) == norm(rest[0])]
            return self.tested(found[0][2][1], rest[1:]) if len({q[2][1] for q in found}) == 1 else None
        if not rest:
            return "c" if i == 0 else None
        p = self.by_number[k]
        arms = self.v["arms"][k] if k < len(self.v["arms"]) else None
        own = norm(p[2][0])
        if arms:
            step, _, entries = arms
            for new, field, sub in sorted(entries, key=lambda e: -len(e[2])):
                if rest and norm(rest[0]) == norm(field) and rest[1 : 1 + len(sub)] == sub:
                    return ".".join(["c", step, new] + rest[1 + len(sub) :])
        if rest[0] in ("args", "requires", "ranges", "pre"):
            if rest[0] == "pre":
                rest = ["requires"] + rest[1:]
            return ".".join(["c"] + rest)
        if own and norm(rest[0]) == own:
            return self.tested(p[2][1], rest[1:])
        # a fact of an earlier place, named without its `before`s
        for q in self.by_number:
            if norm(q[2][0]) == norm(rest[0]) and q[2][0]:
                return self.tested(q[2][1], rest[1:])
        return None

    def tested(self, step, rest):
        if rest and (step.startswith("if-") or step.endswith("-test")):
            rest = [{"taken": "true", "left": "false"}.get(rest[0], rest[0])] + rest[1:]
        return ".".join(["c", step] + rest)

    def paths(self, text, k, c):
        def turn(m):
            fields = m[0].split(".")[1:]
            new = self.path_at(k, fields)
            if new is None:
                self.trouble.append(m[0])
                return m[0]
            return new

        return re.sub(rf"(?<![\w.'-]){re.escape(c)}(?:\.[\w'₀-₉-]+)+", turn, text)


def used(imports, body):
    keep = []
    for m in imports:
        path, items = m
        if items is None:
            last = path.split(" as ")[-1].split(".")[-1].strip()
            if re.search(rf"(?<![\w'-]){re.escape(last)}\.", body):
                keep.append(f"use {path}")
            continue
        some = []
        for it in items:
            name = it.split(" as ")[-1].strip()
            bare = name.replace("◌", " ").strip()
            if "◌" in name:
                if all(part in body for part in bare.split()):
                    some.append(it)
            elif re.search(rf"(?<![\w'.→≢-]){re.escape(name)}(?![\w'→-])", body):
                some.append(it)
        if some:
            keep.append(f"use {path}.{{{', '.join(some)}}}")
    return keep


def convert(crate, folder, names_key, names, func):
    p = os.path.join(folder, "Proof.antt")
    with open(p, encoding="utf-8") as f:
        text = f.read()
    f = Function(crate, folder, names)
    bs = blocks(text)
    head, imports, decls = [], [], []
    spec = None
    for b in bs:
        body = [l for l in b.split("\n")]
        comments = []
        while body and body[0].startswith("--"):
            comments.append(body.pop(0))
        first = body[0] if body else ""
        joined = "\n".join(body)
        if first.startswith("use "):
            if not imports and not decls:
                head += comments
            m = re.match(r"use ([^\s{]+?)(?:\.\{(.*)\})?(?: as (\S+))?$", joined.replace("\n", " "), re.S)
            if m:
                if m[2] is not None:
                    items = [x.strip() for x in m[2].split(",") if x.strip()]
                    if not re.search(r"\.Statement$", m[1]):
                        imports.append((m[1], items))
                else:
                    if not re.search(r"\.(Tie|Reads|Lts)$", m[1]):
                        imports.append((m[1] + (f" as {m[3]}" if m[3] else ""), None))
            else:
                f.trouble.append("use: " + joined[:80])
            continue
        if re.match(r"pub [\w'-]+-spec :|pub [\w'-]+_spec :", first):
            spec = b
            continue
        if spec and re.match(r"[\w'-]+[-_]spec =", first):
            spec += "\n" + b
            continue
        decls.append((comments, joined))
    # put equations with their signatures
    merged = []
    for comments, d in decls:
        if merged and sig_name(d) is None:
            merged[-1] = (merged[-1][0], merged[-1][1] + "\n" + "\n".join(comments + [d]) if comments else merged[-1][1] + "\n" + d)
        else:
            merged.append((comments, d))
    if spec is None or "tie.spec" not in spec:
        f.trouble.append("no tie.spec")
        return f, False
    inner = spec[spec.index("tie.spec") + len("tie.spec") :]
    inner = inner.replace(")", " ")
    order = inner.split()
    loops = names["loops"]
    measured = [l for l in loops]
    inv_names = {}
    needs = names["needs"]
    args = [a for a in order]
    sigs = {}
    for _, d in merged:
        n = sig_name(d)
        if n:
            sigs[n] = d
    need_args = [a for a in args if a in sigs and re.search(r": tie\.Need-", sigs[a].split("\n")[0] + " " + sigs[a])]
    gone = []
    if len(need_args) != len(needs):
        # a range of a constant, as `&TABLE[..]`, asks nothing any more
        gone = [a for a in need_args if re.search(r": tie\.Need-slice-aggregate", sigs[a])]
        need_args = [a for a in need_args if a not in gone]
    if len(need_args) != len(needs):
        f.trouble.append(f"{len(need_args)} answers, {len(needs)} goals")
        return f, False
    rename, at, pos = {}, {}, {}
    for a, (old, new), (po, pn) in zip(need_args, needs, names["asked_at"]):
        rename[a] = new
        at[a] = f.number(po, pn)
    inv_text, ans_text = [], []
    for comments, d in merged:
        n = sig_name(d)
        sig, _, rest = d.partition("\n")
        # a signature can go over several lines up to the equation
        m = re.match(r"(?:abbrev |unfoldable )?(?:pub )?(\S+) : tie\.(invariant|decreases)-(\S+)", sig)
        if m:
            kind, loop = m[2], m[3]
            found = [(l, ch) for l, ch in zip(loops, names["changed"]) if norm(l[0][0]) == norm(loop)]
            if not found:
                f.trouble.append(f"loop {loop}")
                return f, False
            (pair, vars_), changed = found[0]
            rename[n] = f"{kind}-{pair[1]}"
            eq = rest
            unfolding = ""
            if eq.startswith("unfolding"):
                unfolding, _, eq = eq.partition("\n")
                unfolding += "\n"
            lhs, _, body = eq.partition(" =")
            params = lhs.split()[1:]
            want = len(vars_) + sum(changed)
            if len(params) != want:
                f.trouble.append(f"{n}: {len(params)} parameters, {want} wanted")
                return f, False
            sub = {}
            for k, v in enumerate(vars_):
                sub[params[k]] = ("l.initial." if changed[k] else "l.") + v
            k = len(vars_)
            for v, ch in zip(vars_, changed):
                if ch:
                    sub[params[k]] = "l." + v
                    k += 1

            def swap(m):
                return sub.get(m[0], m[0])

            body = re.sub(rf"(?<![\w.'₀-₉-]){TOK}", swap, body)
            new = f"{kind}-{pair[1]}"
            inv_text.append("\n".join(comments + [f"abbrev pub {new} : goal.{new}", unfolding + f"{new} l ={body}"]))
            continue
        if n in gone:
            continue
        m = re.search(r": tie\.Need-", sig)
        if m and n in rename:
            k = at[n]
            body = re.sub(r"^\s+(?=invariant|decreases).*\n", "", rest) if not re.match(r"(unfolding|" + re.escape(n) + r")\b", rest) else rest
            unfolding = ""
            if body.startswith("unfolding"):
                unfolding, _, body = body.partition("\n")
                unfolding += "\n"
            body = body[len(n) :].lstrip(" ") if body.startswith(n) else body
            lhs, _, term = body.partition("=")
            params = lhs.split()
            if not params:
                f.trouble.append(f"{n}: no parameter")
                return f, False
            c = params[0]
            if len(params) > 1 and re.search(rf"(?<![\w.']){re.escape(params[1])}(?![\w'])", term):
                f.trouble.append(f"{n}: takes {params[1]}")
            if term.strip() == "search rules" and not unfolding:
                continue
            term = f.paths(term, k, c)
            # a test `!x` now gives what x is
            term = re.sub(r"not-(?:true|false) (?:c\.[\w.'-]+|_) (c\.[\w.'-]+)", r"\1", term)
            new = rename[n]
            ans_text.append("\n".join(comments + [f"pub {new} : goal.{new}", unfolding + f"{new} {c} ={term}"]))
            continue
        ans_text.append("\n".join(comments + [d]))
    # names of answers that other answers cite
    def names_turned(t):
        return t

    dotted = "Rattle." + crate + ".proofs." + ".".join(os.path.relpath(folder, os.path.join(os.path.dirname(folder.split("/proofs/")[0] + "/x"), "proofs")).split(os.sep))
    head = [h for h in head if not h.startswith("-- Assumes nothing")]
    if inv_text:
        body = "\n\n".join(inv_text)
        lines = head + used(imports, body) + [f"use {dotted}.Given as goal", ""] + [body]
        with open(os.path.join(folder, "Invariants.antt"), "w", encoding="utf-8") as o:
            o.write("\n".join(lines) + "\n")
    if ans_text:
        body = "\n\n".join(ans_text)
        lines = ([] if inv_text else head) + used(imports, body) + [f"use {dotted}.Goals as goal", ""] + [body]
        with open(os.path.join(folder, "Answers.antt"), "w", encoding="utf-8") as o:
            o.write("\n".join(lines) + "\n")
    if not inv_text and not ans_text:
        pass
    os.remove(p)
    return f, True


def main(argv):
    folder, names = argv
    folder = folder.rstrip("/")
    crate = os.path.basename(os.path.abspath(folder))
    with open(names, encoding="utf-8") as it:
        j = json.load(it)
    done = 0
    for key, v in j.items():
        if not key.endswith(".Lts"):
            continue
        parts = key[len(f"Rattle-{crate}-proofs.") : -4].split(".")
        at = os.path.join(folder, "proofs", *parts)
        if not os.path.exists(os.path.join(at, "Proof.antt")):
            continue
        f, ok = convert(crate, at, key, v, parts)
        done += ok
        if f.trouble:
            print(f"{'look' if ok else 'left'}: {at}: {f.trouble[:6]}")
    print(f"{done} proofs turned")
    return 0


if __name__ == "__main__":
    raise SystemExit(main(sys.argv[1:]))
