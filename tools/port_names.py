#!/usr/bin/env python3
"""Brings the names of this repository's own definitions and lemmas to today's spelling, after the kit's port.py: words in snake case, types and modules in
camel case. It ran once; it stays so that the commit before it and the one after it can be compared.

usage: python3 tools/port_names.py [--look]        at the top of the repository; --look writes nothing and lists the names that fall together

What is renamed: names that specs/*.antt and proofs/*.antt declare (definitions, lemmas, fields, local names), in camel case (`countAt`) or with dashes
(`by-categories`), there and in every file that cites them: proofs of functions, contracts, must-fail edits, and, between backticks, pages. What a file
imports from the kit keeps its name there. The crate `unicode` is called `characters`, since the kit has a library of that name.
"""

import os
import re
import sys

CRATES = {"unicode": "characters"}
DECLARED = re.compile(r"^(\s*)((?:abbrev |unfoldable )?(?:pub )?)([^\s(){}.,;:|]+(?: [^\s(){}.,;:|]+)*) :(?=\s|$)")
FIELD_OR_BINDER = re.compile(r"[({]([^\s(){}.,;:|]+(?: [^\s(){}.,;:|]+)*) : ")
IMPORT = re.compile(r"(?:ghost )?(?:pub )?use ([\w.+'◌\u00b7-]+?)\.\{([^}]*)\}", re.S)
WORDS = {"record", "where", "module", "use", "pub", "abbrev", "unfoldable", "data", "let", "in"}

# A lemma that would have the name of the definition that it speaks of.
APART = {
    n: n.replace("-", "_") + "_lem"
    for n in (
        "after-before behind-leaf break-mark enters-run filled-before filled-start first-bytes from-before headed-before is-byte is-heading-before is-item is-not"
        " is-of last-bytes no-item ordered-mark prefix-of same-container spaces-before start-before through-last with-text without-closing"
        " bytes_on goes_to going_before open_after to_last"
    ).split()
}
# Of these, what stands in lower case with _ already is a lemma in these files alone.
LEMMAS = {"bytes_on", "goes_to", "going_before", "open_after", "to_last"}


def snake(name):
    if name[:1].isupper() or name[:1] == "_":
        head = re.match(r"[A-Z][A-Za-z0-9]*", name)
        if not head or head.end() == len(name):
            return name
        return name
    to = name.replace("-", "_")
    to = re.sub(r"(?<=[a-z0-9])([A-Z])", lambda m: "_" + m[1].lower(), to)
    to = re.sub(r"_([A-Z])(?=[a-z0-9_]|$)", lambda m: "_" + m[1].lower(), to)
    return APART.get(name, to)


def own(name):
    return bool(re.fullmatch(r"[a-z_][\w'₀-₉-]*", name)) and ("-" in name or re.search(r"[a-z0-9][A-Z]", name)) and snake(name) != name


def files(root):
    for folder, dirs, names in os.walk(os.path.join(root, "crates")):
        dirs[:] = sorted(d for d in dirs if d != "out")
        for n in sorted(names):
            if n.endswith((".antt", ".rt", ".edit")):
                yield os.path.join(folder, n)


def lemma_file(path, root):
    parts = os.path.relpath(path, root).split(os.sep)
    return path.endswith(".antt") and len(parts) > 3 and (parts[2] == "specs" or (parts[2] == "proofs" and len(parts) == 4))


def declared(text):
    found = set()
    for line in text.split("\n"):
        code = line.split("--")[0] if "--" in line and not re.match(r"\S*--", line) else line
        m = DECLARED.match(code)
        if m:
            found |= {w for w in m[3].split(" ") if own(w)}
        for m in FIELD_OR_BINDER.finditer(code):
            found |= {w for w in m[1].split(" ") if own(w)}
    return found


def foreign(text, names):
    """What the file imports from the kit, under its own name."""
    out = set()
    for m in IMPORT.finditer(text):
        path = m[1]
        if any(re.match(rf"Rattle\.{c}(?![\w'-])", path) for c in names):
            continue
        for item in m[2].split(","):
            item = item.strip()
            if " as " in item:
                item = item.split(" as ")[0].strip()
            out.add(item)
    return out


TOKEN = re.compile(r"[A-Za-z_][\w'₀-₉]*(?:-[\w'₀-₉]+)*")
GENERATED = re.compile(r"(?:tie|goal|reads|lts)\.[\w.'-]*$")


def turned(text, mapping, comment):
    """The text with the mapping's names turned; in comments only names in camel case and what stands between backticks."""

    def word(m):
        t = m[0]
        if t not in mapping:
            return t
        before = text_now[: m.start()][-1:]
        after = text_now[m.end() : m.end() + 1]
        if before in ("→", "≢", "≡", "-") or after in ("→", "≢", "-"):
            return t
        return mapping[t]

    out = []
    for line in text.split("\n"):
        i = line.find(comment)
        while i > 0 and line[i - 1] not in " \t":
            i = line.find(comment, i + 1)
        code, rest = (line, "") if i < 0 else (line[:i], line[i:])
        pieces = re.split(r'("(?:[^"\\]|\\.)*")', code)
        for k, p in enumerate(pieces):
            if k % 2 == 0:
                text_now = p
                pieces[k] = TOKEN.sub(word, p)
        code = "".join(pieces)
        if rest:
            ticks = re.split(r"(`[^`]*`)", rest)
            for k, p in enumerate(ticks):
                text_now = p
                if k % 2:
                    ticks[k] = TOKEN.sub(word, p)
                else:
                    ticks[k] = TOKEN.sub(lambda m: mapping.get(m[0], m[0]) if re.search(r"[a-z0-9][A-Z]", m[0]) else m[0], p)
            rest = "".join(ticks)
        out.append(code + rest)
    return "\n".join(out)


def main(argv):
    root = "."
    look = "--look" in argv
    crates = sorted(os.listdir(os.path.join(root, "crates")))
    texts = {}
    for p in files(root):
        with open(p, encoding="utf-8") as f:
            texts[p] = f.read()
    names = set()
    for p, t in texts.items():
        if lemma_file(p, root):
            names |= declared(t)
    mapping = {n: snake(n) for n in names | LEMMAS}
    clashes = []
    for p, t in texts.items():
        out = foreign(t, crates)
        here = {k: v for k, v in mapping.items() if k not in out and (k not in LEMMAS or p.endswith(".antt"))}
        if p.endswith(".antt"):
            stripped = re.sub(r"--.*", "", t)
            tokens = set(TOKEN.findall(stripped))
            seen = {}
            for old in sorted(tokens):
                to = here.get(old, old)
                if to in seen and seen[to] != old:
                    clashes.append(f"{p}: {seen[to]} and {old} are both {to}")
                seen[to] = old
        if not look:
            new = turned(t, here, "--" if p.endswith(".antt") else "//" if p.endswith(".rt") else "#!#")
            for a, b in CRATES.items():
                new = re.sub(rf"\bRattle\.{a}(?=\.)", f"Rattle.{b}", new)
                if p.endswith((".rt", ".edit")):
                    new = re.sub(rf"\buse {a}(?=::)", f"use {b}", new)
                    new = re.sub(rf"(?<![\w:]){a}::", f"{b}::", new)
            if new != t:
                with open(p, "w", encoding="utf-8") as f:
                    f.write(new)
    print("\n".join(clashes))
    print(f"{len(mapping)} names, {len(clashes)} places where two fall together")
    if look:
        return 0
    for a, b in CRATES.items():
        os.rename(os.path.join(root, "crates", a), os.path.join(root, "crates", b))
        with open("crates.txt", encoding="utf-8") as f:
            t = f.read()
        with open("crates.txt", "w", encoding="utf-8") as f:
            f.write("\n".join(l if l.startswith("#") else re.sub(rf"(?<![\w]){a}(?![\w])", b, l) for l in t.split("\n")))
    return 0


if __name__ == "__main__":
    raise SystemExit(main(sys.argv[1:]))
