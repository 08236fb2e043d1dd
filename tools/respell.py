#!/usr/bin/env python3
"""Brings the repository's own names in specs/, proofs/ and clauses to the spelling of today's Rattle: words in snake case, modules in camel case.

usage: respell.py [--check] [ROOT]

A name turns if a file of specs/ or proofs/ declares it (but for a walk's own goals), and no library that the files import has it.
It prints each name that turns, and stops where two names would fall together.
"""
import collections
import os
import re
import sys

TOKEN = re.compile(r"[^\s(){}\[\].;,@\"«»⌜⌝]+")
HEAD = re.compile(r"^(\s*)((?:(?:abbrev|unfoldable|pub|record|data|private)\s+)*)([^\s(){}\[\];,.:λ←→≡]+)(?=[\s{(:])")
COLON = re.compile(r"(?:^|\s):(?:\s|$)")
WORDS = ("let", "use", "module", "where", "in", "elim", "--", "unfolding", "pub", "mod", "open", "infixl", "infixr", "infix")
GENERATED = re.compile(r"^(?:returns|.*-requires|loop-.*|overflow.*|bounds-.*|.*-(?:init|preserved|smaller|holds|again|less))(?:-\d+)?$")
CLAUSE = re.compile(r"(?:requires|ensures)\s*\*?\s*(?:\w+\s*)?\{|ghost\s+(?:\w+\s*(?::\s*)?)?\{")


def files(root):
    for folder, dirs, names in os.walk(os.path.join(root, "crates")):
        dirs[:] = sorted(d for d in dirs if d not in ("out", "target"))
        for name in sorted(names):
            if name.endswith((".antt", ".rt")):
                yield os.path.join(folder, name)


def code(text):
    return re.sub(r"--[^\n]*", "", text)


def walk(path):
    return os.path.basename(path) in ("Proof.antt", "Answers.antt", "Invariants.antt")


def declared(path, text):
    """The names that a file declares at its top, in a section or in a record."""
    for line in code(text).split("\n"):
        m = HEAD.match(line)
        if m and COLON.search(line[m.end():]) and m.group(3) not in WORDS and not line.lstrip().startswith(("let ", "use ", "module ", "pub use ", "λ", "(", "elim ")):
            yield m.group(3), line


def imported(text):
    """The names that a file brings from other libraries than this repository's."""
    for module, items in re.findall(r"^\s*(?:pub )?(?:ghost )?use (\S+?)\.\{([^}]*)\};?", text, re.M):
        own = re.match(r"Rattle\.(\w+)\.", module)
        for item in items.split(","):
            there, _, here = item.strip().partition(" as ")
            yield there, bool(own and own.group(1) not in ("std", "core"))


def turned(name):
    if not re.match(r"^[+]?[a-zα-ω]", name) or not re.search(r"[A-Z-]", name):
        return name
    if re.search(r"[◌+*/%^<>≤≡]", name):
        return name
    new = re.sub(r"(?<=[a-z0-9])([A-Z])", lambda m: "_" + m.group(1), name)
    return re.sub(r"[-_]+", "_", new).lower()


def table(root):
    names, foreign, heads = collections.defaultdict(set), set(), {}
    for path in files(root):
        text = open(path, encoding="utf-8").read()
        for there, own in imported(text):
            if not own:
                foreign.add(there)
        if path.endswith(".antt"):
            for name, line in declared(path, text):
                if walk(path) and re.search(r"\btie\.(?:Need-|invariant|decreases)|goal\.|-lts\.Need-", line):
                    continue
                if walk(path):
                    continue
                names[name].add(path)
    rows = {}
    for name in names:
        new = turned(name)
        if new != name and name not in foreign and not GENERATED.match(name):
            rows[name] = new
    # names that fall together
    back = collections.defaultdict(set)
    for old, new in rows.items():
        back[new].add(old)
    clash = []
    for new, olds in back.items():
        if len(olds) > 1 or new in names or new in foreign:
            clash.append((new, sorted(olds), new in names, new in foreign))
    return rows, clash, names


def swap(text, rows):
    def one(m):
        return rows.get(m.group(0), m.group(0))
    return TOKEN.sub(one, text)


def in_antt(text, rows):
    lines = []
    for line in text.split("\n"):
        at = line.find("--")
        while at > 0 and line[at - 1] not in " \t":
            at = line.find("--", at + 2)
        if at >= 0:
            body, note = line[:at], line[at:]
            note = re.sub(r"`([^`]*)`", lambda m: "`" + swap(m.group(1), rows) + "`", note)
            lines.append(swap(body, rows) + note)
        else:
            lines.append(swap(line, rows))
    return "\n".join(lines)


def spans(text):
    """The clauses and ghost uses of a source file."""
    for m in re.finditer(r"ghost\s+use\b[^;]*;", text):
        yield m.span()
    for m in CLAUSE.finditer(text):
        depth, i = 1, m.end()
        while depth and i < len(text):
            depth += {"{": 1, "}": -1}.get(text[i], 0)
            i += 1
        yield m.end(), i


def in_rt(text, rows):
    out, last = [], 0
    for a, b in sorted(set(spans(text))):
        if a < last:
            continue
        out += [text[last:a], swap(text[a:b], rows)]
        last = b
    return "".join(out) + text[last:]


def joins(rows, clash, names):
    """Where names would fall together the definition has the plain name, and the lemma `_lem` behind it."""
    for new, olds, taken, foreign in clash:
        plain = [o for o in olds if "-" not in o]
        for old in olds:
            if old not in plain or foreign or len(plain) > 1:
                rows[old] = new + "_lem"
        if plain and taken:
            crates = {p.split("/crates/")[1].split("/")[0] for o in plain for p in names[o]}
            if any(plain[0] in open(p, encoding="utf-8").read() for p in names[new]) or crates & {p.split("/crates/")[1].split("/")[0] for p in names[new]}:
                rows[new] = new + "_lem"


def modules(root):
    """The module `inner` of specs/ is `Inner`."""
    for folder, dirs, names in os.walk(os.path.join(root, "crates")):
        if os.path.basename(folder) == "specs":
            for name in ("inner", "inner.antt"):
                if name in dirs + names:
                    os.rename(os.path.join(folder, name), os.path.join(folder, name[0].upper() + name[1:]))
    for path in files(root):
        text = open(path, encoding="utf-8").read()
        new = re.sub(r"(Rattle\.\w+\.specs)\.inner\b", r"\1.Inner", text)
        if "/specs/Lib.antt" in path:
            new = re.sub(r"^pub mod inner$", "pub mod Inner", new, flags=re.M)
        if new != text:
            open(path, "w", encoding="utf-8").write(new)


def main():
    args = [a for a in sys.argv[1:] if a != "--check"]
    root = args[0] if args else "."
    rows, clash, names = table(root)
    joins(rows, clash, names)
    for old in sorted(rows):
        print(f"{old} -> {rows[old]}")
    if "--check" in sys.argv:
        return
    for path in files(root):
        text = open(path, encoding="utf-8").read()
        new = in_antt(text, rows) if path.endswith(".antt") else in_rt(text, rows)
        if new != text:
            open(path, "w", encoding="utf-8").write(new)
    modules(root)


if __name__ == "__main__":
    main()
