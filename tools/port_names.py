#!/usr/bin/env python3
"""Spells the repository's own definitions and lemmas in snake case, as today's Rattle spells names.

usage: tools/port_names.py [--table] [FOLDER]

FOLDER is a checkout in which the kit's port.py has run (default: this one). A name that begins with a capital stays. In any other, a capital
inside becomes '_' and a small letter, and a dash stays only between two names of definitions of specs/ or of the library's lists; else it becomes
'_'. It turns the code of .antt files, and clauses and ghost items of .rt files. Behind a dot only a record's field turns, or a module's member. It stops where two names would fall together.
Run it once. --table prints each old name, a tab and the new one, and writes nothing.
"""

import os
import re
import sys

W = r"[^\s(){}.;,@\"«»`]+"
DECLARED = re.compile(rf"(?m)^( *)((?:pub |abbrev |unfoldable |data |record |ruleset )*)({W})((?: {W})*?)(?: \{{[^{{}}\n]*\}}| \([^()\n]*\))* :(?= |$)")
OF_THE_LIBRARY = set("length get_or set take drop append map replicate".split())
# Lemmas that would have the name of a definition.
LEMMAS = "by_tests ends_above entry-at first-word map-accepted next_word no_table put-kind second_word table-entry whole-step write-bit".split()
CLAUSE = re.compile(r"(?:requires|ensures)\s*\*?\s*(?:\w+\s*)?\{|ghost\s+\w+\s*:\s*\{")
GHOST_USE = re.compile(r"ghost\s+use\b[^;]*;")
COMMENT = re.compile(r"--[^\n]*")
ALIAS = re.compile(rf"\bas ({W})")


def read(path):
    with open(path, encoding="utf-8") as f:
        return f.read()


def files(root, ending):
    for folder, dirs, names in os.walk(os.path.join(root, "crates")):
        dirs[:] = sorted(d for d in dirs if d != "out")
        for name in sorted(names):
            if name.endswith(ending):
                yield os.path.join(folder, name)


def is_goal(text, name):
    """A name in a proof of a function that only says which of Rattle's own goals it answers."""
    return re.search(rf"(?m)^(?:abbrev )?{re.escape(name)} : (?:tie|goal)\.", text) is not None


def declared(path):
    text = COMMENT.sub("", read(path))
    for m in DECLARED.finditer(text):
        for name in [m[3], *m[4].split()]:
            if name not in ("|", "_", "let", "in", "where", "module", "λ") and not is_goal(text, name):
                yield name, len(m[1]), m[2]


def snake(word):
    word = re.sub(r"(?<=[a-z0-9])([A-Z]+)(?=$|[A-Z][a-z]|[0-9_])", lambda m: "_" + m[0].lower(), word)
    word = re.sub(r"(?<=[a-z0-9])([A-Z])", lambda m: "_" + m[0].lower(), word)
    return re.sub(r"([A-Z])(?=[a-z]|[A-Z0-9]*(?:_|$))", lambda m: m[0].lower(), word)


def spelled(name, definitions):
    if name[:1].isupper() or "◌" in name:
        return name
    parts = name.split("-")
    new = [p if p[:1].isupper() and i > 0 else snake(p) for i, p in enumerate(parts)]
    out = new[0]
    joins_names = True
    for a, b in zip(new, new[1:]):
        joins_names = joins_names and a in definitions and b in definitions and new[-1] != "spec"
        out += ("-" if joins_names else "_") + b
    return out + "_lem" * (name in LEMMAS)


def table(root):
    names, definitions, fields = set(), set(OF_THE_LIBRARY), set()
    for path in files(root, ".antt"):
        of_specs = "/specs/" in path
        for name, indent, words in declared(path):
            names.add(name)
            if of_specs and indent == 0:
                definitions.add(snake(name) if not name[:1].isupper() else name)
            if indent > 0 and "pub" in words:
                fields.add(name)
    rows = {n: spelled(n, definitions) for n in sorted(names)}
    rows = {n: s for n, s in rows.items() if n != s}
    met = {}
    for old, new in rows.items():
        met.setdefault(new, set()).add(old)
    for name in names - set(rows):
        if name in met:
            met[name].add(name)
    clash = {new: olds for new, olds in met.items() if len(olds) > 1}
    return rows, fields, clash


def turned(text, rows, fields, aliases):
    def one(m):
        word = m[0]
        bare = word.rstrip("'′")
        new = rows.get(word) or (rows[bare] + word[len(bare):] if bare in rows else None)
        if new is None:
            return word
        if m.start() and text[m.start() - 1] == ".":
            head = re.search(rf"({W})\.$", text[: m.start()])
            is_module = head is not None and (head[1][:1].isupper() or head[1] in aliases)
            if not is_module and word not in fields:
                return word
        return new

    return re.sub(W, one, text)


def braces(text, start):
    depth = 0
    for at in range(start, len(text)):
        depth += (text[at] == "{") - (text[at] == "}")
        if depth == 0:
            return at + 1
    return len(text)


def turned_file(path, text, rows, fields):
    aliases = {a for a in ALIAS.findall(text) if a not in ("tie", "goal", "lts")}
    if path.endswith(".antt"):
        out, last = [], 0
        for m in COMMENT.finditer(text):
            out += [turned(text[last : m.start()], rows, fields, aliases), m[0]]
            last = m.end()
        return "".join(out) + turned(text[last:], rows, fields, aliases)
    spans = [(m.start(), m.end()) for m in GHOST_USE.finditer(text)]
    spans += [(m.end() - 1, braces(text, m.end() - 1)) for m in CLAUSE.finditer(text)]
    out, last = [], 0
    for a, b in sorted(spans):
        if a >= last:
            out += [text[last:a], turned(text[a:b], rows, fields, aliases)]
            last = b
    return "".join(out) + text[last:]


def meetings(root, rows):
    """Each file in which a new name stands already, beside the old one."""
    for path in [*files(root, ".antt"), *files(root, ".rt")]:
        words = set(re.findall(W, COMMENT.sub("", read(path))))
        for old, new in rows.items():
            if old in words and new in words:
                yield path, old, new


def main(argv):
    args = [a for a in argv if a != "--table"]
    root = args[0] if args else "."
    rows, fields, clash = table(root)
    if "--table" in argv:
        print("".join(f"{old}\t{new}\n" for old, new in sorted(rows.items())), end="")
        return 0
    if clash:
        for new, olds in sorted(clash.items()):
            print(f"port_names: {', '.join(sorted(olds))} would all be {new}", file=sys.stderr)
        return 1
    count = 0
    for path in [*files(root, ".antt"), *files(root, ".rt")]:
        old = read(path)
        new = turned_file(path, old, rows, fields)
        if new != old:
            count += 1
            with open(path, "w", encoding="utf-8") as f:
                f.write(new)
    print(f"port_names: {len(rows)} names, {count} files")
    return 0


if __name__ == "__main__":
    raise SystemExit(main(sys.argv[1:]))
