#!/usr/bin/env python3
"""Prints the tables of docs/MEASURES.md. The argument is a file with what .ci/run printed, for the seconds of each check, where rt says them."""
import re
import sys
from pathlib import Path

ROOT = Path(__file__).resolve().parent.parent


def lines(files):
    """Lines that are neither blank nor a comment."""
    texts = (f.read_text(encoding="utf8").split("\n") for f in files)
    return sum(1 for text in texts for l in text if l.strip() and not l.strip().startswith(("//", "--")))


def measure(crate, log):
    here = ROOT / "crates" / crate
    code = sorted(here.glob("src/**/*.rt"))
    functions = sum(len(re.findall(r"^\s*(?:pub )?(?:extern \"C\" )?fn ", f.read_text(encoding="utf8"), re.M)) for f in code)
    seconds = re.search(rf"^rt: {crate} proved \((\d+) s\)", log, re.M)
    return (
        functions,
        lines(code),
        lines(here.glob("specs/**/*.antt")),
        lines(here.glob("proofs/**/*.antt")),
        len(list(here.glob("must-fail/*.edit"))),
        seconds.group(1) if seconds else "",
    )


# Definitions to believe: for the promises of the calls, the theorem over lists and its claim about every caller, beyond that, and what only inner functions owe each other.
THEOREM = ("words", "signature", "entries", "rules", "monitor")
BEYOND = ("steps", "lines", "transcript", "pagemon")
INNER_FILES = ("signature/specs/Needs.antt", "entries/specs/Needs.antt", "transcript/specs/Needs.antt")
BEYOND_FILES = ("rules/specs/Box.antt", "rules/specs/Policies.antt")


def group(name, crate):
    if name in INNER_FILES:
        return 2
    if crate in BEYOND or name in BEYOND_FILES:
        return 1
    return 0 if crate in THEOREM else 2


def main():
    log = Path(sys.argv[1]).read_text(encoding="utf8") if len(sys.argv) > 1 else ""
    crates = re.findall(r"^(\w+)[^:#\n]*:", (ROOT / "crates.txt").read_text(encoding="utf8"), re.M)
    print("| crate | functions | code | definitions | proofs | must-fail edits | seconds |")
    print("|---|---|---|---|---|---|---|")
    rows = {crate: measure(crate, log) for crate in crates}
    for crate, row in rows.items():
        print(f"| {crate} | " + " | ".join(str(x) for x in row) + " |")
    print("| all | " + " | ".join(str(sum(r[i] for r in rows.values())) for i in range(5)) + " | |")
    groups = ([], [], [])
    for crate in crates:
        for f in sorted((ROOT / "crates" / crate).glob("specs/**/*.antt")):
            name = str(f.relative_to(ROOT / "crates"))
            if f.name != "Lib.antt":
                groups[group(name, crate)].append((name, lines([f])))
    titles = ("definitions up to the theorem over lists, the signature included", "definitions for the box, the runner, the program and the policies", "definitions of what inner functions owe each other")
    for title, files in zip(titles, groups):
        print()
        print(f"| {title} | lines |")
        print("|---|---|")
        for name, count in files:
            print(f"| {name} | {count} |")
        print(f"| together | {sum(count for _, count in files)} |")


main()
