#!/usr/bin/env python3
"""Holds an archive for ARMv7 against the form that a hypervisor can link, and says what it exports and needs.

It exports what the archive for x86-64 exports. It is for ARM with the lowest byte first and has no Thumb code. Its attributes, which the compiler writes,
say that it was compiled for ARMv7-A and for no floating-point or vector unit, that it goes with both ways of passing floating-point numbers, and of
accesses that are not aligned what they are to say (None, or v6). Relocations are all relative to the place that is relocated, so that the code can lie
anywhere. No section is writable. No symbol is undefined but memcpy, memmove and memset.

usage: tools/armv7_form.py ARCHIVE ARCHIVE-FOR-X86-64 UNALIGNED-ACCESS

Exit status: 0; 1 if the archive has another form, or cannot be read; 2 for bad usage.
"""
import re
import sys
from pathlib import Path

sys.dont_write_bytecode = True
from archives import Refused, printed  # noqa: E402

ALLOWED_UNDEFINED = {"memcpy", "memmove", "memset"}
RELATIVE = {"R_ARM_CALL", "R_ARM_JUMP24", "R_ARM_REL32", "R_ARM_PREL31"}
ATTRIBUTES = {"Tag_CPU_arch": "v7", "Tag_CPU_arch_profile": "Application", "Tag_ABI_VFP_args": "compatible"}
UNITS = ("Tag_FP_arch", "Tag_Advanced_SIMD_arch")

SYMBOL = re.compile(r" *[0-9]+: [0-9a-f]+ +\S+ +(?P<kind>\S+) +(?P<binding>GLOBAL|WEAK) +\S+ +(?P<section>\S+) (?P<name>\S.*)")
SECTION = re.compile(r" *\[ *[0-9]+\] .* [0-9a-f]{6,} [0-9a-f]{6,} [0-9a-f]{2} +(?P<flags>[A-Za-z]*) +[0-9]+ +[0-9]+ +[0-9]+")
RELOCATION = re.compile(r"[0-9a-f]{8} +[0-9a-f]{8} (\S+).*")
ATTRIBUTE = re.compile(r" *(Tag_\w+): (.*)")
MACHINE = re.compile(r" *(?:Machine|Data): +(.*)")
ARM = {"ARM", "2's complement, little endian"}
# What marks the start of Thumb code.
THUMB = re.compile(r".* \$t(?:\.\S*)?")


def readelf(path, *options):
    lines, said = printed("readelf", "-W", *options, str(path))
    if said:
        raise Refused(said)
    return lines


def matches(form, lines):
    return [match for match in map(form.fullmatch, lines) if match]


def symbols(path):
    """The names that an archive defines, and those that it leaves undefined."""
    found = matches(SYMBOL, readelf(path, "-s"))
    defined = {match["name"] for match in found if match["section"] != "UND"}
    return defined, {match["name"] for match in found} - defined


def check_attributes(path, unaligned):
    said = {}
    for match in matches(ATTRIBUTE, readelf(path, "-A")):
        said.setdefault(match[1], match[2])
    for name, value in (ATTRIBUTES | {"Tag_CPU_unaligned_access": unaligned}).items():
        if said.get(name) != value:
            raise Refused(f"{name} is {said.get(name, 'not given')}, not {value}")
    if units := [name for name in UNITS if name in said]:
        raise Refused(f"it has {units[0]}: {said[units[0]]}")


def check_machine(path):
    machines = {match[1] for match in matches(MACHINE, readelf(path, "-h"))}
    if machines != ARM:
        raise Refused(f"it is for {'; '.join(sorted(machines)) or 'no machine'}, not for {'; '.join(sorted(ARM))}")
    if matches(THUMB, readelf(path, "-s")):
        raise Refused("it has Thumb code")


def check_relocations(path):
    kinds = {match[1] for match in matches(RELOCATION, readelf(path, "-r"))}
    if other := sorted(kinds - RELATIVE):
        raise Refused(f"the relocation {other[0]} is none of the known ones that are relative to their own place")


def check_sections(path):
    sections = matches(SECTION, readelf(path, "-S"))
    if not sections:
        raise Refused("it has no sections")
    if any("W" in match["flags"] for match in sections):
        raise Refused("a section is writable")


def check(path, other, unaligned):
    """The exports and the undefined symbols of an archive of the right form."""
    check_machine(path)
    check_attributes(path, unaligned)
    check_relocations(path)
    check_sections(path)
    (defined, undefined), (expected, _) = symbols(path), symbols(other)
    if defined != expected:
        raise Refused(f"it exports {', '.join(sorted(defined))}, and {other} {', '.join(sorted(expected))}")
    if more := sorted(undefined - ALLOWED_UNDEFINED):
        raise Refused(f"{more[0]} is undefined")
    return defined, undefined


def main():
    if len(sys.argv) != 4:
        print(__doc__, file=sys.stderr)
        return 2
    path, other, unaligned = sys.argv[1:]
    try:
        defined, undefined = check(path, other, unaligned)
    except Refused as refused:
        print(f"tools/armv7: {path}: {refused}", file=sys.stderr)
        return 1
    print(f"{Path(path).name}: exports: {len(defined)}; undefined: {', '.join(sorted(undefined)) or 'none'}")
    return 0


if __name__ == "__main__":
    sys.exit(main())
