#!/usr/bin/env python3
"""Holds an LLVM module against what is the same on x86-64 and on ARMv7, and writes it anew for ARMv7.

The back end lays out memory itself: a slice is an address at byte 0 and a length of 64 bits at byte 8, and in every layout eight bytes are kept for an
address. So the module means the same on both targets, if an address is never looked at as a number: ARMv7 stores four of the eight bytes, and where
an address stands alone (`alloca ptr`) it keeps no more than four. Two things are held against it, and what is not understood is refused.

Forms: each line is one of the forms below. Every type, instruction, attribute and intrinsic that occurs is named there. None of them turns an
address into a number or back, but that an export asks whether it is lent C's null, which is the address 0 on both, and none belongs to one target.

Places: no place in memory holds an address at one time and a number at another. Memory is divided into regions, one for each `alloca`, each parameter
and each stored address. Regions that a copy, a call or a store of an address may make the same are taken for one. In each, the bytes that are loaded
and stored as addresses are compared with those that are loaded, stored or cleared as numbers (but where all of a local is cleared before it is used), and no copy takes a part of an address. An address that
stands alone is loaded and stored, and nothing else. What C lends holds no address.

usage: tools/portable.py MODULE TARGET

Prints the text of MODULE with the triple and the data layout of TARGET, a module that clang wrote for ARMv7. Exit status: 0; 1 if the module is
refused; 2 for bad usage.
"""
import re
import sys
from pathlib import Path

sys.dont_write_bytecode = True
from archives import Refused  # noqa: E402

LAYOUT = "e-m:e-p270:32:32-p271:32:32-p272:64:64-i64:64-i128:128-f80:128-n8:16:32:64-S128"
TRIPLE = "x86_64-unknown-linux-gnu"
TARGET_ATTRIBUTES = ' "probe-stack"="inline-asm" "stack-probe-size"="3072" "target-cpu"="x86-64-v2"'
ADDRESS_BYTES = 8
MOST_ALIGNMENT = 8


# ---- forms

NUMBER = r"i(?:1|8|16|32|64)"
TYPE = rf"(?:{NUMBER}|ptr)"
# What a function of the module returns to another: two numbers, laid out alike on both targets.
PAIR = r"\{ (?:i8, i(?:8|32|64)|i32, i(?:8|32)|i64, i64) \}"
NAME = r"%[a-z]+\.?[0-9]*"
FUNCTION = r'@(?:"[^"\\]+"|\w+)'
CONSTANT = r"(?:-?[0-9]+|true|false)"
VALUE = rf"(?:{NAME}|{CONSTANT})"
LABEL = r"[a-z]+(?:\.[0-9]+)?"
CONSTANT_NAME = r"@static\.[0-9]+"
ARGUMENT = rf"{TYPE} {VALUE}"
ALIGN = r"align (?P<align>[0-9]+)"

INSTRUCTIONS = {kind: re.compile(form) for kind, form in {
    "alloca": rf"(?P<to>{NAME}) = alloca (?P<type>{TYPE}|\[[0-9]{{1,6}} x i8\]), {ALIGN}",
    "load": rf"(?P<to>{NAME}) = load (?P<type>{TYPE}), ptr (?P<at>{NAME}), {ALIGN}(?:, !range !2)?(?:, !noundef !1)?",
    "pair": rf"{NAME} = load (?P<type>{PAIR}), ptr (?P<at>{NAME}), {ALIGN}",
    "part": rf"{NAME} = extractvalue {PAIR} {NAME}, [01]",
    "store": rf"store (?P<type>{TYPE}) (?P<value>{VALUE}|{CONSTANT_NAME}), ptr (?P<at>{NAME}), {ALIGN}",
    "element": rf"(?P<to>{NAME}) = getelementptr (?:inbounds nuw )?i8, ptr (?P<at>{NAME}), i64 (?P<value>{VALUE})",
    "arithmetic": rf"{NAME} = (?:add|sub|mul|udiv|urem|and|or|xor|shl|lshr) (?:nuw )?{NUMBER} {VALUE}, {VALUE}",
    "comparison": rf"{NAME} = icmp (?:eq|ne|ult|ule) {NUMBER} {VALUE}, {VALUE}",
    "null": rf"{NAME} = icmp eq ptr {NAME}, null",
    "conversion": rf"{NAME} = (?:zext|trunc|trunc nuw) {NUMBER} {VALUE} to {NUMBER}",
    "move": rf"call void @llvm\.memmove\.p0\.p0\.i64\(ptr (?P<at>{NAME}), ptr (?P<value>{NAME}), i64 (?P<bytes>{VALUE}), i1 false\)",
    "set": rf"call void @llvm\.memset\.p0\.i64\(ptr (?P<at>{NAME}), i8 (?P<value>{VALUE}), i64 (?P<bytes>{VALUE}), i1 false\)",
    "trap": r"call void @llvm\.trap\(\)",
    "call": rf"(?:{NAME} = )?call (?P<result>void|{NUMBER}|{PAIR}) (?P<callee>{FUNCTION})\((?P<arguments>(?:{ARGUMENT}(?:, {ARGUMENT})*)?)\)",
    "branch": rf"br (?:label %{LABEL}|i1 {VALUE}, label %{LABEL}, label %{LABEL})",
    "switch": rf"switch {NUMBER} {VALUE}, label %{LABEL} \[",
    "arm": rf"{NUMBER} -?[0-9]+, label %{LABEL}",
    "arms": r"\]",
    "return": rf"ret (?:void|{NUMBER} {VALUE}|{PAIR} {NAME})",
    "unreachable": "unreachable",
    "label": rf"{LABEL}:",
    "end": r"\}",
}.items()}

PARAMETER = rf"{TYPE} (?:noundef )?(?:zeroext )?{NAME}"
# Bytes that nothing writes.
STATIC = re.compile(rf'(?P<name>{CONSTANT_NAME}) = private unnamed_addr constant \[(?P<bytes>[0-9]{{1,6}}) x i8\] c"(?:[^"\\]|\\[0-9A-F]{{2}})*", align 1')
# A result or parameter that is not noundef may have no value, as what stands beside None. #1, where it is, asks that a function be compiled into its callers.
DEFINITION = re.compile(rf"define (?P<internal>internal )?(?P<result>void|(?:noundef )?(?:{NUMBER}|{PAIR})|noundef zeroext i1) (?P<name>{FUNCTION})"
                        rf"\((?P<parameters>(?:{PARAMETER}(?:, {PARAMETER})*)?)\) #[01] \{{")
# What C and the archive agree on in both calling conventions: addresses, words of 32 and 64 bits, and a bool. The names are none of a compiler's own.
EXPORTED = re.compile(r"(?:ptr|i32|i64) noundef %a[0-9]+")
EXPORTED_NAME = re.compile(r"@(?:pagemon|signature)_\w+")
EXPORTED_RESULTS = ("void", "noundef i32", "noundef i64", "noundef zeroext i1")

OUTSIDE = [re.compile(form) for form in (
    r'source_filename = "rattle"',
    r"declare void @llvm\.memmove\.p0\.p0\.i64\(ptr writeonly captures\(none\), ptr readonly captures\(none\), i64, i1 immarg\) #[0-9]",
    r"declare void @llvm\.memset\.p0\.i64\(ptr writeonly captures\(none\), i8, i64, i1 immarg\) #[0-9]",
    r"declare void @llvm\.trap\(\) #[0-9]",
    rf"attributes #0 = \{{ nounwind{re.escape(TARGET_ATTRIBUTES)} \}}",
    rf"attributes #1 = \{{ inlinehint nounwind{re.escape(TARGET_ATTRIBUTES)} \}}",
    r"attributes #[1-9] = \{ cold noreturn nounwind memory\(inaccessiblemem: write\) \}",
    r"attributes #[1-9] = \{ nocallback nofree nounwind willreturn memory\(argmem: (?:readwrite|write)\) \}",
    r"!llvm\.ident = !\{!0\}",
    r'!0 = !\{!"rattle logic=[0-9a-f]{64}"\}',
    r"!1 = !\{\}",
    r"!2 = !\{i8 0, i8 2\}",
)]


def lines_of(text):
    """The lines that are neither blank nor comments, with their numbers."""
    for number, line in enumerate(text.splitlines(), 1):
        line = line.strip() if line.startswith("@") else re.sub(r" *;.*", "", line).strip()
        if line:
            yield number, line


def read_instruction(line):
    """The kind of an instruction, and its parts."""
    for kind, form in INSTRUCTIONS.items():
        if match := form.fullmatch(line):
            if int(match.groupdict().get("align") or 1) > MOST_ALIGNMENT:
                raise Refused("an alignment of more than 8 bytes")
            return kind, match
    raise Refused("no form that is the same on both targets")


# ---- places

def size_of(type_):
    return ADDRESS_BYTES if type_ == "ptr" else (int(type_[1:]) + 7) // 8


def pair_size(type_):
    """The second number of a pair begins at a multiple of its size, which for none is more than 8 bytes: so on both targets."""
    first, second = map(size_of, re.findall(r"i[0-9]+", type_))
    return 2 * max(first, second)


class Region:
    """A part of memory: which of its bytes are used as numbers, and what the addresses in it lead to. `loose`: where its start lies is not known."""

    def __init__(self):
        self.within, self.offset = None, 0
        self.numbers, self.addresses = set(), {}
        self.numbers_anywhere = self.loose = False


def found(region):
    """The region within which this one lies, and its offset there."""
    offset = 0
    while region.within:
        offset, region = offset + region.offset, region.within
    return region, offset


def join(one, two, distance):
    """Takes two regions for one: the second begins `distance` bytes behind the first, or, if that is None, nobody knows where."""
    pending = [(one, two, distance)]
    while pending:
        one, two, distance = pending.pop()
        (first, before), (second, behind) = found(one), found(two)
        shift = None if distance is None else before + distance - behind
        if first is second:
            first.loose |= shift != 0
            continue
        second.within, second.offset = first, shift or 0
        first.loose |= second.loose or shift is None
        first.numbers_anywhere |= second.numbers_anywhere
        first.numbers |= {(at + second.offset, size) for at, size in second.numbers}
        for at, target in second.addresses.items():
            at += second.offset
            if at in first.addresses:
                pending.append((first.addresses[at], target, None))
            first.addresses.setdefault(at, target)


def overlap(address, start, size):
    """Do these bytes share one with the address at this place?"""
    return start < address + ADDRESS_BYTES and address < start + size


class Places:
    """The regions of a module. A place is a region and an offset, which is None where it is not constant."""

    def __init__(self):
        self.parameters, self.locals, self.alone, self.moves = {}, {}, set(), []
        self.unused, self.constants, self.internal = {}, {}, False

    def enter(self, name, parameters, internal):
        """Starts a function: its parameters are places. What leads to memory that holds an address is kept by functions that are no export alone."""
        self.alone, self.unused, self.internal = set(), {}, internal
        self.locals = {parameter: (self.parameter(name, index), 0) for index, (type_, parameter) in enumerate(parameters) if type_ == "ptr"}

    def parameter(self, name, index):
        return self.parameters.setdefault((name, index), Region())

    def place(self, value, type_=None):
        """The place of a value. Where an address stands alone, nothing but an address is loaded and stored."""
        if value in self.constants:
            return self.constants[value], 0
        if value not in self.locals:
            raise Refused(f"{value} is no place")
        if value in self.alone and type_ != "ptr":
            raise Refused("the place of an address alone is used as another")
        return self.locals[value]

    def use(self, place, size):
        """Bytes at a place are numbers."""
        region, before = found(place[0])
        if place[1] is None or size is None:
            region.numbers_anywhere = True
        else:
            region.numbers.add((before + place[1], size))

    def target(self, place):
        """The region to which the address at a place leads."""
        if place[1] is None:
            raise Refused("an address at a place that is not constant")
        region, before = found(place[0])
        return region.addresses.setdefault(before + place[1], Region())

    def same(self, one, two):
        """Bytes are copied from one place to the other."""
        known = one[1] is not None and two[1] is not None
        join(one[0], two[0], one[1] - two[1] if known else None)

    def follow(self, kind, parts):
        """What an instruction says of places."""
        follower = getattr(self, f"follow_{kind}", None)
        if follower:
            follower(parts)
        self.keep_unused(kind, parts)

    def keep_unused(self, kind, parts):
        """Notes which locals no instruction has named since they were made, in one block."""
        if kind == "label":
            self.unused = {}
        for name in re.findall(NAME, parts.group()):
            self.unused.pop(name, None)
        if kind == "alloca":
            self.unused[parts["to"]] = parts["type"]

    def follow_pair(self, parts):
        self.use(self.place(parts["at"]), pair_size(parts["type"]))

    def follow_alloca(self, parts):
        self.locals[parts["to"]] = Region(), 0
        if parts["type"] == "ptr":
            self.alone.add(parts["to"])

    def follow_element(self, parts):
        region, offset = self.place(parts["at"])
        constant = parts["value"].isdecimal() and offset is not None
        self.locals[parts["to"]] = region, offset + int(parts["value"]) if constant else None

    def follow_load(self, parts):
        place = self.place(parts["at"], parts["type"])
        if parts["type"] == "ptr":
            self.locals[parts["to"]] = self.target(place), 0 if self.internal else None
        else:
            self.use(place, size_of(parts["type"]))

    def follow_store(self, parts):
        place = self.place(parts["at"], parts["type"])
        if parts["type"] == "ptr":
            region, offset = self.place(parts["value"])
            join(self.target(place), region, -offset if self.internal and offset is not None else None)
        else:
            self.use(place, size_of(parts["type"]))

    def follow_move(self, parts):
        to, from_ = self.place(parts["at"]), self.place(parts["value"])
        self.same(to, from_)
        self.moves.append((from_, int(parts["bytes"]) if parts["bytes"].isdecimal() else None))

    def follow_set(self, parts):
        place = self.place(parts["at"])
        if not self.is_made_of_zeros(parts):
            self.use(place, int(parts["bytes"]) if parts["bytes"].isdecimal() else None)

    def is_made_of_zeros(self, parts):
        """Is all of a local cleared before it is used? Each of its bytes is then 0, and an address of them null, on both targets."""
        return parts["value"] == "0" and self.unused.get(parts["at"]) == f"[{parts['bytes']} x i8]"

    def follow_call(self, parts):
        for index, argument in enumerate(filter(None, parts["arguments"].split(", "))):
            type_, value = argument.split(" ")
            if type_ == "ptr":
                self.same((self.parameter(parts["callee"], index), 0), self.place(value))

    def check(self, regions):
        """No region has an address and a number at one place."""
        for region in {found(region)[0] for region in regions}:
            if region.addresses and (region.loose or region.numbers_anywhere):
                raise Refused("memory that holds an address is reached at a place that is not constant")
            for at in region.addresses:
                if at % ADDRESS_BYTES:
                    raise Refused("an address at a place that is no multiple of 8")
                if any(overlap(at, start, size) for start, size in region.numbers):
                    raise Refused("a place that holds an address is also used as a number")
        for (region, offset), size in self.moves:
            self.check_move(*found(region), offset, size)

    def check_move(self, region, before, offset, size):
        """What is copied holds whole addresses."""
        for at in region.addresses:
            if size is None or offset is None:
                raise Refused("memory that holds an address is copied in a length that is not constant")
            if overlap(at, before + offset, size) and not before + offset <= at <= before + offset + size - ADDRESS_BYTES:
                raise Refused("a copy of a part of an address")


# ---- the module

def parameters_of(definition):
    words = filter(None, definition["parameters"].split(", "))
    return [(word.split(" ")[0], word.split(" ")[-1]) for word in words]


def check_export(definition):
    if not EXPORTED_NAME.fullmatch(definition["name"]):
        raise Refused("an export that is not named as the monitor's are")
    words = filter(None, definition["parameters"].split(", "))
    if definition["result"] not in EXPORTED_RESULTS or not all(EXPORTED.fullmatch(word) for word in words):
        raise Refused("an export with a type on which the calling conventions may differ")


class Reader:
    """Reads a module line by line."""

    def __init__(self):
        self.places, self.inside, self.regions, self.defined, self.called, self.exports, self.lent = Places(), False, [], {}, set(), [], []

    def read(self, line):
        if self.inside:
            self.read_inside(*read_instruction(line))
        elif definition := DEFINITION.fullmatch(line):
            self.start(definition)
        elif static := STATIC.fullmatch(line):
            region = self.places.constants.setdefault(static["name"], Region())
            self.places.use((region, 0), int(static["bytes"]))
        elif line not in (f'target datalayout = "{LAYOUT}"', f'target triple = "{TRIPLE}"') and not any(form.fullmatch(line) for form in OUTSIDE):
            raise Refused("no form that is the same on both targets")

    def start(self, definition):
        self.inside = True
        parameters = parameters_of(definition)
        self.defined[definition["name"]] = re.sub("noundef |zeroext ", "", definition["result"]), tuple(type_ for type_, _ in parameters)
        if not definition["internal"]:
            check_export(definition)
            self.exports.append(definition["name"].lstrip("@"))
        self.places.enter(definition["name"], parameters, definition["internal"])
        if not definition["internal"]:
            self.lent.extend(region for region, _ in self.places.locals.values())

    def read_inside(self, kind, parts):
        if kind == "call":
            types = tuple(argument.split(" ")[0] for argument in parts["arguments"].split(", ") if argument)
            self.called.add((parts["callee"], parts["result"], types))
        if kind == "end":
            self.inside = False
            self.regions.extend(region for region, _ in self.places.locals.values())
        else:
            self.places.follow(kind, parts)

    def finish(self):
        for callee, result, types in sorted(self.called):
            if self.defined.get(callee) != (result, types):
                raise Refused(f"a call of {callee}, which the module does not define with these types")
        self.places.check([*self.regions, *self.places.parameters.values(), *self.places.constants.values()])
        if any(found(region)[0].addresses for region in self.lent):
            raise Refused("an address in memory that an export is lent")


def check(text):
    """The exports of a module that is the same on both targets. What is not is refused, with its line."""
    reader = Reader()
    for number, line in lines_of(text):
        try:
            reader.read(line)
        except Refused as refused:
            raise Refused(f"line {number}: {line}: {refused}") from refused
    reader.finish()
    return reader.exports


def replaced(text, old, new, times=(1,)):
    if text.count(old) not in times:
        raise Refused(f"{old.strip()} stands there {text.count(old)} times")
    return text.replace(old, new)


def retargeted(text, layout, triple):
    """The module for ARMv7: another data layout and triple, and no attributes that belong to x86-64. No function passes a floating-point number, so
    the module says that it goes with both ways of passing them."""
    text = replaced(text, f'target datalayout = "{LAYOUT}"\n', f'target datalayout = "{layout}"\n')
    text = replaced(text, f'target triple = "{TRIPLE}"\n', f'target triple = "{triple}"\n\nmodule asm ".eabi_attribute Tag_ABI_VFP_args, 3"\n')
    return replaced(text, TARGET_ATTRIBUTES, "", (1, 2))


def target_of(text):
    """The data layout and the triple that a module names."""
    said = dict(re.findall(r'^target (datalayout|triple) = "(.*)"$', text, re.M))
    if set(said) != {"datalayout", "triple"}:
        raise Refused("it names no target")
    return said["datalayout"], said["triple"]


def main():
    if len(sys.argv) != 3:
        print(__doc__, file=sys.stderr)
        return 2
    module, target = (Path(word).read_text(encoding="utf8") for word in sys.argv[1:])
    try:
        check(module)
        sys.stdout.write(retargeted(module, *target_of(target)))
    except Refused as refused:
        print(f"tools/armv7: {sys.argv[1]}: {refused}", file=sys.stderr)
        return 1
    return 0


if __name__ == "__main__":
    sys.exit(main())
