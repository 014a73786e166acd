"""What tools/stack has to know of x86-64: what an instruction does to the stack pointer and where it leads.

An instruction that is not known here is refused, so that none can move the stack pointer unseen. Text is objdump's, in Intel syntax.
"""
import re

from stack_effects import BRANCH, CALL, JUMP, NEXT, RETURN, STOP, TABLE, Effect, Unreadable

FILE_FORMAT = "elf64-x86-64"
OBJDUMP_OPTIONS = ("-M", "intel")
RETURN_ADDRESS_BYTES = 8
# Where a call leaves the return address: on the stack, which `ret` takes it from.
LINK = None

STACK_POINTER = ("rsp", "esp", "sp", "spl")
WIDE_REGISTERS = {"rax", "rbx", "rcx", "rdx", "rsi", "rdi", "rbp", *(f"r{i}" for i in range(8, 16))}

CONDITIONS = "o no b ae e ne be a s ns p np l ge le g".split()
# Instructions that leave the stack pointer alone unless it is their first operand.
KNOWN = set("""
    mov movabs movzx movsx movsxd movbe lea add adc sub sbb inc dec neg not and or xor cmp test mul imul div idiv cbw cwde cdqe cwd cdq cqo
    shl shr sar sal rol ror rcl rcr shld shrd rorx sarx shlx shrx bt bts btr btc bsf bsr bswap tzcnt lzcnt popcnt andn bextr blsi blsr blsmsk bzhi
    pdep pext adcx adox crc32 nop endbr64 movs stos lods scas cmps lfence mfence sfence pause vzeroupper
    """.split()) | {f"set{c}" for c in CONDITIONS} | {f"cmov{c}" for c in CONDITIONS}
# As above, but they write their second operand too.
EXCHANGES = ("xchg", "xadd", "cmpxchg", "mulx")
JUMPS_ON_CONDITION = {f"j{c}" for c in CONDITIONS} | {"jrcxz", "jecxz"}
# Prefixes, and the instructions on which they change neither width nor flow.
PREFIXES = {"data16": ("nop",), "cs": ("nop",), "lock": KNOWN, "rep": ("movs", "stos", "lods"), "repz": ("scas", "cmps"), "repnz": ("scas", "cmps")}

VECTOR = re.compile(r"[xyz]?mm[0-9]+")
IMMEDIATE = re.compile(r"0x[0-9a-f]+")
DIRECT = re.compile(r"[0-9a-f]+")
MOVED = re.compile(r"\[rsp([+-])(0x[0-9a-f]+)\]")
BELOW = re.compile(r"\[[^\]]*\brsp\b[^\]]*-0x")
RED_ZONE = re.compile(r".*\[rsp-(0x[0-9a-f]+)\]")
RED_ZONE_BYTES = 128
INDEXED = re.compile(r".*\[rsp\+(?:%s)\*[1248]-(0x[0-9a-f]+)\]" % "|".join(sorted(WIDE_REGISTERS)))


def without_comment(text):
    """Without the names that objdump adds to addresses."""
    return re.split("[#<]", text, maxsplit=1)[0]


def parts(text):
    """Mnemonic and operands, without prefixes."""
    words = without_comment(text).split(None, 1)
    mnemonic, rest = words[0], words[1].strip() if len(words) > 1 else ""
    if mnemonic in PREFIXES:
        inner, operands = parts(rest) if rest else ("", [])
        if inner not in PREFIXES[mnemonic]:
            raise Unreadable(f"the prefix {mnemonic}")
        return inner, operands
    return mnemonic, [operand for operand in rest.split(",") if operand]


def signed(immediate):
    value = int(immediate, 16)
    return value - 2**64 if value >= 2**63 else value


def pushed(mnemonic, operand):
    wide = operand in WIDE_REGISTERS or operand.startswith("QWORD PTR [")
    if wide or mnemonic == "push" and (operand == "rsp" or IMMEDIATE.fullmatch(operand)):
        return Effect(NEXT, 8 if mnemonic == "push" else -8)
    raise Unreadable(f"a {mnemonic} that is not known to move the stack pointer by 8 bytes")


def led(mnemonic, operand):
    """A call, a jump or a jump on a condition."""
    direct = DIRECT.fullmatch(operand)
    if mnemonic == "call":
        if not direct:
            raise Unreadable("an indirect call")
        return Effect(CALL, target=int(operand, 16))
    if not direct:
        return Effect(TABLE)
    return Effect(JUMP if mnemonic == "jmp" else BRANCH, target=int(operand, 16))


def moved(mnemonic, operands):
    """An instruction whose first operand is the stack pointer."""
    if operands[0] == "rsp" and len(operands) == 2:
        if mnemonic in ("sub", "add") and IMMEDIATE.fullmatch(operands[1]):
            return Effect(NEXT, signed(operands[1]) * (1 if mnemonic == "sub" else -1))
        place = MOVED.fullmatch(operands[1])
        if mnemonic == "lea" and place:
            return Effect(NEXT, int(place[2], 16) * (1 if place[1] == "-" else -1))
    if mnemonic in ("cmp", "test"):
        return Effect(NEXT)
    raise Unreadable("a write to the stack pointer that does not move it by a constant")


def in_red_zone(mnemonic, operands):
    """A place below the stack pointer, which a function that calls no other may use for 128 bytes; or by an index, from a start that may lie there."""
    indexed = [INDEXED.fullmatch(operand) for operand in operands if BELOW.search(operand)]
    if mnemonic in KNOWN and mnemonic != "lea" and all(indexed):
        return Effect(NEXT, indexed=max(int(place[1], 16) for place in indexed))
    places = [RED_ZONE.fullmatch(operand) for operand in operands if BELOW.search(operand)]
    if mnemonic not in KNOWN or mnemonic == "lea" or not all(places) or any(int(place[1], 16) > RED_ZONE_BYTES for place in places):
        raise Unreadable("a place below the stack pointer")
    return Effect(NEXT, below=max(int(place[1], 16) for place in places))


def effect(instruction):
    mnemonic, operands = parts(instruction.text)
    if mnemonic in ("call", "jmp") or mnemonic in JUMPS_ON_CONDITION:
        return led(mnemonic, operands[0])
    if mnemonic == "ret" and not operands:
        return Effect(RETURN)
    if mnemonic == "ud2":
        return Effect(STOP)
    if operands and operands[0] in STACK_POINTER and mnemonic not in ("push", "pop"):
        return moved(mnemonic, operands)
    if any(BELOW.search(operand) for operand in operands):
        return in_red_zone(mnemonic, operands)
    if mnemonic in ("push", "pop"):
        return pushed(mnemonic, operands[0])
    if mnemonic in EXCHANGES and not any(operand in STACK_POINTER for operand in operands):
        return Effect(NEXT)
    if mnemonic in KNOWN or any(VECTOR.fullmatch(operand) for operand in operands):
        return Effect(NEXT)
    raise Unreadable("an instruction of which it is not known what it does to the stack pointer")


def link_after(_instruction, _depth, link):
    """Where the return address is after an instruction: it stays where it is."""
    return link


def place(instruction, _start=0):
    """The symbol, and the offset from it, that an operand with a relocation means, if it ends the instruction."""
    relocation = instruction.relocation
    if relocation.kind not in ("R_X86_64_PC32", "R_X86_64_PLT32"):
        raise Unreadable(f"the relocation {relocation.kind}")
    return relocation.symbol, relocation.addend + 4


TABLE_ENTRY_BYTES = 4
TABLE_STEPS = (4, 5, 6)
PLAIN_LOAD = re.compile(r"[DQ]WORD PTR \[[^\]]*\]")
IN_FRAME = re.compile(r"[DQ]WORD PTR \[rsp(?:\+0x[0-9a-f]+)?\]")
TABLE_FORM = re.compile(r"lea (?P<base>r\w+),\[rip\+0x0\]\n"
                        r"movsxd (?P<to>r\w+),DWORD PTR \[(?P=base)\+r\w+\*4\]\n"
                        r"add (?P=to),(?P=base)\n"
                        r"jmp (?P=to)")


WHOLE = {**{name: name for name in WIDE_REGISTERS}, **{"e" + name[1:] if name[1].isalpha() else name + "d": name for name in WIDE_REGISTERS}}


def is_aside(text, jump):
    """The instruction loads, moves or clears whole registers, none of which the jump uses."""
    mnemonic, operands = parts(text)
    kept = parts(jump)[1]
    if mnemonic == "mov" and PLAIN_LOAD.fullmatch(operands[1]):
        operands = operands[:1]
    return mnemonic in ("mov", "xor") and all(WHOLE.get(operand, kept[0]) not in kept for operand in operands)


def is_kept_aside(text):
    """The instruction stores a register in the function's frame, and changes none."""
    mnemonic, operands = parts(text)
    return mnemonic == "mov" and IN_FRAME.fullmatch(operands[0]) is not None and operands[1] in WHOLE


def table_base(instructions):
    """Symbol and offset of the table by which the last of these four instructions jumps: entries are distances from the table's start. Before the
    jump two more may stand that have nothing to do with it, and stores among them."""
    instructions = [instruction for instruction in instructions if not is_kept_aside(instruction.text)]
    if all(is_aside(aside.text, instructions[-1].text) for aside in instructions[3:-1]):
        instructions = instructions[:3] + instructions[-1:]
    plain = "\n".join(" ".join(without_comment(i.text).split()) for i in instructions)
    form = TABLE_FORM.fullmatch(plain)
    if not form or form["base"] == form["to"] or not instructions[0].relocation:
        raise Unreadable("an indirect jump that is not the four instructions of a jump table")
    return place(instructions[0])


def table(instructions):
    """The instructions of the table by which the last of these jumps, and its symbol and offset."""
    failed = None
    for count in TABLE_STEPS:
        try:
            return instructions[-count:], table_base(instructions[-count:])
        except Unreadable as unreadable:
            failed = failed or unreadable
    raise failed


def table_entry(relocation, _listed, base, offset):
    """Symbol and offset to which the entry at this offset leads."""
    if relocation is None:
        raise Unreadable(f"the jump table has no address at {offset - base:x}")
    if relocation.kind != "R_X86_64_PC32":
        raise Unreadable(f"a jump table with the relocation {relocation.kind}")
    return relocation.symbol, relocation.addend - (offset - base)
