"""What tools/stack has to know of ARMv7: what an instruction of A32 does to the stack pointer and where it leads.

Only core instructions are known here, and any other is refused: none can move the stack pointer unseen, and none uses a register of VFP or NEON. Text
is objdump's.
"""
import re
from dataclasses import dataclass, replace

from stack_effects import BRANCH, CALL, CONDITIONAL_RETURN, JUMP, NEXT, RETURN, STOP, TABLE, Effect, Unreadable

FILE_FORMAT = "elf32-littlearm"
OBJDUMP_OPTIONS = ()
RETURN_ADDRESS_BYTES = 0
INSTRUCTION_BYTES = WORD_BYTES = 4
# Where a call leaves the return address.
LINK = "lr"

REGISTERS = [*(f"r{i}" for i in range(10)), "sl", "fp", "ip", "sp", "lr", "pc"]

CONDITIONS = "eq ne cs cc mi pl vs vc hi ls ge lt gt le".split()
LONG_PRODUCTS = {"umull", "umlal", "smull", "smlal"}
WITH_FLAGS = set("and eor sub rsb add adc sbc rsc orr bic mov mvn lsl lsr asr ror rrx mul mla".split()) | LONG_PRODUCTS
# Instructions that write their first operand, long products their second too.
COMPUTING = WITH_FLAGS | set("""
    movw movt mls sdiv udiv clz rbit rev rev16 revsh uxtb uxth sxtb sxth uxtab uxtah sxtab sxtah ubfx sbfx bfi bfc pkhbt pkhtb ssat usat
    """.split())
# Those that write no register.
COMPARING = {"cmp", "cmn", "tst", "teq", "nop"}
LOADING, STORING = {"ldr", "ldrb", "ldrh", "ldrsb", "ldrsh", "ldrd"}, {"str", "strb", "strh", "strd"}
MULTIPLE = {f"{way}{mode}" for way in ("ldm", "stm") for mode in ("ia", "ib", "da", "db")}
LEADING, STOPPING = {"b", "bl", "bx", "blx"}, {"udf"}
# Other names of instructions with several registers, and the operand that two of them leave out.
OTHER_NAMES = {"push": "stmdb", "pop": "ldmia", "ldm": "ldmia", "ldmfd": "ldmia", "stm": "stmia", "stmfd": "stmdb"}
LEFT_OUT = {"push": ["sp!"], "pop": ["sp!"]}
# By mnemonic: the name, whether flags are set, and the condition.
MNEMONICS = {f"{name}{flags}{condition}": (name, flags == "s", condition)
             for name in COMPUTING | COMPARING | LOADING | STORING | MULTIPLE | LEADING | STOPPING | OTHER_NAMES.keys()
             for flags in (("", "s") if name in WITH_FLAGS else ("",)) for condition in ("", *CONDITIONS)}

SEPARATOR = re.compile(r", *(?![^\[{]*[\]}])")
DIRECT = re.compile(r"[0-9a-f]+")
NUMBER = re.compile(r"#(\d+)")
LIST = re.compile(r"\{(\w+(?:, \w+)*)\}")
ABOVE = re.compile(r"\[sp(?:, #\d+|, [a-z]\w+(?:, \w+ #\d+)?)?\]")
PUSHED = re.compile(r"\[sp, #-(\d+)\]!")
POPPED = re.compile(r"\[sp\], #(\d+)")
WRITTEN_BASE = re.compile(r"\[(\w+)(?:\], .*|.*\]!)")

UNKNOWN = "not one of the core instructions that are known"
MOVED = "a write to the stack pointer that does not move it by a constant"
BELOW = "a place below the stack pointer, or one that may be"
INDIRECT = "an indirect jump"
NO_TABLE = "an indirect jump that is not the three instructions of a jump table"


@dataclass(frozen=True)
class Operation:
    """An instruction by its name, without flags and condition. What stands in brackets or braces is one operand."""
    name: str
    sets_flags: bool
    condition: str
    operands: list


def plain(text):
    """Without what objdump adds to numbers and addresses, and with single blanks."""
    return " ".join(re.split("[@;<]", text, maxsplit=1)[0].split())


def operation(text):
    mnemonic, _, rest = plain(text).partition(" ")
    if mnemonic.startswith("."):
        raise Unreadable("data, which is no instruction")
    if mnemonic not in MNEMONICS:
        raise Unreadable(UNKNOWN)
    name, sets_flags, condition = MNEMONICS[mnemonic]
    return Operation(OTHER_NAMES.get(name, name), sets_flags, condition, [*LEFT_OUT.get(name, []), *SEPARATOR.split(rest)])


def transferred(op):
    """The registers that are loaded or stored, lowest address first, and the place as it is written."""
    if op.name in MULTIPLE:
        base, listed = op.operands
        match = LIST.fullmatch(listed)
        return match[1].split(", ") if match else [], base
    count = next((i for i, operand in enumerate(op.operands) if operand.startswith("[")), 0)
    if count == 0 or not set(op.operands[:count]) <= set(REGISTERS):
        raise Unreadable(UNKNOWN)
    first = REGISTERS.index(op.operands[0])
    return REGISTERS[first:first + (2 if op.name in ("ldrd", "strd") else 1)], ", ".join(op.operands[count:])


def written(op):
    """The registers that an instruction writes. A call may write more."""
    if op.name in COMPUTING:
        return set(op.operands[:2] if op.name in LONG_PRODUCTS else op.operands[:1])
    if op.name not in MULTIPLE | LOADING | STORING:
        return set()
    registers, place = transferred(op)
    base = WRITTEN_BASE.fullmatch(place)
    based = {base[1]} if base else {place[:-1]} if place.endswith("!") else set()
    return based | (set(registers) if op.name.startswith("ld") else set())


def led(op):
    """A call, a jump or a return."""
    operand = op.operands[0]
    if op.name == "bx":
        if operand != "lr":
            raise Unreadable(INDIRECT)
        return Effect(RETURN)
    if op.name == "blx" or not DIRECT.fullmatch(operand):
        raise Unreadable("an indirect call, or one of Thumb code")
    return Effect(CALL if op.name == "bl" else JUMP, target=int(operand, 16))


def transferred_many(op):
    """A load or store of several registers."""
    registers, base = transferred(op)
    if not registers or not set(registers) <= set(REGISTERS) - {"sp"}:
        raise Unreadable("a list of registers that is not known, or that has the stack pointer")
    if (op.name, base) == ("stmdb", "sp!"):
        return Effect(NEXT, WORD_BYTES * len(registers))
    if (op.name, base) == ("ldmia", "sp!"):
        return Effect(RETURN if "pc" in registers else NEXT, -WORD_BYTES * len(registers))
    if base == "sp!":
        raise Unreadable(MOVED)
    if base == "sp" and op.name[-2] == "d":
        raise Unreadable(BELOW)
    return Effect(NEXT)


def change_of(op, place):
    """The bytes by which the stack grows with a load or store at this place."""
    if "sp" not in re.findall(r"\w+", place) or ABOVE.fullmatch(place):
        return 0
    if op.name == "str" and (pushed := PUSHED.fullmatch(place)):
        return int(pushed[1])
    if op.name == "ldr" and (popped := POPPED.fullmatch(place)):
        return -int(popped[1])
    raise Unreadable(MOVED if WRITTEN_BASE.fullmatch(place) else BELOW)


def transferred_one(op):
    """A load or store of one register, or of two."""
    registers, place = transferred(op)
    change = change_of(op, place)
    if op.name in LOADING and "sp" in registers:
        raise Unreadable(MOVED)
    return Effect(RETURN if change < 0 and "pc" in registers else NEXT, change)


def computed(op):
    """An instruction without memory."""
    if "pc" in written(op):
        if (op.name, op.operands) == ("mov", ["pc", "lr"]) and not op.sets_flags:
            return Effect(RETURN)
        return Effect(TABLE)
    if "sp" in written(op):
        number = NUMBER.fullmatch(op.operands[-1])
        if op.name not in ("sub", "add") or op.operands[:-1] != ["sp", "sp"] or not number:
            raise Unreadable(MOVED)
        return Effect(NEXT, int(number[1]) if op.name == "sub" else -int(number[1]))
    upward = op.name in ("mov", "add", "orr") and not any(operand.startswith("#-") for operand in op.operands)
    if "sp" in op.operands and op.name not in COMPARING and not upward:
        raise Unreadable(BELOW)
    return Effect(NEXT)


def on_condition(found):
    """The same if a condition holds. If it does not, the next instruction follows with the stack as it was."""
    flows = {NEXT: NEXT, CALL: CALL, JUMP: BRANCH, RETURN: CONDITIONAL_RETURN}
    if found.flow not in flows or found.flow == NEXT and found.change != 0:
        raise Unreadable("a move of the stack pointer, or an indirect jump, on a condition")
    return replace(found, flow=flows[found.flow])


def effect(instruction):
    if instruction.end - instruction.address != INSTRUCTION_BYTES:
        raise Unreadable("an instruction that is not of A32")
    op = operation(instruction.text)
    kinds = ((LEADING, led), (MULTIPLE, transferred_many), (LOADING | STORING, transferred_one), (COMPUTING | COMPARING, computed),
             (STOPPING, lambda _: Effect(STOP)))
    found = next(reader(op) for names, reader in kinds if op.name in names)
    if found.flow == NEXT and "pc" in written(op):
        raise Unreadable(INDIRECT)
    return on_condition(found) if op.condition else found


def depths_of(op, depth, change):
    """By register, the depth of its word in the stack, if an instruction that moves the stack pointer loads or stores it there."""
    registers = transferred(op)[0] if change and op.name not in COMPUTING else []
    return {register: max(depth, depth + change) - WORD_BYTES * i for i, register in enumerate(registers)}


def link_after(instruction, depth, link):
    """Where the return address is after an instruction, from the depth before it and where it was: in lr, at a depth of the stack, or lost (None)."""
    found, op = effect(instruction), operation(instruction.text)
    depths = depths_of(op, depth, found.change)
    if found.flow in (RETURN, CONDITIONAL_RETURN) and link != depths.get("pc", LINK):
        raise Unreadable("a return to something else than the return address")
    if link == LINK and found.change > 0 and "lr" in depths:
        return depths["lr"]
    if link == LINK:
        return None if found.flow == CALL or "lr" in written(op) else LINK
    if found.change < 0 and "lr" in depths and depths["lr"] == link:
        return LINK
    return link if link is not None and link <= depth + found.change else None


def place(instruction, start):
    """The symbol, and the offset from it, to which a call or jump with a relocation leads, if the symbol starts there in its section. The addend is
    in the instruction: objdump adds it to the symbol's start, and prints that as the target."""
    relocation = instruction.relocation
    if relocation.kind not in ("R_ARM_CALL", "R_ARM_JUMP24"):
        raise Unreadable(f"the relocation {relocation.kind}")
    return relocation.symbol, effect(instruction).target - start + relocation.addend


TABLE_ENTRY_BYTES = WORD_BYTES
TABLE_START = re.compile(r"add (?P<base>\w+), pc, #(?P<distance>\d+)")
TABLE_LOAD = re.compile(r"ldr (?P<to>\w+), \[(?P<base>\w+), \w+, lsl #2\]")
TABLE_JUMP = re.compile(r"add pc, (?P<base>\w+), (?P<to>\w+)")
TABLE_ENTRY = re.compile(r"\.word 0x([0-9a-f]{8})")
# What pc reads as, from the instruction's address on.
PC_AHEAD = 8


def last_write(instructions, registers):
    """The place in the list of the last instruction that writes one of these registers, if control goes straight on from there."""
    for i in reversed(range(len(instructions))):
        if effect(instructions[i]).flow != NEXT:
            break
        if written(operation(instructions[i].text)) & registers:
            return i
    raise Unreadable(NO_TABLE)


def table(instructions):
    """The instructions of the table by which the last of these jumps, and its place, which is right behind the jump. Entries are distances from its
    start. Between the three instructions others may stand that have nothing to do with them."""
    last = instructions[-1]
    jump = TABLE_JUMP.fullmatch(plain(last.text))
    if not jump or jump["base"] == jump["to"]:
        raise Unreadable(NO_TABLE)
    loaded = last_write(instructions[:-1], {jump["base"], jump["to"]})
    started = last_write(instructions[:loaded], {jump["base"]})
    load, start = TABLE_LOAD.fullmatch(plain(instructions[loaded].text)), TABLE_START.fullmatch(plain(instructions[started].text))
    if not load or not start or load.groups() != jump.groups()[::-1] or instructions[started].relocation:
        raise Unreadable(NO_TABLE)
    if instructions[started].address + PC_AHEAD + int(start["distance"]) != last.end:
        raise Unreadable("a jump table that is not right behind the jump")
    return instructions[started:], (None, last.end)


def table_entry(relocation, listed, base, _offset):
    """Where the entry with this text leads, or nothing where the table is over: it goes on as long as data is listed."""
    entry = TABLE_ENTRY.fullmatch(plain(listed.text)) if listed else None
    if not entry:
        return None
    if relocation:
        raise Unreadable("an entry of the jump table with a relocation")
    return None, (base + int(entry[1], 16)) % 2**32
