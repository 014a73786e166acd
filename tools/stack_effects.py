"""What tools/stack asks of an instruction, on every machine: where it leads, and what it does to the stack pointer."""
from dataclasses import dataclass

NEXT, BRANCH, JUMP, CALL, RETURN, STOP, TABLE = "next", "branch", "jump", "call", "return", "stop", "table"
CONDITIONAL_RETURN = "conditional return"


class Unreadable(Exception):
    """An instruction whose effect is not known."""


@dataclass(frozen=True)
class Effect:
    """`change` is the bytes by which the stack grows, `target` the address that the disassembler prints, `below` the bytes used beyond it, and
    `indexed` how far below it the start lies from which an index leads into what the function has put there."""
    flow: str
    change: int = 0
    target: int = None
    below: int = 0
    indexed: int = 0
