#!/usr/bin/env python3
"""Writes the page rights of all 1,024 indices, as the entry rules give them: sixteen lines of 64 hexadecimal digits.

    python3 tests/page_rights.py > crates/rights_table/stdout

Written from documents 01 and 02 alone: it reads neither the table of the code nor the definitions of the proofs. Its steps have the clauses of
docs/RULES.md.
tests/tests/reference.rs compares what it writes with that file.
"""

READ, WRITE, EXECUTE = 1, 2, 4
FAULT, WHOLE_WORD, NOT_ACCEPTED, ACCEPTED = 0, 6, 7, 8


def bit(word, number):
    return word >> number & 1


def page_rights(index):
    # entries 5
    if bit(index, 1) == 0 and bit(index, 0) == 0:
        return FAULT
    # entries 22: a large page, if it is one, is known by the whole word
    if bit(index, 1) == 0:
        return WHOLE_WORD
    # entries 8
    ap = f"{bit(index, 9)}{bit(index, 5)}{bit(index, 4)}"
    xn = bit(index, 0)
    # entries 9
    if ap == "100":
        return NOT_ACCEPTED
    # entries 10
    granted = {"010": READ, "110": READ, "111": READ, "011": READ + WRITE, "000": 0, "001": 0, "101": 0}[ap]
    # entries 11
    if granted & READ and xn == 0:
        granted += EXECUTE
    return ACCEPTED + granted


for line in range(16):
    print("".join(f"{page_rights(64 * line + column):x}" for column in range(64)))
