#!/usr/bin/env python3
"""tools/stack on small functions in assembly of x86-64, and of ARMv7 where a compiler for it is on the path: bounds that are known, and what it has
to refuse. Then documents, most of them with wrong figures."""
import os
import re
import shutil
import subprocess
import sys
import tempfile
import unittest
from importlib.machinery import SourceFileLoader
from importlib.util import module_from_spec, spec_from_loader
from pathlib import Path

TOOL = Path(__file__).resolve().parent.parent / "tools" / "stack"


def loaded():
    """The tool as a module, since starting it for each case would take most of the time."""
    sys.path.insert(0, str(TOOL.parent))
    sys.dont_write_bytecode = True
    loader = SourceFileLoader("stack", str(TOOL))
    sys.modules["stack"] = module_from_spec(spec_from_loader("stack", loader))
    loader.exec_module(sys.modules["stack"])
    return sys.modules["stack"]


tool = loaded()

# A name before a brace is a function; a star exports it.
TABLE = """*f { push rbx; mov eax, edi; lea rcx, t[rip]; movsxd rax, dword ptr [rcx + rax * 4]; add rax, rcx; MORE jmp rax;
    .La: pop rbx; ret; .Lb: sub rsp, 0x30; add rsp, 0x30; pop rbx; ret; .Lc: DEPTH ret } g { .Lg: ret }
    .section SECTION; .p2align 2; t: .long .La - t; .long .Lb - t; .long ENTRY"""


def table(more="", depth="pop rbx;", section='.rodata.f,"a"', entry=".Lc - t"):
    return TABLE.replace("MORE", more).replace("DEPTH", depth).replace("SECTION", section).replace("ENTRY", entry)


TWO_TABLES = """*f { lea rcx, t[rip]; movsxd rax, dword ptr [rcx + rdi * 4]; add rax, rcx; jmp rax; .La: ret;
    .Lb: push rbx; lea rcx, u[rip]; movsxd rax, dword ptr [rcx + rsi * 4]; add rax, rcx; jmp rax; .Lc: pop rbx; ret;
    .Ld: push rbx; pop rbx; pop rbx; ret }
    .section .rodata.f,"a"; .p2align 2; t: .long .La - t; .long .Lb - t; u: .long .Lc - u; .long .Ld - u"""

# By name: functions in assembly of x86-64, and the bounds of those that are exported.
BOUNDS = {
    "a return address": ("*f { ret }", {"f": 8}),
    "pushes and a reservation": ("*f { push rbx; push r12; sub rsp, 0x18; add rsp, 0x18; pop r12; pop rbx; ret }", {"f": 48}),
    "pushes on two paths, of which one is deeper": (
        "*f { test edi, edi; je 1f; push rbx; pop rbx; ret; 1: sub rsp, 0x100; add rsp, 0x100; ret }", {"f": 264}),
    "a place below the stack pointer": ("*f { mov [rsp - 24], rdi; ret }", {"f": 32}),
    "a jump table with an instruction aside": (table(more="xor esi, esi;"), {"f": 64}),
    "a jump table with two loads aside": (table(more="mov r9d, [rsp + 4]; mov r10, [rsp + rcx * 8];"), {"f": 64}),
    "a jump table with stores in the frame aside": (table(more="mov [rsp], rsi; mov dword ptr [rsp + 4], edi;"), {"f": 64}),
    "one push on each of two paths that meet": ("*f { test edi, edi; je 1f; push rbx; jmp 2f; 1: push rbp; 2: pop rax; ret }", {"f": 16}),
    "a loop": ("*f { push rbx; 1: dec edi; jne 1b; pop rbx; ret }", {"f": 16}),
    "an array in the frame by an index, from a start that is folded": (
        "*f { push rbx; sub rsp, 0x18; mov eax, [rsp + rdi * 4 - 0x20]; add [rsp + rdi * 4 - 4], eax; add rsp, 0x18; pop rbx; ret }", {"f": 40}),
    "a reservation by a negative number": ("*f { add rsp, -0x80; sub rsp, -0x80; ret }", {"f": 136}),
    "a reservation by lea": ("*f { lea rsp, [rsp - 0x20]; lea rsp, [rsp + 0x20]; ret }", {"f": 40}),
    "a call": ("*f { push rbx; call g; pop rbx; ret } g { sub rsp, 0x28; add rsp, 0x28; ret }", {"f": 64}),
    "a call that is less deep than what comes after it": (
        "*f { call g; sub rsp, 0x88; add rsp, 0x88; ret } g { push rbx; pop rbx; ret }", {"f": 144}),
    "the deepest of three chains": (
        "*f { push rbx; call g; call h; pop rbx; ret } g { ret } h { push rbx; push rbx; call g; pop rbx; pop rbx; ret }", {"f": 48}),
    "arguments on the stack": ("*f { push 1; push 2; call g; add rsp, 0x10; ret } g { ret }", {"f": 32}),
    "a jump to another function": ("*f { push rbx; pop rbx; jmp g } g { sub rsp, 0x40; add rsp, 0x40; ret }", {"f": 72}),
    "a jump on a condition to another function": (
        "*f { test edi, edi; jne g; push rbx; pop rbx; ret } g { sub rsp, 0x40; add rsp, 0x40; ret }", {"f": 72}),
    "a call of an export": ("*f { call g; ret } *g { push rbx; pop rbx; ret }", {"f": 24, "g": 16}),
    "an external function": ("*f { push rbx; call memcpy; pop rbx; ret }", {"f": 24}),
    "a jump to an external function": ("*f { jmp memset }", {"f": 8}),
    "a trap": ("*f { test edi, edi; je 1f; ret; 1: push rbx; ud2 }", {"f": 16}),
    "vectors and padding": ("*f { sub rsp, 0x18; movaps [rsp], xmm0; add rsp, 0x18; ret; .p2align 5; nop }", {"f": 32}),
    "reads of the stack pointer": ("*f { push rbx; mov rdi, rsp; cmp rsp, rdi; lea rsi, [rsp + rax * 4 + 8]; pop rbx; ret }", {"f": 16}),
    "a function that is not reached": ("*f { ret } g { call g; ret }", {"f": 8}),
    "a jump table": (table(), {"f": 64}),
    "two jump tables": (TWO_TABLES, {"f": 24}),
    "a jump table, and a register that is cleared before a return": (table(depth="pop rbx; xor eax, eax;"), {"f": 64}),
}

# By name: functions in assembly of x86-64, and what the refusal must say.
REFUSALS = {
    "recursion": ("*f { call f; ret }", r"f: 0: call .*: recursion through f$"),
    "recursion through another function": ("*f { call g; ret } g { call h; ret } h { call g; ret }", r"h: .*: recursion through g, h$"),
    "recursion through jumps": ("*f { jmp g } g { jmp f }", r"g: .*: recursion through f, g$"),
    "an indirect call": ("*f { call rax; ret }", r"f: 0: call rax: an indirect call$"),
    "an indirect call through memory": ("*f { call [rip + p]; ret } .data; p: .quad 0", r"f: 0: call QWORD PTR .*: an indirect call$"),
    "an indirect jump": ("*f { jmp rax }", r"f: 0: jmp rax: an indirect jump that is not"),
    "a jump through memory": ("*f { jmp [rdi] }", r"f: 0: jmp QWORD PTR \[rdi\]: an indirect jump that is not"),
    "a jump table with another instruction inside": (table(more="mov rax, rdi;"), r"jmp rax: an indirect jump that is not"),
    "a jump table with a load of what it jumps by": (table(more="mov esi, edx; mov rax, [rdi];"), r"jmp rax: an indirect jump that is not"),
    "a jump table with a half load of what it jumps by": (table(more="mov eax, [rdi];"), r"jmp rax: an indirect jump that is not"),
    "a jump table with a store inside": (table(more="mov [rdi], rsi;"), r"jmp rax: an indirect jump that is not"),
    "a jump table with a store in the frame by an index": (table(more="mov [rsp + rdi * 8], rsi;"), r"jmp rax: an indirect jump that is not"),
    "a jump table with a store of a number in the frame": (table(more="mov qword ptr [rsp], 7;"), r"jmp rax: an indirect jump that is not"),
    "a jump table with three instructions inside": (table(more="xor esi, esi; xor esi, esi; xor esi, esi;"), r"jmp rax: an indirect jump that is not"),
    "a jump table that can be written": (table(section='.data.f,"aw"'), r"jmp rax: a jump table that can be written"),
    "a jump table that leads outside": (table(entry=".Lg - t"), r"jmp rax: an entry of the jump table lies outside the function$"),
    "a jump table with a number": (table(entry="7"), r"jmp rax: the jump table has no address at 8$"),
    "a jump table with another depth": (table(depth=""), r"ret: it returns with 8 bytes on the stack$"),
    "a jump into the middle of a jump table": (
        table().replace("mov eax, edi;", "test edi, edi; je 9f;").replace("add rax", "9: add rax"), r"jmp rax: a jump leads into the instructions"),
    "an alloca": ("*f { push rbp; mov rbp, rsp; sub rsp, rdi; mov rsp, rbp; pop rbp; ret }", r"f: .*: sub rsp,rdi: a write to the stack pointer"),
    "an alignment": ("*f { push rbp; mov rbp, rsp; and rsp, -64; leave; ret }", r"f: .*: and rsp,0xffffffffffffffc0: a write to the stack pointer"),
    "a frame pointer": ("*f { push rbp; mov rbp, rsp; sub rsp, 0x20; leave; ret }", r"f: .*: leave: an instruction of which"),
    "a copy to the stack pointer": ("*f { mov rsp, rdi; ret }", r"f: 0: mov rsp,rdi: a write to the stack pointer"),
    "an exchange with the stack pointer": ("*f { xchg rdi, rsp; ret }", r"f: 0: xchg .*: an instruction of which"),
    "a product in the stack pointer": ("*f { mulx rax, rsp, rcx; ret }", r"f: 0: mulx .*: an instruction of which"),
    "a stack pointer from a vector": ("*f { movq rsp, xmm0; ret }", r"f: 0: movq .*: a write to the stack pointer"),
    "a pop of the stack pointer": ("*f { push rax; pop rsp; ret }", r"f: .*: pop rsp: a pop that is not known"),
    "a push of 2 bytes": ("*f { push ax; pop ax; ret }", r"f: 0: push ax: a push that is not known"),
    "flags": ("*f { pushf; popf; ret }", r"f: 0: pushf: an instruction of which"),
    "a system call": ("*f { syscall; ret }", r"f: 0: syscall: an instruction of which"),
    "an address below the stack pointer": ("*f { lea rdi, [rsp - 8]; ret }", r"f: 0: lea .*: a place below the stack pointer$"),
    "a place far below the stack pointer": ("*f { mov [rsp - 136], rdi; ret }", r"f: 0: mov .*: a place below the stack pointer$"),
    "a place below the stack pointer by a register": ("*f { mov [rsp + rdi * 8 - 8], rdi; ret }", r"f: 0: mov .*: a place below the stack pointer$"),
    "a place by a register, from a start below the frame": (
        "*f { sub rsp, 0x18; mov [rsp + rdi * 8 - 0x20], rdi; add rsp, 0x18; ret }", r"f: 4: mov .*: a place below the stack pointer$"),
    "an address by a register, from a start below the stack pointer": (
        "*f { sub rsp, 0x18; lea rdi, [rsp + rdi * 8 - 8]; add rsp, 0x18; ret }", r"f: 4: lea .*: a place below the stack pointer$"),
    "depths that differ where two paths meet": (
        "*f { test edi, edi; je 1f; push rbx; 1: nop; ud2 }", r"it leads to 5 with (0|8) bytes on the stack, another path with (0|8)$"),
    "a loop that pushes": (
        "*f { 1: push rbx; dec edi; jne 1b; ud2 }", r"f: .*: jne .*: it leads to 0 with 8 bytes on the stack, another path with 0$"),
    "a return with bytes on the stack": ("*f { push rbx; ret }", r"f: 1: ret: it returns with 8 bytes on the stack$"),
    "a return that drops arguments": ("*f { ret 16 }", r"f: 0: ret 0x10: an instruction of which"),
    "more freed than reserved": (
        "*f { sub rsp, -0x80; add rsp, -0x80; ret }", r"f: 0: sub .*: it takes more from the stack than the function put there$"),
    "a pop of the return address": ("*f { pop rax; ret }", r"f: 0: pop rax: it takes more from the stack than the function put there$"),
    "a jump away with bytes on the stack": (
        "*f { push rbx; jmp g } g { pop rbx; ret }", r"f: 1: jmp .*: it leaves the function with 8 bytes on the stack$"),
    "a jump on a condition with bytes on the stack": (
        "*f { push rbx; jne g; pop rbx; ret } g { ret }", r"f: 1: jne .*: it leaves the function with 8 bytes"),
    "a jump into another function": ("*f { jmp 5f } g { nop; 5: ret }", r"f: 0: jmp .*: it leads to .*, where no function starts$"),
    "a jump into an instruction": ("*f { jmp 1f + 1; 1: mov eax, 1; ret }", r"f: 0: jmp .*: it leads to 3, where the function has no instruction$"),
    "a function that runs on": ("*f { push rbx; pop rbx } g { ret }", r"f: 1: pop rbx: it leads to 2, where the function has no instruction$"),
    "a call that is the end": ("*f { call g } g { ret }", r"f: 0: call .*: it leads to 5, where the function has no instruction$"),
    "an undefined symbol": ("*f { call abort; ret }", r"f: 0: call .*: it leads to abort, which is undefined and not known as external$"),
    "a call through the global offset table": ("*f { call [rip + g@GOTPCREL]; ret } *g { ret }", r"f: 0: call .*: an indirect call$"),
    "a refusal two calls below": ("*f { call g; ret } g { call h; ret } h { hlt }", r"h: .*: hlt: an instruction of which"),
}


ARM_TABLE = """*f { push {r4, lr}; START MORE ldr r2, [r1, r0, lsl #2]; ASIDE add pc, r1, r2; t: .word .La - t; .word .Lb - t; .word ENTRY;
    .La: pop {r4, pc}; .Lb: sub sp, sp, #0x30; add sp, sp, #0x30; pop {r4, pc}; .Lc: DEPTH } g { .Lg: bx lr }"""


def arm_table(start="adr r1, t;", more="", aside="", entry=".Lc - t", depth="pop {r4, pc}"):
    return ARM_TABLE.replace("START", start).replace("MORE", more).replace("ASIDE", aside).replace("ENTRY", entry).replace("DEPTH", depth)


# The same two for ARMv7.
ARM_BOUNDS = {
    "a return": ("*f { bx lr }", {"f": 0}),
    "a return by mov": ("*f { mov pc, lr }", {"f": 0}),
    "pushes and a reservation": ("*f { push {r4, lr}; sub sp, sp, #0x400; add sp, sp, #0x400; pop {r4, pc} }", {"f": 1032}),
    "pushes and pops of single registers": (
        "*f { str lr, [sp, #-8]!; push {r4}; stmdb sp!, {r5}; ldmia sp!, {r5}; pop {r4}; ldr pc, [sp], #8 }", {"f": 16}),
    "pushes on two paths, of which one is deeper": (
        "*f { cmp r0, #0; beq 1f; push {r4}; pop {r4}; bx lr; 1: sub sp, sp, #0x100; add sp, sp, #0x100; bx lr }", {"f": 256}),
    "one push on each of two paths that meet": ("*f { cmp r0, #0; beq 1f; push {r4}; b 2f; 1: push {r5}; 2: pop {r3}; bx lr }", {"f": 4}),
    "a loop": ("*f { push {r4, lr}; 1: subs r0, r0, #1; bcs 1b; pop {r4, pc} }", {"f": 8}),
    "a call": ("*f { push {r4, lr}; bl g; pop {r4, pc} } g { sub sp, sp, #0x28; add sp, sp, #0x28; bx lr }", {"f": 48}),
    "a call on a condition": ("*f { push {r4, lr}; blne g; pop {r4, pc} } g { push {r4}; pop {r4}; bx lr }", {"f": 12}),
    "a call that is less deep than what comes after it": (
        "*f { push {lr}; bl g; sub sp, sp, #0x88; add sp, sp, #0x88; pop {pc} } g { push {r4, lr}; pop {r4, pc} }", {"f": 140}),
    "the deepest of three chains": (
        "*f { push {r4, lr}; bl g; bl h; pop {r4, pc} } g { bx lr } h { push {r4, r5, r6, lr}; bl g; pop {r4, r5, r6, pc} }", {"f": 24}),
    "arguments on the stack": ("*f { push {lr}; sub sp, sp, #12; stm sp, {r0, r1, r2}; bl g; add sp, sp, #12; pop {pc} } g { bx lr }", {"f": 16}),
    "a jump to another function": ("*f { push {r4, lr}; bl g; pop {r4, lr}; b g } g { sub sp, sp, #0x40; add sp, sp, #0x40; bx lr }", {"f": 72}),
    "a jump on a condition to another function": (
        "*f { cmp r0, #0; bne g; push {r4}; pop {r4}; bx lr } g { sub sp, sp, #0x40; add sp, sp, #0x40; bx lr }", {"f": 64}),
    "a call of an export": ("*f { push {r4, lr}; bl g; pop {r4, pc} } *g { push {r4}; pop {r4}; bx lr }", {"f": 12, "g": 4}),
    "an external function": ("*f { push {r4, lr}; bl memcpy; pop {r4, pc} }", {"f": 8}),
    "a jump to an external function": ("*f { b memset }", {"f": 0}),
    "returns on a condition": (
        "*f { cmp r0, #0; bxeq lr; movne pc, lr; push {r4, lr}; mov lr, r1; popne {r4, pc}; sub sp, sp, #8; add sp, sp, #8; pop {r4, pc} }",
        {"f": 16}),
    "a trap": ("*f { cmp r0, #0; bxne lr; push {r4, lr}; udf #0 }", {"f": 8}),
    "flags and conditions": (
        "*f { movweq r0, #1; ldrbeq r0, [r1], #1; strbne r0, [r1, r2]!; orrsne r0, r1, r2, lsl #3; umlal r0, r1, r2, r3; bxls lr; nop; bx lr }",
        {"f": 0}),
    "reads of the stack pointer": (
        "*f { sub sp, sp, #16; mov r0, sp; add r1, sp, #4; cmp sp, r0; strd r2, r3, [sp, #8]; stmib sp, {r0, r1}; ldr r0, [sp, r1, lsl #2]; "
        "add sp, sp, #16; bx lr }", {"f": 16}),
    "a literal pool": ("*f { push {r4, lr}; ldr r0, 1f; add r0, pc, r0; ldr r1, =0x12345678; pop {r4, pc}; 1: .word 8; .ltorg }", {"f": 8}),
    "a function that is not reached": ("*f { bx lr } g { blx r3 }", {"f": 0}),
    "a jump table": (arm_table(), {"f": 56}),
    "a jump table that leads back": (arm_table(start="1: subs r0, r0, #1; adr r1, t;", entry="1b - t"), {"f": 56}),
    "a jump table with instructions aside": (arm_table(more="mov r2, r3; str r1, [r0];", aside="ldrd r4, r5, [r0], #8; movne r3, r2;"), {"f": 56}),
    "two jump tables": (
        "*f { adr r1, t; ldr r2, [r1, r0, lsl #2]; add pc, r1, r2; t: .word .La - t; .word .Lb - t; .La: bx lr; .Lb: push {r4}; adr r1, u; "
        "ldr r0, [r1, r0, lsl #2]; add pc, r1, r0; u: .word .Lc - u; .word .Ld - u; .Lc: pop {r4}; bx lr; .Ld: push {r5}; pop {r4, r5}; bx lr }",
        {"f": 8}),
}

ARM_REFUSALS = {
    "recursion": ("*f { push {r4, lr}; bl f; pop {r4, pc} }", r"f: 4: bl .*: recursion through f$"),
    "recursion through another function": (
        "*f { push {lr}; bl g; pop {pc} } g { push {lr}; bl h; pop {pc} } h { push {lr}; bl g; pop {pc} }", r"h: .*: recursion through g, h$"),
    "recursion through jumps": ("*f { b g } g { b f }", r"g: .*: recursion through f, g$"),
    "an indirect call": ("*f { push {r4, lr}; blx r3; pop {r4, pc} }", r"f: 4: blx r3: an indirect call"),
    "a call of Thumb code": ("*f { push {r4, lr}; blx memcpy; pop {r4, pc} }", r"f: 4: blx .*: an indirect call, or one of Thumb code$"),
    "an indirect jump": ("*f { bx r3 }", r"f: 0: bx r3: an indirect jump$"),
    "an indirect jump by mov": ("*f { mov pc, r3 }", r"f: 0: mov pc, r3: an indirect jump that is not"),
    "an indirect jump through memory": ("*f { ldr pc, [r0] }", r"f: 0: ldr pc, \[r0\]: an indirect jump$"),
    "an indirect jump through a list": ("*f { ldm r0, {r4, pc} }", r"f: 0: ldm r0, .*: an indirect jump$"),
    "an indirect jump on a condition": (arm_table().replace("add pc", "addne pc"), r"addne pc, r1, r2: .*, or an indirect jump, on a condition$"),
    "a return from an exception": ("*f { movs pc, lr }", r"f: 0: movs pc, lr: an indirect jump that is not"),
    "a return to what is no return address": ("*f { mov lr, r3; bx lr }", r"f: 4: bx lr: a return to something else than the return address$"),
    "a return to what was pushed": ("*f { push {r3}; pop {pc} }", r"f: 4: pop {pc} .*: a return to something else"),
    "a return to another word of the stack": ("*f { push {r4, lr}; sub sp, sp, #4; pop {r4, pc} }", r"f: .*: pop {r4, pc}: it returns with 4 bytes"),
    "a return to a lower word than was pushed": ("*f { push {r4, lr}; ldr pc, [sp], #8 }", r"f: 4: ldr pc, .*: a return to something else"),
    "a return after another word came into lr": ("*f { push {r4, lr}; push {r5}; pop {lr}; add sp, sp, #8; bx lr }", r"f: 10: bx lr: a return to"),
    "a return after a call": ("*f { push {r4}; bl g; pop {r4}; bx lr } g { bx lr }", r"f: c: bx lr: a return to something else"),
    "a return after the return address was freed": ("*f { push {r4, lr}; add sp, sp, #8; push {r4, r5}; pop {r4, pc} }", r"f: c: pop .*: a return"),
    "a jump away after a call": ("*f { bl g; b g } g { bx lr }", r"f: 4: b .*: it leaves the function with the return address lost$"),
    "a return address that differs where two paths meet": (
        "*f { cmp r0, #0; beq 1f; push {r4, lr}; b 2f; 1: push {r4, r5}; 2: pop {r4, pc} }", r"it leads to 14 with the return address elsewhere"),
    "a jump table that is elsewhere": (arm_table(start="adr r1, t + 4;"), r"add pc, r1, r2: a jump table that is not right behind the jump$"),
    "a jump table with another start": (arm_table(start="mov r1, r3;"), r"add pc, r1, r2: an indirect jump that is not"),
    "a jump table with another load": (arm_table().replace("lsl #2", "lsl #3"), r"add pc, r1, r2: an indirect jump that is not"),
    "a jump table with a load from elsewhere": (arm_table().replace("[r1, r0", "[r3, r0"), r"add pc, r1, r2: an indirect jump that is not"),
    "a jump table with one register": (arm_table().replace("r2", "r1"), r"add pc, r1, r1: an indirect jump that is not"),
    "a jump table with a relocation": (arm_table(start=".reloc ., R_ARM_ALU_PC_G0, x; adr r1, t;"), r"add pc, r1, r2: an indirect jump that is not"),
    "a jump table with a write of its start inside": (arm_table(more="mov r1, r3;"), r"add pc, r1, r2: an indirect jump that is not"),
    "a jump table with a later write of its start": (arm_table(aside="mov r1, r3;"), r"add pc, r1, r2: an indirect jump that is not"),
    "a jump table with a write of the entry inside": (arm_table(aside="ldrd r2, r3, [r0];"), r"add pc, r1, r2: an indirect jump that is not"),
    "a jump table with a long product inside": (arm_table(aside="umull r3, r2, r0, r0;"), r"add pc, r1, r2: an indirect jump that is not"),
    "a jump table with a write by an index inside": (arm_table(aside="ldr r3, [r2], #4;"), r"add pc, r1, r2: an indirect jump that is not"),
    "a jump table with a call inside": (arm_table(aside="bl g;"), r"add pc, r1, r2: an indirect jump that is not"),
    "a jump table that leads outside": (arm_table(entry=".Lg - t"), r"add pc, r1, r2: an entry of the jump table lies outside the function$"),
    "a jump table that leads far outside": (arm_table(entry="-1000"), r"add pc, r1, r2: an entry of the jump table lies outside the function$"),
    "a jump table with a hole": (arm_table(entry="0"), r"f: 10: \.word 0x.*: data, which is no instruction$"),
    "a jump table that leads into an instruction": (arm_table(entry=".Lc - t + 2"), r"it leads to 2e, where the function has no instruction$"),
    "a jump table without entries": ("*f { adr r1, t; ldr r0, [r1, r0, lsl #2]; add pc, r1, r0; t: bx lr }", r"a jump table without entries$"),
    "a jump table with an address": (arm_table(entry="memcpy - ."), r"add pc, r1, r2: an entry of the jump table with a relocation$"),
    "a jump table with another depth": (arm_table(depth="bx lr"), r"bx lr: it returns with 8 bytes on the stack$"),
    "a jump into the middle of a jump table": (
        arm_table(start="cmp r0, #0; beq 9f; adr r1, t;", more="9:"), r"add pc, r1, r2: a jump leads into the instructions of the jump table$"),
    "an alloca": ("*f { push {fp, lr}; mov fp, sp; sub sp, sp, r0; mov sp, fp; pop {fp, pc} }", r"f: 8: sub sp, sp, r0: a write to the stack"),
    "an alignment": ("*f { push {fp, lr}; mov fp, sp; bic sp, sp, #63; mov sp, fp; pop {fp, pc} }", r"f: 8: bic sp, sp, #63.*: a write to the stack"),
    "a frame pointer": ("*f { push {fp, lr}; add fp, sp, #4; sub sp, fp, #4; pop {fp, pc} }", r"f: 8: sub sp, fp, #4: a write to the stack pointer"),
    "a frame pointer and a list": ("*f { push {fp, lr}; ldmdb fp, {fp, sp, pc} }", r"f: 4: ldmdb .*: a list of registers .* has the stack pointer$"),
    "a copy to the stack pointer": ("*f { mov sp, r0; bx lr }", r"f: 0: mov sp, r0: a write to the stack pointer"),
    "a load of the stack pointer": ("*f { ldr sp, [r0]; bx lr }", r"f: 0: ldr sp, \[r0\]: a write to the stack pointer"),
    "a load of two registers": ("*f { ldrd ip, sp, [r0]; bx lr }", r"f: 0: ldrd ip.*: a write to the stack pointer"),
    "a list with the stack pointer": ("*f { ldm sp, {r4, sp}; bx lr }", r"f: 0: .*: a list of registers"),
    "a reservation on a condition": ("*f { subne sp, sp, #8; bx lr }", r"f: 0: subne sp, sp, #8: a move of the stack pointer, .* on a condition$"),
    "a push on a condition": ("*f { pushne {r4, lr}; bx lr }", r"f: 0: pushne .*: a move of the stack pointer, .* on a condition$"),
    "a pop on a condition": ("*f { push {r4}; popne {r4}; bx lr }", r"f: 4: popne .*: a move of the stack pointer, .* on a condition$"),
    "a place below the stack pointer": ("*f { str r0, [sp, #-4]; bx lr }", r"f: 0: str .*: a place below the stack pointer"),
    "a place below the stack pointer by a register": ("*f { ldr r0, [sp, -r1, lsl #2]; bx lr }", r"f: 0: ldr .*: a place below the stack pointer"),
    "places below the stack pointer": ("*f { stmdb sp, {r0, r1}; bx lr }", r"f: 0: stmdb .*: a place below the stack pointer"),
    "an address below the stack pointer": ("*f { sub r0, sp, #8; bx lr }", r"f: 0: sub .*: a place below the stack pointer"),
    "a store that pops": ("*f { push {r4}; str r0, [sp], #4; bx lr }", r"f: 4: str .*: a write to the stack pointer"),
    "a store of several registers that pops": ("*f { stmia sp!, {r0, r1}; bx lr }", r"f: 0: stmia .*: a write to the stack pointer"),
    "a load that pushes": ("*f { ldr r0, [sp, #-4]!; bx lr }", r"f: 0: ldr .*: a write to the stack pointer"),
    "a register of VFP": ("*f { vmov s0, r0; bx lr }", r"f: 0: vmov s0, r0: not one of the core instructions"),
    "a push of registers of VFP": ("*f { vpush {d8}; vpop {d8}; bx lr }", r"f: 0: vpush .*: not one of the core instructions"),
    "a register of NEON": ("*f { .fpu neon; vmov.i32 q0, #0; bx lr }", r"f: 0: vmov.i32 .*: not one of the core instructions"),
    "a coprocessor": ("*f { mcr p15, 0, r0, c7, c10, 5; bx lr }", r"f: 0: mcr .*: not one of the core instructions"),
    "a load of a coprocessor": ("*f { ldc p14, c5, [r0]; bx lr }", r"f: 0: ldc .*: not one of the core instructions"),
    "a system call": ("*f { svc #0; bx lr }", r"f: 0: svc .*: not one of the core instructions"),
    "an instruction that is none": ("*f { push {r4}; .inst 0xffffffff; pop {r4}; bx lr }", r"f: 4: .*UNDEFINED.*: not one of the core instructions"),
    "Thumb code": ("*f { .thumb; push {r4, lr}; pop {r4, pc}; .arm }", r"f: 0: push .*: an instruction that is not of A32$"),
    "depths that differ where two paths meet": (
        "*f { cmp r0, #0; beq 1f; push {r4}; 1: nop; udf #0 }", r"it leads to c with (0|4) bytes on the stack, another path with (0|4)$"),
    "a loop that pushes": ("*f { 1: push {r4}; subs r0, r0, #1; bne 1b; udf #0 }", r"f: 8: bne .*: it leads to 0 with 4 bytes on the stack"),
    "a return with bytes on the stack": ("*f { push {r4}; bx lr }", r"f: 4: bx lr: it returns with 4 bytes on the stack$"),
    "a return on a condition with bytes on the stack": ("*f { push {r4}; bxne lr; udf #0 }", r"f: 4: bxne lr: it returns with 4 bytes on the stack$"),
    "more freed than reserved": ("*f { add sp, sp, #8; bx lr }", r"f: 0: add .*: it takes more from the stack than the function put there$"),
    "a jump away with bytes on the stack": (
        "*f { push {r4}; b g } g { pop {r4}; bx lr }", r"f: 4: b .*: it leaves the function with 4 bytes on the stack$"),
    "a jump into another function": ("*f { b 5f } g { nop; 5: bx lr }", r"f: 0: b .*: it leads to .*, where no function starts$"),
    "a jump into data": ("*f { b 1f; 1: .word 0 }", r"f: 4: \.word .*: data, which is no instruction$"),
    "a function that runs on": ("*f { push {r4}; pop {r4} } g { bx lr }", r"f: 4: pop .*: it leads to 8, where the function has no instruction$"),
    "a call that is the end": ("*f { push {lr}; bl g } g { bx lr }", r"f: 4: bl .*: it leads to 8, where the function has no instruction$"),
    "an undefined symbol": ("*f { b abort }", r"f: 0: b .*: it leads to abort, which is undefined and not known as external$"),
    "a place in an undefined symbol": ("*f { b memcpy + 8 }", r"f: 0: b .*: a place in an undefined symbol$"),
    "a place in an export": ("*f { b g + 4 } *g { nop; bx lr }", r"f: 0: b .*: it leads to \.text\+8, where no function starts$"),
    "another relocation": ("*f { bl memcpy(tlscall); bx lr }", r"f: 0: bl .*: the relocation R_ARM_TLS_CALL$"),
    "a refusal two calls below": ("*f { b g } g { b h } h { wfi }", r"h: .*: wfi: not one of the core instructions"),
}

FUNCTION = re.compile(r"\s*(\*?)(\w+) \{((?:[^{}]|\{[^{}]*\})*)\}")


def assembly(text, syntax):
    """Functions in braces as assembly, each with its size."""
    lines = [syntax, ".text"]
    while match := FUNCTION.match(text):
        star, name, body = match.groups()
        lines += [f".globl {name}"] * len(star)
        lines += [f".type {name}, %function", f"{name}:", body, f".size {name}, . - {name}"]
        text = text[match.end():]
    return "\n".join([*lines, text, '.section .note.GNU-stack,"",%progbits', ""])


class Machine:
    """Known bounds and refusals on one machine."""

    def setUp(self):
        folder = tempfile.TemporaryDirectory()
        self.addCleanup(folder.cleanup)
        self.folder = Path(folder.name)

    def build(self, text, name):
        source, built = self.folder / f"{name}.s", self.folder / f"{name}.o"
        source.write_text(assembly(text, self.SYNTAX))
        subprocess.run([*self.COMPILER, "-c", source, "-o", built], check=True)
        return built

    def run_on(self, *arguments):
        return subprocess.run([TOOL, *arguments], stdout=subprocess.PIPE, stderr=subprocess.PIPE, text=True)

    def run_tool(self, text, *options):
        return self.run_on(*options, self.build(text, "code"))

    def run_archive(self, *texts):
        archive = self.folder / "code.a"
        members = [self.build(text, f"member{number}") for number, text in enumerate(texts)]
        subprocess.run(["ar", "rc", archive, *members], check=True)
        return self.run_on(archive)

    def bounds(self, text):
        found = tool.Program(self.build(text, "code"), tool.EXTERNAL).bounds()
        return {name: tool.depth_of(chain) for name, chain in found.items()}

    def test_bounds(self):
        for name, (text, bounds) in self.BOUNDS.items():
            with self.subTest(name):
                self.assertEqual(self.bounds(text), bounds)

    def test_refusals(self):
        for name, (text, refusal) in self.REFUSALS.items():
            with self.subTest(name), self.assertRaisesRegex(tool.Refused, refusal):
                self.bounds(text)


@unittest.skipUnless(shutil.which("arm-linux-gnueabihf-gcc"), "arm-linux-gnueabihf-gcc is not on the path")
class Armv7(Machine, unittest.TestCase):
    COMPILER, SYNTAX, BOUNDS, REFUSALS = ["arm-linux-gnueabihf-gcc", "-marm"], ".syntax unified", ARM_BOUNDS, ARM_REFUSALS

    def test_frames_add_up(self):
        done = self.run_tool(ARM_BOUNDS["the deepest of three chains"][0], "--frames")
        self.assertEqual((done.stdout.split(), done.stderr), ("24 f 8 f 16 h".split(), ""))

    def test_members_of_an_archive(self):
        texts = "*f { push {lr}; bl g; pop {pc} } h { bx lr }", "*g { push {r4, lr}; bl h; pop {r4, pc} } h { push {r4}; pop {r4}; bx lr }"
        done = self.run_archive(*texts)
        self.assertEqual((done.stdout.split(), done.returncode), ("16 f 12 g".split(), 0))


class Stack(Machine, unittest.TestCase):
    COMPILER, SYNTAX, BOUNDS, REFUSALS = ["gcc"], ".intel_syntax noprefix", BOUNDS, REFUSALS

    def test_a_refusal_is_all_that_is_printed(self):
        done = self.run_tool("*f { ret } *g { call rax; ret }")
        self.assertEqual((done.stdout, done.stderr, done.returncode), ("", "tools/stack: code.o: g: 1: call rax: an indirect call\n", 1))

    def test_frames_add_up(self):
        done = self.run_tool(BOUNDS["the deepest of three chains"][0], "--frames")
        self.assertEqual(done.stdout.split(), "48 f 16 f 24 h 8 g".split())

    def test_external_functions_are_named(self):
        done = self.run_tool("*f { call abort; ret }", "--external", "abort")
        self.assertEqual((done.stdout.split(), done.returncode), (["16", "f"], 0))

    def test_members_of_an_archive(self):
        done = self.run_archive("*f { call g; ret } h { ret }", "*g { push rbx; call h; pop rbx; ret } h { sub rsp, 0x30; add rsp, 0x30; ret }")
        self.assertEqual((done.stdout.split(), done.returncode), ("80 f 72 g".split(), 0))

    def test_archives_that_are_refused(self):
        for texts, refusal in ((("*f { call g; ret }", "*g { call f; ret }"), "recursion through f, g"),
                               (("*f { ret }", "*f { ret }"), "two members export f"),
                               (("f { ret }",), "no exported function"),
                               (("*f { call g; ret }", "g { ret }"), "it leads to g, which is undefined")):
            with self.subTest(refusal):
                done = self.run_archive(*texts)
                (self.folder / "code.a").unlink()
                self.assertEqual((done.stdout, done.returncode), ("", 1))
                self.assertIn(refusal, done.stderr)

    def test_two_archives_with_one_export(self):
        done = self.run_on(self.build("*f { ret }", "one"), self.build("*f { push rbx; pop rbx; ret }", "two"))
        self.assertEqual((done.stdout, done.returncode), ("", 1))
        self.assertIn("two.o: another archive exports f", done.stderr)

    def test_a_file_that_is_missing(self):
        done = self.run_on(self.folder / "missing.a")
        self.assertEqual((done.stdout, done.returncode), ("", 1))

    def test_a_program_that_is_missing(self):
        code = self.folder / "code.o"
        for machine, program in ((b"\x3e\x00", "objdump"), (b"\x28\x00", "arm-linux-gnueabihf-objdump")):
            code.write_bytes(b"\x7fELF".ljust(18, b"\0") + machine)
            done = subprocess.run([sys.executable, TOOL, code], capture_output=True, text=True, env=os.environ | {"PATH": str(self.folder)})
            self.assertEqual((done.stdout, done.returncode), ("", 2))
            self.assertEqual(done.stderr, f"tools/stack: missing on the path: {program} (prints machine code)\n")

    def check(self, rows, heading="Stack", options=()):
        document = self.folder / "document.md"
        document.write_text(f"## Other\n\n| `f` | 7 |\n\n## {heading}\n\n| Call | Bytes |\n|---|---|\n{rows}\n## Next\n\n| `f` | 9 |\n")
        return self.run_tool("*f { sub rsp, 0x500; add rsp, 0x500; ret } *g { ret }", "--check", document, *options)

    def test_a_document_that_is_missing(self):
        done = self.run_tool("*f { ret }", "--check", self.folder / "missing.md")
        self.assertEqual((done.stdout, done.returncode), ("", 2))
        self.assertIn("missing.md", done.stderr)

    def test_a_document_that_agrees(self):
        self.assertEqual(self.check("| `f` | 1,288 |\n| `g` | 8 |\n").returncode, 0)
        self.assertEqual(self.check("| `f` | 1,288 |\n| `g` | 8 |\n", "Stack on ARM (v7)", ["--heading", "Stack on ARM (v7)"]).returncode, 0)

    def test_a_table_under_another_heading(self):
        for heading, options in (("Stack on ARMv7", []), ("Stack", ["--heading", "Stack on ARMv7"])):
            with self.subTest(heading):
                self.assertEqual(self.check("| `f` | 1,288 |\n| `g` | 8 |\n", heading, options).returncode, 1)

    def test_documents_that_differ(self):
        for rows in ("| `f` | 1,280 |\n| `g` | 8 |\n", "| `f` | 1,296 |\n| `g` | 8 |\n", "| `f` | 1,288 |\n", "", "| `f`, `g` | 1,288 |\n",
                     "| `f` | 1,288 |\n| `g` | 8 |\n| `h` | 8 |\n", "| `f` | 1,288 |\n| `g` | 8 |\n| `g` | 8 |\n"):
            with self.subTest(rows):
                done = self.check(rows)
                self.assertEqual((done.stdout, done.returncode), ("", 1))
                self.assertIn("document.md: of ", done.stderr)


if __name__ == "__main__":
    unittest.main()
