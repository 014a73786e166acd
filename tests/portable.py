#!/usr/bin/env python3
"""tools/portable.py on modules of which one is the same on both targets and each of the others is not, for a reason that is known."""
import sys
import unittest
from pathlib import Path

sys.dont_write_bytecode = True
sys.path.insert(0, str(Path(__file__).resolve().parent.parent / "tools"))
import portable  # noqa: E402

HEAD = f"""source_filename = "rattle"
target datalayout = "{portable.LAYOUT}"
target triple = "{portable.TRIPLE}"
"""
TAIL = """
declare void @llvm.memmove.p0.p0.i64(ptr writeonly captures(none), ptr readonly captures(none), i64, i1 immarg) #1
declare void @llvm.memset.p0.i64(ptr writeonly captures(none), i8, i64, i1 immarg) #2
declare void @llvm.trap() #3
attributes #0 = { nounwind "probe-stack"="inline-asm" "stack-probe-size"="3072" "target-cpu"="x86-64-v2" }
attributes #1 = { nocallback nofree nounwind willreturn memory(argmem: readwrite) }
attributes #2 = { nocallback nofree nounwind willreturn memory(argmem: write) }
attributes #3 = { cold noreturn nounwind memory(inaccessiblemem: write) }
"""

# An export that lays out a slice, and a function that copies it and reads through it.
SLICE = """
define internal noundef i32 @"m::first"(ptr noundef %a0, i64 noundef %a1) #0 {
start:
  %r0 = alloca [16 x i8], align 8
  call void @llvm.memmove.p0.p0.i64(ptr %r0, ptr %a0, i64 16, i1 false)
  %r1 = load ptr, ptr %r0, align 8, !noundef !1
  %r2 = getelementptr i8, ptr %r0, i64 8
  %r3 = load i64, ptr %r2, align 8, !noundef !1
  %r4 = icmp ult i64 %a1, %r3
  br i1 %r4, label %then.1, label %else.2

then.1:                                           ; preds = %start
  %r5 = getelementptr inbounds nuw i8, ptr %r1, i64 %a1
  %r6 = load i8, ptr %r5, align 1, !noundef !1
  %r7 = zext i8 %r6 to i32
  ret i32 %r7

else.2:                                           ; preds = %start
  call void @llvm.trap()
  unreachable
}

define noundef i32 @pagemon_first(ptr noundef %a0, i64 noundef %a1) #0 {
start:
  %r0 = alloca [16 x i8], align 8
  store ptr %a0, ptr %r0, align 8
  %r1 = getelementptr i8, ptr %r0, i64 8
  store i64 %a1, ptr %r1, align 8
  %r2 = call i32 @"m::first"(ptr %r0, i64 0)
  ret i32 %r2
}
"""


def exported(body, parameters="ptr noundef %a0, i64 noundef %a1", result="void"):
    """A module with one export."""
    return HEAD + f"define {result} @pagemon_f({parameters}) #0 {{\nstart:\n{body}\n}}\n" + TAIL


def internal(body):
    """A module with a function that only stands there, behind those with the slice."""
    return HEAD + SLICE + f'define internal void @"m::f"(ptr noundef %a0) #0 {{\nstart:\n{body}\n  ret void\n}}\n' + TAIL


def two(caller, callee, parameters="ptr noundef %a0"):
    """A module with a function and an export that may call it."""
    function = f'define internal void @"m::g"({parameters}) #0 {{\nstart:\n{callee}\n  ret void\n}}\n'
    return exported(caller + "\n  ret void").replace(HEAD, HEAD + function)


def move(to, from_, bytes_):
    return f"  call void @llvm.memmove.p0.p0.i64(ptr {to}, ptr {from_}, i64 {bytes_}, i1 false)\n"


def element(to, of, offset):
    return f"  {to} = getelementptr i8, ptr {of}, i64 {offset}\n"


# Pieces of functions: an address at the start of a region, or 16 bytes on; numbers; a copy of a copy, each 8 bytes further on; and three regions, of which
# the second is copied 8 bytes into the first, and the third 8 bytes into the second.
ADDRESS = "  %r0 = alloca [32 x i8], align 8\n  store ptr %a0, ptr %r0, align 8\n"
BEHIND = "  %r0 = alloca [32 x i8], align 8\n" + element("%r1", "%r0", 16) + "  store ptr %a0, ptr %r1, align 8\n"
NUMBERS = "  %r1 = alloca [8 x i8], align 8\n  store i64 0, ptr %r1, align 8\n"
COPIES = ("  %r0 = alloca [8 x i8], align 8\n  store ptr %a0, ptr %r0, align 8\n  %r1 = alloca [16 x i8], align 8\n" + element("%r2", "%r1", 8)
          + move("%r2", "%r0", 8) + "  %r3 = alloca [32 x i8], align 8\n" + element("%r4", "%r3", 8) + move("%r4", "%r1", 16))
DEEP = "  %r0 = alloca [64 x i8], align 8\n  %r1 = alloca [32 x i8], align 8\n  %r2 = alloca [16 x i8], align 8\n"
OUTER = element("%r3", "%r0", 8) + move("%r3", "%r1", 32)
INNER = element("%r4", "%r1", 8) + move("%r4", "%r2", 16)
STORED = "  store ptr %a0, ptr %r2, align 8\n"
BOTH = "  %r0 = alloca [8 x i8], align 8\n  %r1 = alloca [32 x i8], align 8\n" + element("%r2", "%r1", 8) + move("%r2", "%r0", 8)

# Constant bytes, and a function that returns two numbers, one of which may have no value.
CONSTANT = '@static.0 = private unnamed_addr constant [4 x i8] c"a;\\03\\9D", align 1\n'
TWO_NUMBERS = """define internal noundef { i32, i32 } @"m::two"(i32 %a0) #0 {
start:
  %r0 = alloca [8 x i8], align 4
  store i32 %a0, ptr %r0, align 4
  %r1 = load { i32, i32 }, ptr %r0, align 4
  ret { i32, i32 } %r1
}
"""

# An address of memory that holds an address, kept in memory and followed.
KEPT = """  %r0 = alloca [16 x i8], align 8
  store ptr %a0, ptr %r0, align 8
  %r1 = alloca [16 x i8], align 8
  store ptr %r0, ptr %r1, align 8
  %r2 = load ptr, ptr %r1, align 8
  %r3 = load ptr, ptr %r2, align 8"""

# A module of which one function asks to be compiled into its callers.
HINTED = (HEAD + SLICE.replace("%a1) #0 {", "%a1) #1 {", 1) + TAIL.replace(") #2", ") #5").replace(") #1", ") #4").replace("#2 =", "#5 =").replace(
    "#1 =", "#4 =")).replace("attributes #4", f"attributes #1 = {{ inlinehint nounwind{portable.TARGET_ATTRIBUTES} }}\nattributes #4")

SAME = {
    "a slice that is made, copied and read": HEAD + SLICE + TAIL,
    "a function that is named with a type": HEAD + SLICE.replace("m::first", "m::first<Region<'_>>") + TAIL,
    "a function that asks to be compiled into its callers": HINTED,
    "an array that is cleared and indexed": exported("""  %r0 = alloca [64 x i8], align 4
  call void @llvm.memset.p0.i64(ptr %r0, i8 0, i64 64, i1 false)
  %r1 = mul nuw i64 %a1, 4
  %r2 = getelementptr inbounds nuw i8, ptr %r0, i64 %r1
  store i32 7, ptr %r2, align 4
  ret void"""),
    "an address and a number side by side in what a function is lent": internal("""  %r0 = load ptr, ptr %a0, align 8
  %r1 = getelementptr i8, ptr %a0, i64 8
  store i64 0, ptr %r1, align 8"""),
    "a slice that may be null": exported("""  %r0 = alloca [16 x i8], align 8
  %r1 = icmp eq ptr %a0, null
  %r2 = zext i1 %r1 to i64
  %r3 = mul i64 %r2, 4096
  %r4 = getelementptr i8, ptr %a0, i64 %r3
  store ptr %r4, ptr %r0, align 8
  %r5 = getelementptr i8, ptr %r0, i64 8
  store i64 %a1, ptr %r5, align 8
  %r6 = load ptr, ptr %r0, align 1
  %r7 = load i8, ptr %r6, align 1
  ret void"""),
    "a slice in memory that is made of zeros": exported("""  %r0 = alloca [16 x i8], align 8
  %r1 = alloca i64, align 8
  call void @llvm.memset.p0.i64(ptr %r0, i8 0, i64 16, i1 false)
  store ptr %a0, ptr %r0, align 8
  ret void"""),
    "bytes that are constant": HEAD + CONSTANT + exported("""  %r0 = alloca ptr, align 8
  store ptr @static.0, ptr %r0, align 8
  %r1 = load ptr, ptr %r0, align 8, !noundef !1
  %r2 = getelementptr inbounds nuw i8, ptr %r1, i64 %a1
  %r3 = load i8, ptr %r2, align 1, !noundef !1
  ret void""").removeprefix(HEAD),
    "two numbers that a function returns": HEAD + TWO_NUMBERS + exported("""  %r0 = call { i32, i32 } @"m::two"(i32 7)
  %r1 = extractvalue { i32, i32 } %r0, 0
  ret void""").removeprefix(HEAD),
    "a number and a byte that a function returns": HEAD + TWO_NUMBERS.replace("{ i32, i32 }", "{ i32, i8 }") + SLICE + TAIL,
    "two bytes that a function returns": HEAD + TWO_NUMBERS.replace("{ i32, i32 }", "{ i8, i8 }") + SLICE + TAIL,
    "a byte and a number that a function returns": HEAD + TWO_NUMBERS.replace("{ i32, i32 }", "{ i8, i32 }") + SLICE + TAIL,
    "a byte and a number of 64 bits that a function returns": HEAD + TWO_NUMBERS.replace("{ i32, i32 }", "{ i8, i64 }").replace("[8 x", "[16 x") + SLICE + TAIL,
    "two numbers of 64 bits that a function returns": HEAD + TWO_NUMBERS.replace("{ i32, i32 }", "{ i64, i64 }").replace("[8 x", "[16 x") + SLICE + TAIL,
    "two numbers that may both have no value": HEAD + TWO_NUMBERS.replace("noundef ", "") + SLICE + TAIL,
    "an address of an address that a function keeps": internal(KEPT),
    "numbers of several sizes at one place": exported("""  %r0 = alloca i64, align 8
  store i8 1, ptr %r0, align 1
  %r1 = load i32, ptr %r0, align 4
  ret void"""),
    "numbers that are copied beside an address": exported(
        ADDRESS + element("%r2", "%r0", 8) + NUMBERS + move("%r2", "%r1", 8) + "  ret void"),
    "a number that a function reads beside an address": two(
        BEHIND + element("%r2", "%r0", 8) + '  call void @"m::g"(ptr %r2)', "  %r1 = load i64, ptr %a0, align 8"),
    "a number in a copy of a copy": exported(COPIES + element("%r5", "%r3", 8) + "  %r6 = load i64, ptr %r5, align 8\n  ret void"),
    "a number beside a copy out of a copy": exported(
        DEEP + OUTER + INNER + STORED + element("%r5", "%r0", 8) + "  %r6 = load i64, ptr %r5, align 8\n  ret void"),
    "a number beside a copy, then its copy": exported(
        DEEP + INNER + OUTER + STORED + element("%r5", "%r0", 8) + "  %r6 = load i64, ptr %r5, align 8\n  ret void"),
    "one name for an address alone and for numbers": two(
        "  %r0 = alloca i64, align 8\n  store i64 %a1, ptr %r0, align 8", "  %r0 = alloca ptr, align 8\n  store ptr %a0, ptr %r0, align 8"),
}

TYPES = 'a call of @"m::g", which the module does not define with these types'
FORM = "no form that is the same on both targets"
NUMBER = "a place that holds an address is also used as a number"
ALONE = "the place of an address alone is used as another"
LOOSE = "memory that holds an address is reached at a place that is not constant"
REFUSED = {
    "an address made a number": (exported("  %r0 = ptrtoint ptr %a0 to i64\n  ret void"), FORM),
    "a number made an address": (exported("  %r0 = inttoptr i64 %a1 to ptr\n  ret void"), FORM),
    "addresses that are compared": (exported("  %r0 = icmp eq ptr %a0, %a0\n  ret void"), FORM),
    "an address that is compared with null by size": (exported("  %r0 = icmp ugt ptr %a0, null\n  ret void"), FORM),
    "a vector": (exported("  %r0 = alloca <4 x i32>, align 8\n  ret void"), FORM),
    "a floating-point number": (exported("  %r0 = alloca double, align 8\n  ret void"), FORM),
    "a number of 128 bits": (exported("  %r0 = alloca i128, align 8\n  ret void"), FORM),
    "an array of addresses": (exported("  %r0 = alloca [2 x ptr], align 8\n  ret void"), FORM),
    "an intrinsic of x86": (exported("  call void @llvm.x86.sse2.pause()\n  ret void"), FORM),
    "an instruction of the processor in text": (exported('  call void asm sideeffect "nop", ""()\n  ret void'), FORM),
    "an atomic store": (exported("  %r0 = alloca i32, align 4\n  store atomic i32 0, ptr %r0 seq_cst, align 4\n  ret void"), FORM),
    "an offset counted in addresses": (exported("  %r0 = getelementptr ptr, ptr %a0, i64 1\n  ret void"), FORM),
    "a constant expression": (exported("""  %r0 = alloca i64, align 8
  store i64 ptrtoint (ptr @f to i64), ptr %r0, align 8
  ret void"""), FORM),
    "a variable of the module": (HEAD + "@v = global i32 0\n" + SLICE + TAIL, FORM),
    "an attribute of the target": ((HEAD + SLICE + TAIL).replace('"target-cpu"="x86-64-v2"', '"target-features"="+sse4"'), FORM),
    "another layout": ((HEAD + SLICE + TAIL).replace("-i64:64-", "-i64:32-"), FORM),
    "bytes that a function may write": (HEAD + CONSTANT.replace("constant", "global") + SLICE + TAIL, FORM),
    "a constant of addresses": (HEAD + "@static.0 = private unnamed_addr constant [1 x ptr] [ptr @f], align 8\n" + SLICE + TAIL, FORM),
    "an address that is read from constant bytes": (HEAD + CONSTANT.replace("[4", "[8").replace("a;", "a;bcde") + exported("""  %r0 = alloca ptr, align 8
  store ptr @static.0, ptr %r0, align 8
  %r1 = load ptr, ptr %r0, align 8
  %r2 = load ptr, ptr %r1, align 8
  ret void""").removeprefix(HEAD), "an address at a place that is not constant"),
    "constant bytes that are not there": (exported("  %r0 = alloca ptr, align 8\n  store ptr @static.7, ptr %r0, align 8\n  ret void"), "@static.7 is no place"),
    "two numbers of other sizes": (HEAD + TWO_NUMBERS.replace("{ i32, i32 }", "{ i32, i64 }") + SLICE + TAIL, FORM),
    "a number of 64 bits and a byte that a function returns": (HEAD + TWO_NUMBERS.replace("{ i32, i32 }", "{ i64, i8 }") + SLICE + TAIL, FORM),
    "an address that is read as a byte and a number of 64 bits": (internal("""  %r0 = alloca [16 x i8], align 8
  %r1 = getelementptr i8, ptr %r0, i64 8
  store ptr %a0, ptr %r1, align 8
  %r2 = load { i8, i64 }, ptr %r0, align 8"""), NUMBER),
    "an address of an address that an export keeps": (exported(KEPT + "\n  ret void"), "an address at a place that is not constant"),
    "a number where an address of an address leads": (internal(KEPT.replace("load ptr, ptr %r2", "load i64, ptr %r2")), NUMBER),
    "a result of an export that may have no value": (exported("  ret i32 0", result="i32"), "the calling conventions may differ"),
    "an address and a number that a function returns": (HEAD + TWO_NUMBERS.replace("{ i32, i32 }", "{ ptr, i32 }") + SLICE + TAIL, FORM),
    "two numbers that an export returns": (
        exported("  %r0 = load { i32, i32 }, ptr %a0, align 4\n  ret { i32, i32 } %r0", result="noundef { i32, i32 }"),
        "an export with a type on which the calling conventions may differ"),
    "two numbers for one": (HEAD + TWO_NUMBERS + exported('  %r0 = call i64 @"m::two"(i32 7)\n  ret void').removeprefix(HEAD),
                            'a call of @"m::two", which the module does not define with these types'),
    "a number and a byte for two numbers": (HEAD + TWO_NUMBERS + exported('  %r0 = call { i32, i8 } @"m::two"(i32 7)\n  ret void').removeprefix(HEAD),
                                            'a call of @"m::two", which the module does not define with these types'),
    "an address that is read as two numbers": (exported("""  %r0 = alloca [8 x i8], align 8
  store ptr %a0, ptr %r0, align 8
  %r1 = load { i32, i32 }, ptr %r0, align 4
  ret void"""), NUMBER),
    "an export whose argument may have no value": (exported("  ret void", "ptr noundef %a0, i64 %a1"),
                                                   "an export with a type on which the calling conventions may differ"),
    "text for the assembler": (HEAD + 'module asm "nop"\n' + SLICE + TAIL, FORM),
    "a struct that is handed over": (exported("  ret void", "ptr noundef byval([16 x i8]) %a0"), FORM),
    "an address in what C lends": (exported("  %r0 = load ptr, ptr %a0, align 8\n  ret void"), "an address in memory that an export is lent"),
    "a place that is returned": (exported("  ret ptr %a0", result="noundef ptr"), FORM),
    "an alignment of 16": (exported("  %r0 = alloca [16 x i8], align 16\n  ret void"), "an alignment of more than 8 bytes"),
    "an export that takes a byte": (exported("  ret void", "i8 noundef %a0"), "the calling conventions may differ"),
    "an export that takes a bool": (exported("  ret void", "i1 noundef zeroext %a0"), "the calling conventions may differ"),
    "an export that returns a byte": (exported("  ret i8 0", result="noundef i8"), "the calling conventions may differ"),
    "an export that is named otherwise": ((HEAD + SLICE + TAIL).replace("@pagemon_first", "@memset"), "an export that is not named as the monitor's are"),
    "an array of 4 GiB": (exported("  %r0 = alloca [4294967312 x i8], align 8\n  ret void"), FORM),
    "a function that is not there": (exported("  call void @abort()\n  ret void"), "a call of @abort, which the module does not define"),
    "an address for a number": (two('  call void @"m::g"(ptr %a0)', "", "i64 noundef %a0"), TYPES),
    "a number of 32 bits for one of 64": (two('  call void @"m::g"(i32 7)', "", "i64 noundef %a0"), TYPES),
    "an argument too few": (two('  call void @"m::g"()', "", "i64 noundef %a0"), TYPES),
    "another result": (two('  %r0 = call i64 @"m::g"(i64 %a1)', "", "i64 noundef %a0"), TYPES),
    "an address that is read as a number": (exported("""  %r0 = alloca [8 x i8], align 8
  store ptr %a0, ptr %r0, align 8
  %r1 = load i64, ptr %r0, align 8
  ret void"""), NUMBER),
    "a number that is read as an address": (exported("""  %r0 = alloca i64, align 8
  store i64 %a1, ptr %r0, align 8
  %r1 = load ptr, ptr %r0, align 8
  ret void"""), NUMBER),
    "an address alone that is read as a number": (exported("  %r0 = alloca ptr, align 8\n  %r1 = load i64, ptr %r0, align 8\n  ret void"), ALONE),
    "an address alone that is copied": (exported("""  %r0 = alloca ptr, align 8
  %r1 = alloca [8 x i8], align 8
  call void @llvm.memmove.p0.p0.i64(ptr %r0, ptr %r1, i64 8, i1 false)
  ret void"""), ALONE),
    "an address alone that is cleared": (exported("""  %r0 = alloca ptr, align 8
  call void @llvm.memset.p0.i64(ptr %r0, i8 0, i64 8, i1 false)
  ret void"""), ALONE),
    "a place behind an address alone": (exported("  %r0 = alloca ptr, align 8\n  %r1 = getelementptr i8, ptr %r0, i64 4\n  ret void"), ALONE),
    "an address alone that is handed over": (internal('  %r0 = alloca ptr, align 8\n  call void @"m::f"(ptr %r0)'), ALONE),
    "an address alone that an address leads to": (exported("""  %r0 = alloca ptr, align 8
  %r1 = alloca ptr, align 8
  store ptr %r0, ptr %r1, align 8
  ret void"""), ALONE),
    "half an address that is copied": (exported("""  %r0 = alloca [16 x i8], align 8
  store ptr %a0, ptr %r0, align 8
  %r1 = alloca [16 x i8], align 8
  call void @llvm.memmove.p0.p0.i64(ptr %r1, ptr %r0, i64 4, i1 false)
  ret void"""), "a copy of a part of an address"),
    "a slice that is copied in any length": (exported("""  %r0 = alloca [16 x i8], align 8
  store ptr %a0, ptr %r0, align 8
  %r1 = alloca [16 x i8], align 8
  call void @llvm.memmove.p0.p0.i64(ptr %r1, ptr %r0, i64 %a1, i1 false)
  ret void"""), "memory that holds an address is copied in a length that is not constant"),
    "the second half of an address that is read": (exported("""  %r0 = alloca [8 x i8], align 8
  store ptr %a0, ptr %r0, align 8
  %r1 = getelementptr i8, ptr %r0, i64 4
  %r2 = load i32, ptr %r1, align 4
  ret void"""), NUMBER),
    "an address that is cleared": (exported("""  %r0 = alloca [16 x i8], align 8
  store ptr %a0, ptr %r0, align 8
  call void @llvm.memset.p0.i64(ptr %r0, i8 0, i64 16, i1 false)
  ret void"""), NUMBER),
    "memory that is made of zeros in part": (exported("""  %r0 = alloca [16 x i8], align 8
  call void @llvm.memset.p0.i64(ptr %r0, i8 0, i64 4, i1 false)
  store ptr %a0, ptr %r0, align 8
  ret void"""), NUMBER),
    "memory that is made of ones": (exported("""  %r0 = alloca [16 x i8], align 8
  call void @llvm.memset.p0.i64(ptr %r0, i8 1, i64 16, i1 false)
  store ptr %a0, ptr %r0, align 8
  ret void"""), NUMBER),
    "memory that is made of zeros twice": (exported("""  %r0 = alloca [16 x i8], align 8
  call void @llvm.memset.p0.i64(ptr %r0, i8 0, i64 16, i1 false)
  call void @llvm.memset.p0.i64(ptr %r0, i8 0, i64 16, i1 false)
  store ptr %a0, ptr %r0, align 8
  ret void"""), NUMBER),
    "memory that is made of zeros in another block": (exported("""  %r0 = alloca [16 x i8], align 8
  br label %then.1
then.1:
  call void @llvm.memset.p0.i64(ptr %r0, i8 0, i64 16, i1 false)
  store ptr %a0, ptr %r0, align 8
  ret void"""), NUMBER),
    "an address in memory that is made of zeros, read as a number": (exported("""  %r0 = alloca [16 x i8], align 8
  call void @llvm.memset.p0.i64(ptr %r0, i8 0, i64 16, i1 false)
  store ptr %a0, ptr %r0, align 8
  %r1 = load i64, ptr %r0, align 8
  ret void"""), NUMBER),
    "a copy of an address that is read as a number": (exported("""  %r0 = alloca [16 x i8], align 8
  store ptr %a0, ptr %r0, align 8
  %r1 = alloca [24 x i8], align 8
  %r2 = getelementptr i8, ptr %r1, i64 8
  call void @llvm.memmove.p0.p0.i64(ptr %r2, ptr %r0, i64 16, i1 false)
  %r3 = getelementptr i8, ptr %r1, i64 8
  %r4 = load i64, ptr %r3, align 8
  ret void"""), NUMBER),
    "an address that another function reads as a number": (internal("  %r0 = load i64, ptr %a0, align 8").replace(
        '  %r2 = call i32 @"m::first"(ptr %r0, i64 0)', '  call void @"m::f"(ptr %r0)\n  %r2 = call i32 @"m::first"(ptr %r0, i64 0)'), NUMBER),
    "an address behind an address": (exported("""  %r0 = alloca ptr, align 8
  store ptr %a0, ptr %r0, align 8
  %r1 = load ptr, ptr %r0, align 8
  %r2 = load ptr, ptr %r1, align 8
  ret void"""), "an address at a place that is not constant"),
    "an address at an index": (exported("""  %r0 = alloca [64 x i8], align 8
  %r1 = getelementptr i8, ptr %r0, i64 %a1
  store ptr %a0, ptr %r1, align 8
  ret void"""), "an address at a place that is not constant"),
    "an address in an array that is indexed": (exported("""  %r0 = alloca [64 x i8], align 8
  store ptr %a0, ptr %r0, align 8
  %r1 = getelementptr i8, ptr %r0, i64 %a1
  %r2 = load i8, ptr %r1, align 1
  ret void"""), LOOSE),
    "an address in what a pointer leads to": (exported("""  %r0 = alloca [16 x i8], align 8
  store ptr %a0, ptr %r0, align 8
  %r1 = alloca ptr, align 8
  store ptr %r0, ptr %r1, align 8
  ret void"""), LOOSE),
    "an address that straddles": (exported("""  %r0 = alloca [16 x i8], align 8
  %r1 = getelementptr i8, ptr %r0, i64 4
  store ptr %a0, ptr %r1, align 4
  ret void"""), "an address at a place that is no multiple of 8"),
    "a slice that is copied within its own memory": (exported(ADDRESS + element("%r1", "%r0", 16) + move("%r1", "%r0", 16) + "  ret void"), LOOSE),
    "numbers that are copied over an address": (exported(ADDRESS + NUMBERS + move("%r0", "%r1", 8) + "  ret void"), NUMBER),
    "numbers that are copied over an address further on": (exported(
        BEHIND.replace("%r1", "%r2") + NUMBERS + move("%r2", "%r1", 8) + "  ret void"), NUMBER),
    "an array that is indexed and copied over an address": (exported(
        ADDRESS + "  %r1 = alloca [32 x i8], align 8\n" + element("%r2", "%r1", "%a1") + "  store i8 0, ptr %r2, align 1\n"
        + move("%r0", "%r1", 32) + "  ret void"), LOOSE),
    "an address two steps on": (exported(
        BEHIND + element("%r2", "%r0", 8) + element("%r3", "%r2", 8) + "  %r4 = load i64, ptr %r3, align 8\n  ret void"), NUMBER),
    "an address at an index and a constant": (exported(
        "  %r0 = alloca [64 x i8], align 8\n" + element("%r1", "%r0", "%a1") + element("%r2", "%r1", 8) + "  store ptr %a0, ptr %r2, align 8\n  ret void"),
        "an address at a place that is not constant"),
    "an address that is cleared in any length": (exported(
        ADDRESS + "  call void @llvm.memset.p0.i64(ptr %r0, i8 0, i64 %a1, i1 false)\n  ret void"), LOOSE),
    "a number that reaches into an address": (exported(BEHIND + element("%r2", "%r0", 12) + "  store i64 0, ptr %r2, align 4\n  ret void"), NUMBER),
    "an address that a second parameter reads as a number": (two(
        ADDRESS + '  %r1 = alloca [8 x i8], align 8\n  call void @"m::g"(ptr %r1, ptr %r0)', "  %r0 = load i64, ptr %a1, align 8",
        "ptr noundef %a0, ptr noundef %a1"), NUMBER),
    "an address behind the start that a function reads as a number": (two(
        BEHIND + element("%r2", "%r0", 8) + '  call void @"m::g"(ptr %r2)', element("%r0", "%a0", 8) + "  %r1 = load i64, ptr %r0, align 8"), NUMBER),
    "a copy of a copy, each further on": (exported(COPIES + element("%r5", "%r3", 16) + "  %r6 = load i64, ptr %r5, align 8\n  ret void"), NUMBER),
    "a number stored where its copy holds an address": (exported(
        BOTH + "  store i64 0, ptr %r0, align 8\n  store ptr %a0, ptr %r2, align 8\n  ret void"), NUMBER),
    "an address stored where its copy holds a number": (exported(
        BOTH + "  store i64 0, ptr %r2, align 8\n  store ptr %a0, ptr %r0, align 8\n  ret void"), NUMBER),
    "half an address behind the start, copied": (exported(
        BOTH + "  store ptr %a0, ptr %r0, align 8\n" + move("%r2", "%r0", 4) + "  ret void"), "a copy of a part of an address"),
    "an address in what C lends second": (exported("  %r0 = load ptr, ptr %a1, align 8\n  ret void", "ptr noundef %a0, ptr noundef %a1"),
                                          "an address in memory that an export is lent"),
    "a parameter that is looked at as both": (two("", "  %r0 = load ptr, ptr %a0, align 8\n  %r1 = load i64, ptr %a0, align 8"), NUMBER),
    "a copy out of a copy": (exported(
        DEEP + OUTER + INNER + STORED + element("%r5", "%r0", 16) + "  %r6 = load i64, ptr %r5, align 8\n  ret void"), NUMBER),
    "a copy, then its copy further on": (exported(
        DEEP + INNER + OUTER + STORED + element("%r5", "%r0", 16) + "  %r6 = load i64, ptr %r5, align 8\n  ret void"), NUMBER),
    "an array whose place is stored, copied over an address": (exported(
        DEEP + "  %r3 = alloca ptr, align 8\n  store ptr %r1, ptr %r3, align 8\n  store ptr %a0, ptr %r0, align 8\n" + move("%r0", "%r1", 32)
        + "  ret void"), LOOSE),
}


class Portable(unittest.TestCase):
    def test_modules_that_are_the_same(self):
        for name, text in SAME.items():
            with self.subTest(name):
                portable.check(text)

    def test_modules_that_are_refused(self):
        for name, (text, why) in REFUSED.items():
            with self.subTest(name), self.assertRaises(portable.Refused) as caught:
                portable.check(text)
            self.assertIn(why, str(caught.exception))

    def test_exports(self):
        self.assertEqual(portable.check(HEAD + SLICE + TAIL), ["pagemon_first"])

    def test_what_is_written_for_armv7(self):
        """Nothing but the lines about the target differs."""
        before = HEAD + SLICE + TAIL
        after = portable.retargeted(before, "e-p:32:32", "armv7-unknown-none-eabi")
        removed, added = (sorted(set(one.splitlines()) - set(two.splitlines())) for one, two in ((before, after), (after, before)))
        self.assertEqual(removed, sorted([f'target datalayout = "{portable.LAYOUT}"', f'target triple = "{portable.TRIPLE}"',
                                          f"attributes #0 = {{ nounwind{portable.TARGET_ATTRIBUTES} }}"]))
        self.assertEqual(added, sorted(['target datalayout = "e-p:32:32"', 'target triple = "armv7-unknown-none-eabi"',
                                        'module asm ".eabi_attribute Tag_ABI_VFP_args, 3"', "attributes #0 = { nounwind }"]))

    def test_a_line_that_is_not_there_to_be_replaced(self):
        with self.assertRaises(portable.Refused):
            portable.retargeted(HEAD + SLICE, "e-p:32:32", "armv7-unknown-none-eabi")


if __name__ == "__main__":
    unittest.main()
