#!/usr/bin/env python3
"""tools/armv7_form.py on objects that the kit's clang assembles: one of the form that a hypervisor can link, and others that differ in one thing."""
import shutil
import subprocess
import sys
import tempfile
import unittest
from pathlib import Path

sys.dont_write_bytecode = True
sys.path.insert(0, str(Path(__file__).resolve().parent.parent / "tools"))
import armv7_form  # noqa: E402

CLANG = Path(shutil.which("rt")).resolve().parent.parent / "toolchain" / "bin" / "clang"
ARM = ["--target=armv7a-none-eabi", "-mfloat-abi=soft"]

GOOD = """.syntax unified
.eabi_attribute Tag_CPU_arch, 10
.eabi_attribute Tag_CPU_arch_profile, 'A'
.eabi_attribute Tag_CPU_unaligned_access, 0
.eabi_attribute Tag_ABI_VFP_args, 3
.section .text.f,"ax",%progbits
.globl f
.type f,%function
f: push {r4, lr}
bl memcpy
ldr r0, 1f
add r0, pc, r0
pop {r4, pc}
1: .long constant - (1b - 4)
.section .rodata.f,"a",%progbits
constant: .long 7
"""
REFUSED = {
    "a call of another function": (GOOD.replace("memcpy", "abort"), "abort is undefined"),
    "an absolute address": (GOOD.replace("constant - (1b - 4)", "constant"), "R_ARM_ABS32 is none of the known ones"),
    "the global offset table": (GOOD.replace("constant - (1b - 4)", "constant(GOT_PREL)"), "R_ARM_GOT_PREL is none of the known ones"),
    "data that can be written": (GOOD + '.section .data,"aw",%progbits\n.long 1\n', "a section is writable"),
    "data that is cleared at the start": (GOOD + '.section .bss,"aw",%nobits\n.zero 4\n', "a section is writable"),
    "a floating-point unit": (GOOD + ".eabi_attribute Tag_FP_arch, 3\n", "it has Tag_FP_arch"),
    "a vector unit": (GOOD + ".eabi_attribute Tag_Advanced_SIMD_arch, 1\n", "it has Tag_Advanced_SIMD_arch"),
    "accesses of any alignment": (GOOD.replace("unaligned_access, 0", "unaligned_access, 1"), "Tag_CPU_unaligned_access is v6, not None"),
    "one way of passing floating-point numbers": (GOOD.replace("VFP_args, 3", "VFP_args, 1"), "Tag_ABI_VFP_args is VFP registers, not compatible"),
    "another architecture": (GOOD.replace("CPU_arch, 10", "CPU_arch, 14"), "Tag_CPU_arch is v8, not v7"),
    "another profile": (GOOD.replace("'A'", "'M'"), "Tag_CPU_arch_profile is Microcontroller, not Application"),
    "Thumb code": (GOOD.replace("f: push", ".thumb\nf: push"), "it has Thumb code"),
    "an export more": (GOOD + ".globl constant\n", "it exports constant, f, and"),
    "an export less": (GOOD.replace(".globl f\n", ""), "it exports , and"),
}
OTHER = ".globl f\nf: ret\n"


class Form(unittest.TestCase):
    def setUp(self):
        folder = tempfile.TemporaryDirectory()
        self.addCleanup(folder.cleanup)
        self.folder = Path(folder.name)
        self.other = self.build("other", OTHER, [])

    def build(self, name, text, target):
        source, built = self.folder / f"{name}.s", self.folder / f"{name}.o"
        source.write_text(text)
        subprocess.run([CLANG, *target, "-c", source, "-o", built], check=True)
        return built

    def test_an_archive_of_this_form(self):
        self.assertEqual(armv7_form.check(self.build("good", GOOD, ARM), self.other, "None"), ({"f"}, {"memcpy"}))

    def test_archives_that_are_refused(self):
        for name, (text, why) in REFUSED.items():
            with self.subTest(name), self.assertRaises(armv7_form.Refused) as caught:
                armv7_form.check(self.build("code", text, ARM), self.other, "None")
            self.assertIn(why, str(caught.exception))

    def test_another_machine(self):
        with self.assertRaisesRegex(armv7_form.Refused, "it is for 2's complement, little endian; Advanced Micro Devices X86-64, not for"):
            armv7_form.check(self.other, self.other, "None")

    def test_the_highest_byte_first(self):
        with self.assertRaisesRegex(armv7_form.Refused, "it is for 2's complement, big endian; ARM, not for"):
            armv7_form.check(self.build("big", GOOD, ["--target=armebv7a-none-eabi", "-mfloat-abi=soft"]), self.other, "None")

    def test_what_is_no_archive(self):
        with self.assertRaises(armv7_form.Refused):
            armv7_form.check(self.folder / "missing.a", self.other, "None")
        (self.folder / "text").write_text("no archive\n")
        with self.assertRaises(armv7_form.Refused):
            armv7_form.check(self.folder / "text", self.other, "None")


if __name__ == "__main__":
    unittest.main()
