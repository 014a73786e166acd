#!/usr/bin/env python3
"""tools/footprint on objects and archives whose sections are known, and on documents, of which one agrees."""
import shutil
import subprocess
import tempfile
import unittest
from pathlib import Path

TOOL = Path(__file__).resolve().parent.parent / "tools" / "footprint"
ARM_COMPILER = "arm-linux-gnueabihf-gcc"

KNOWN = """.section .text.f,"ax"; .zero 40
.section .text.g,"ax"; .zero 2
.section .rodata.f,"a"; .zero 1024
.section .rodata.cst4,"aM",@progbits,4; .zero 8
.section .debug_info,""; .zero 100
.section .note.GNU-stack,"",@progbits
"""
WRITABLE = """.data; .zero 16
.bss; .zero 300
"""
RIGHT = "| `known.o` | 42 | 1,032 | 0 |\n"


class Footprint(unittest.TestCase):
    def setUp(self):
        folder = tempfile.TemporaryDirectory()
        self.addCleanup(folder.cleanup)
        self.folder = Path(folder.name)

    def build(self, assembly, name="known.o", compiler="gcc"):
        built = self.folder / name
        built.parent.mkdir(exist_ok=True)
        subprocess.run([compiler, "-c", "-x", "assembler", "-", "-o", built], input=assembly, text=True, check=True)
        return built

    def archive(self, *members):
        built = self.folder / "known.a"
        subprocess.run(["ar", "rc", built, *members], check=True)
        return built

    def run_tool(self, *words):
        return subprocess.run([TOOL, *words], stdout=subprocess.PIPE, stderr=subprocess.PIPE, text=True)

    def printed(self, *words):
        """The lines below the heading, each as its words."""
        done = self.run_tool(*words)
        self.assertEqual((done.stderr, done.returncode), ("", 0))
        return [line.split() for line in done.stdout.splitlines()[1:]]

    def test_an_object(self):
        constants = [["1,024", ".rodata.f"], ["8", ".rodata.cst4"]]
        self.assertEqual(self.printed("--sections", self.build(KNOWN)), ["42 1,032 0 known.o".split(), *constants])
        self.assertEqual(self.printed("--sections", self.build(KNOWN + WRITABLE)),
                         ["42 1,032 316 known.o".split(), ["16", ".data"], ["300", ".bss"], *constants])

    @unittest.skipUnless(shutil.which(ARM_COMPILER), f"{ARM_COMPILER} is not on the path")
    def test_an_object_for_arm(self):
        known = KNOWN.replace("@", "%") + '.section .ARM.exidx.text.f,"a"; .zero 8\n'
        self.assertEqual(self.printed("--sections", self.build(known, compiler=ARM_COMPILER)),
                         ["42 1,040 0 known.o".split(), ["1,024", ".rodata.f"], ["8", ".rodata.cst4"], ["8", ".ARM.exidx.text.f"]])
        self.assertEqual(self.run_tool(self.build(known + ".comm g,64,8\n", compiler=ARM_COMPILER)).returncode, 2)

    def test_members_with_sections_of_one_name(self):
        archive = self.archive(self.build(KNOWN), self.build(KNOWN + WRITABLE, "other.o"))
        self.assertEqual(self.printed(archive), ["84 2,064 316 known.a".split()])

    def test_two_objects_of_one_name(self):
        paths = self.build(KNOWN, "before/known.o"), self.build('.section .rodata.g,"a"; .zero 512\n', "after/known.o")
        self.assertEqual(self.printed("--sections", *paths), [
            "42 1,032 0 known.o".split(), ["1,024", ".rodata.f"], ["8", ".rodata.cst4"], "0 512 0 known.o".split(), ["512", ".rodata.g"]])

    def test_what_cannot_be_read(self):
        text = self.folder / "text"
        text.write_bytes(b"no archive, and no UTF-8: \xff\n")
        known = self.build(KNOWN)
        common = self.build(KNOWN + ".comm g,64,8\n", "common.o")
        for words in ([self.folder / "missing.a"], [text], [self.archive()], [common], ["--check", self.folder / "missing.md", known], ["--check", text, known]):
            with self.subTest(words[0]):
                done = self.run_tool(*words)
                self.assertEqual((done.stdout, done.returncode), ("", 2))
                self.assertRegex(done.stderr, r"^tools/footprint: .")

    def check(self, rows, heading="Read-only memory", options=()):
        document = self.folder / "document.md"
        head = "| Archive | Code | Constants | Writable |\n|---|---:|---:|---:|\n"
        document.write_text(f"## Other\n\n{RIGHT}\n## {heading}\n\n{head}{rows}\n## Next\n\n{RIGHT}")
        return self.run_tool("--check", document, *options, self.build(KNOWN))

    def test_a_document_that_agrees(self):
        self.assertEqual(self.check(RIGHT).returncode, 0)
        self.assertEqual(self.check(RIGHT, "Memory", ["--heading", "Memory"]).returncode, 0)

    def test_documents_that_differ(self):
        for rows in (RIGHT.replace("42", "43"), RIGHT.replace("1,032", "520"), RIGHT.replace(" 0 ", " 16 "), RIGHT.replace(" 0 ", " none "), "",
                     RIGHT + RIGHT, RIGHT.replace("42", "43") + RIGHT, RIGHT + RIGHT.replace("known", "other")):
            with self.subTest(rows):
                self.assert_differs(self.check(rows))
        self.assert_differs(self.check(RIGHT, heading="Memory"))
        self.assert_differs(self.check(RIGHT, options=["--heading", "Memory"]))

    def assert_differs(self, done):
        self.assertEqual((done.stdout, done.returncode), ("", 1))
        self.assertRegex(done.stderr, r"^tools/footprint: .*document\.md: of (known|other)\.o it says ")


if __name__ == "__main__":
    unittest.main()
