#!/usr/bin/env python3
"""tools/golden beside sha256sum, and beside the monitor: what the tool says of a dump is what map answers (tests/c/golden.c, built by tests/run)."""
import random
import subprocess
import tempfile
import unittest
from pathlib import Path

ROOT = Path(__file__).resolve().parent.parent
TOOL = ROOT / "tools" / "golden"
MONITOR = ROOT / "target" / "tests" / "golden"
BLOCK = 4096


def sha256sum(message):
    done = subprocess.run(["sha256sum"], input=message, stdout=subprocess.PIPE, check=True)
    return bytes.fromhex(done.stdout.split()[0].decode())


def some_blocks(count, seed=1):
    return random.Random(seed).randbytes(BLOCK * count)


class Golden(unittest.TestCase):
    def setUp(self):
        folder = tempfile.TemporaryDirectory()
        self.addCleanup(folder.cleanup)
        self.folder = Path(folder.name)
        self.image = self.folder / "image"

    def file(self, name, data):
        path = self.folder / name
        path.write_bytes(data)
        return path

    def run_tool(self, *words, status=0, given=b""):
        done = subprocess.run([TOOL, *words], input=given, stdout=subprocess.PIPE, stderr=subprocess.PIPE)
        self.assertEqual((done.returncode, done.stderr), (status, b""))
        return done.stdout

    def refused(self, said, *words, given=b""):
        """Status 2, nothing printed, and a message with this in it."""
        done = subprocess.run([TOOL, *words], input=given, stdout=subprocess.PIPE, stderr=subprocess.PIPE)
        self.assertEqual((done.returncode, done.stdout), (2, b""))
        self.assertIn(said, done.stderr.decode())
        self.assertEqual(done.stderr.count(b"\n"), 1)

    def make(self, *words):
        self.run_tool("make", self.image, *words)
        return self.image.read_bytes()

    def lines(self, *words, status=0):
        return self.run_tool("check", *words, status=status).decode().splitlines()

    def test_digests_are_those_of_sha256sum(self):
        data = some_blocks(3)
        image = self.make(f"0x104={self.file('code', data)}")
        numbers = [b"\0\0\1\4", b"\0\0\1\5", b"\0\0\1\6"]
        self.assertEqual(image, b"".join(sha256sum(number + data[BLOCK * i : BLOCK * (i + 1)]) for i, number in enumerate(numbers)))
        self.assertEqual(image, self.make(f"260={self.folder / 'code'}"))

    def test_every_byte_of_a_number(self):
        data = some_blocks(1)
        for number, written in [(0, b"\0\0\0\0"), (0xFF, b"\0\0\0\xff"), (0x100, b"\0\0\1\0"), (0xFFFFF, b"\0\x0f\xff\xff")]:
            self.assertEqual(self.make(f"{number:#x}={self.file('code', data)}"), sha256sum(written + data))

    def test_files_in_turn_and_a_digest_once(self):
        one, two = self.file("one", some_blocks(1, 1)), self.file("two", some_blocks(1, 2))
        both = self.make(f"5={one}", f"5={two}")
        self.assertEqual(both, self.make(f"5={one}") + self.make(f"5={two}"))
        self.assertEqual(both, self.make(f"5={one}", f"5={two}", f"5={one}"))

    def test_padding(self):
        short, padded = self.file("short", b"code"), self.file("padded", b"code" + bytes(BLOCK - 4))
        self.refused("short has 4 bytes", "make", self.image, f"7={short}")
        self.assertFalse(self.image.exists())
        self.assertEqual(self.make("--pad", f"7={short}"), self.make(f"7={padded}"))
        self.assertEqual(self.make("--pad", f"7={padded}"), self.make(f"7={padded}"))

    def test_standard_input_and_output(self):
        data = some_blocks(2)
        image = self.run_tool("make", "-", "3=-", given=data)
        self.assertEqual(image, self.make(f"3={self.file('code', data)}"))
        self.assertIn(b"2 of 2 blocks signed, 2 of 2 digests found", self.run_tool("check", "-", f"3={self.folder / 'code'}", given=image))
        self.refused("standard input", "make", self.image, "1=-", "5=-", given=data)
        self.refused("standard input", "check", "-", "1=-", given=image)

    def test_limits(self):
        most = self.file("most", some_blocks(1024))
        self.assertEqual(len(self.make(f"0={most}")), 32 * 1024)
        self.refused("1025 digests", "make", self.image, f"0={most}", f"2000={self.file('one', some_blocks(1))}")
        self.assertEqual(len(self.make(f"{0xFFC00}={most}")), 32 * 1024)
        self.refused("0xfffff", "make", self.image, f"{0xFFC01}={most}")
        for length in [1, 31, 33, 32 * 1025]:
            self.refused(f"unlawful has {length} bytes", "check", self.file("unlawful", bytes(length)), f"0={most}")
        self.assertIn(b"0 of 1024 blocks signed, 0 of 0 digests found", self.run_tool("check", self.file("empty", b""), f"0={most}", status=1))
        for length in [0, 1, BLOCK - 1, BLOCK + 1]:
            self.refused(f"part has {length} bytes", "make", self.image, f"1={self.file('part', bytes(length))}")
            self.refused(f"part has {length} bytes", "check", self.file("empty", b""), f"1={self.folder / 'part'}")
        self.refused("part has 0 bytes", "make", "--pad", self.image, f"1={self.file('part', b'')}")

    def test_wrong_commands(self):
        code = self.file("code", some_blocks(1))
        for said, *words in [["make or check"], ["make or check", "sign"], ["needs an image", "make"], ["needs an image", "make", self.image],
                             ["needs an image", "make", f"1={code}", f"2={code}"], ["is not NUMBER=FILE", "make", self.image, code],
                             ["is not NUMBER=FILE", "make", self.image, "1="], ["--elsewhere is no option of make", "make", "--elsewhere", self.image, f"1={code}"],
                             ["--pad is no option of check", "check", "--pad", self.image, f"1={code}"], ["image: No such file", "check", self.image, f"1={code}"],
                             ["absent: No such file", "make", self.image, "1=absent"], ["one of the files", "make", code, f"1={code}"],
                             ["Is a directory", "make", self.folder, f"1={code}"]]:
            self.refused(said, *words)
        for number in ["x", "-1", "+1", "1_0", " 1", "0x", "0b1", "", "9" * 5000]:
            self.refused("is no number of a block", "make", self.image, f"{number}={code}")
        self.assertEqual(code.read_bytes(), some_blocks(1))
        self.assertIn(b"usage", self.run_tool("--help"))
        self.assertIn(b"usage", self.run_tool("make", "--help"))

    def test_a_full_device(self):
        self.make(f"1={self.file('code', some_blocks(1))}")
        code = f"1={self.folder / 'code'}"
        for words in [["check", self.image, code], ["make", "-", code], ["--help"]]:
            with open("/dev/full", "w", encoding="ascii") as full:
                done = subprocess.run([TOOL, *words], stdout=full, stderr=subprocess.PIPE, text=True)
            self.assertEqual((done.returncode, done.stderr), (2, "tools/golden: standard output: No space left on device; --help says more\n"))
        self.refused("/dev/full: No space left", "make", "/dev/full", code)

    def test_closed_streams(self):
        self.make(f"1={self.file('code', some_blocks(1))}")
        for words, stream in [(f"check {self.image} 1={self.folder}/code", ">&-"), (f"make - 1={self.folder}/code", ">&-"), (f"make {self.image} 1=-", "<&-")]:
            done = subprocess.run(["bash", "-c", f"{TOOL} {words} {stream}"], stdout=subprocess.PIPE, stderr=subprocess.PIPE, text=True)
            self.assertEqual((done.returncode, done.stdout, done.stderr.count("\n")), (2, "", 1), done.stderr)

    def test_exchanged_blocks(self):
        one, two = some_blocks(1, 1), some_blocks(1, 2)
        self.make(f"0x105={self.file('code', one + two)}")
        self.assertEqual(self.lines(self.image, f"0x105={self.folder / 'code'}"), ["0x00105 signed", "0x00106 signed", "2 of 2 blocks signed, 2 of 2 digests found"])
        dump = f"0x105={self.file('dump', two + one)}"
        self.assertEqual(self.lines(self.image, dump, status=1), ["0x00105 not signed", "0x00106 not signed", "0 of 2 blocks signed, 0 of 2 digests found"])
        self.assertEqual(self.lines("--elsewhere", self.image, dump, status=1),
                         ["0x00105 not signed, signed as 0x00106", "0x00106 not signed, signed as 0x00105", "0 of 2 blocks signed, 0 of 2 digests found"])
        self.assertEqual(self.lines("--elsewhere", self.image, f"0x205={self.folder / 'code'}", status=1),
                         ["0x00205 not signed", "0x00206 not signed", "0 of 2 blocks signed, 0 of 2 digests found"])

    def test_the_monitor_says_the_same(self):
        contents = [some_blocks(1, seed) for seed in (1, 1, 2, 3, 4, 5, 6, 7, 8)] + [bytes(BLOCK)] * 3
        contents[7] = contents[7][:-1] + bytes([contents[7][-1] ^ 1])
        made_for = {0x100: contents[0], 0x102: contents[2], 0x103: contents[4], 0x104: contents[3], 0x106: contents[6], 0x107: some_blocks(1, 7), 0x109: bytes(BLOCK)}
        self.make(*[f"{number}={self.file(str(number), data)}" for number, data in made_for.items()])
        dump = self.file("dump", b"".join(contents))
        for first, signed in [(0x100, [0x100, 0x102, 0x106, 0x109]), (0x200, []), (0, [])]:
            said = self.lines(self.image, f"{first}={dump}", status=1)[:-2]
            self.assertEqual(said, [f"{number:#07x} {'signed' if number in signed else 'not signed'}" for number in range(first, first + 11)])
            done = subprocess.run([MONITOR, self.image, str(first), dump], stdout=subprocess.PIPE, text=True, check=True)
            self.assertEqual(said, done.stdout.splitlines())


if __name__ == "__main__":
    unittest.main()
