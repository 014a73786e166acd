"""What the tools that read archives share: which archives, what objdump prints of them, and the tables of a document."""
import os
import re
import shutil
import subprocess
from pathlib import Path

ROOT = Path(__file__).resolve().parent.parent
ARCHIVES = [f"target/staticlib/lib{name}.a" for name in ("monitor", "steps", "signature")]

# The ELF machine of an object, or of an archive's first object, and who disassembles those that the host's objdump may not know.
ELF_MACHINE = re.compile(rb"\x7fELF.{14}(..)", re.S)
DISASSEMBLERS = {b"\x28\x00": "arm-linux-gnueabihf-objdump"}

SECTION = re.compile(r" *[0-9]+ (\S.*?) +([0-9a-f]{8,})  [0-9a-f]{8,}  [0-9a-f]{8,}  (.*)")


class Refused(Exception):
    """What cannot be read, or is not understood."""


def disassembler(path):
    """The objdump that knows the instructions of this file. A file that cannot be read is left to the host's, which says so."""
    try:
        machine = ELF_MACHINE.search(Path(path).read_bytes())
    except OSError:
        machine = None
    return DISASSEMBLERS.get(machine[1], "objdump") if machine else "objdump"


def printed(*command):
    """The lines that a command prints, and what it says beside them."""
    done = subprocess.run(command, stdout=subprocess.PIPE, stderr=subprocess.PIPE, text=True, env=os.environ | {"LC_ALL": "C"})
    if done.returncode != 0:
        raise Refused(done.stderr.strip())
    return done.stdout.splitlines(), done.stderr.strip()


def objdump(path, *options, program="objdump"):
    """The lines that objdump prints. The host's knows the sections of any machine."""
    return printed(program, "-w", *options, str(path))[0]


def needs(archives, programs=("objdump",)):
    """What is missing, in one line, or nothing."""
    missing = [f"{program} (prints machine code)" for program in sorted(programs) if not shutil.which(program)]
    if missing:
        return f"missing on the path: {', '.join(missing)}"
    lacking = [path for path in archives if not (ROOT / path).exists()]
    return f"there is no {', '.join(lacking)}: tests/run builds the archives" if lacking else None


def rows(document, heading):
    """The rows of the tables under this heading of a document, each as its cells."""
    try:
        text = Path(document).read_text(encoding="utf8")
    except (OSError, UnicodeDecodeError) as problem:
        raise Refused(f"{document}: {problem}") from problem
    section = re.search(rf"^## {re.escape(heading)}\n(.*?)(?=^## |\Z)", text, re.M | re.S)
    return [[cell.strip() for cell in row.split("|")] for row in re.findall(r"^\|(.*)\|$", section[1] if section else "", re.M)]
