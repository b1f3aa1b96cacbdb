"""Figures of the bench: instructions, as callgrind counts them, and tables."""

import re
import shutil
import subprocess
import tempfile

VALGRIND = shutil.which("valgrind") or "valgrind"


def profile(path, command, **options):
    """Runs a command, writes its profile, and returns what it prints."""
    tool = [VALGRIND, "-q", "--tool=callgrind", f"--callgrind-out-file={path}"]
    return subprocess.check_output([*tool, *command], text=True, **options)


def instructions(*command, **options):
    """The instructions of a run."""
    with tempfile.NamedTemporaryFile("r") as file:
        profile(file.name, command, **options)
        return int(re.search(r"^totals: (\d+)", file.read(), re.M)[1])


def by_function(pattern, *command, **options):
    """What a run prints, and the instructions of each function whose name matches, with its calls."""
    with tempfile.NamedTemporaryFile() as file:
        said = profile(file.name, command, **options)
        annotate = ["callgrind_annotate", "--inclusive=yes", "--threshold=100", file.name]
        lines = subprocess.check_output(annotate, text=True)
    found = re.findall(rf"^ *([0-9,]+) .*:({pattern})", lines, re.M)
    return said, {name: int(number.replace(",", "")) for number, name in found}


def table(head, rows):
    """A table, in which the first column has words."""
    lines = [head, ["---"] + ["--:"] * (len(head) - 1), *rows]
    words = ([f"{cell:,}" if isinstance(cell, int) else cell for cell in line] for line in lines)
    return "".join(f"|{'|'.join(line)}|\n" for line in words)
