"""What one command takes by what watches a process from outside: machine instructions by valgrind, and bytes
written and syncs by strace. Each is the difference of many commands and none over copies of one file."""

import re
import shutil
import subprocess
import sys

WRITES = ("write", "pwrite64", "writev", "pwritev", "pwritev2")
SYNCS = ("fsync", "fdatasync", "sync_file_range", "msync")
CALL = re.compile(r"^(?:\d+ +)?(?:<\.\.\. )?(\w+)[( ].* = (\d+)$")


class Unwatched(Exception):
    """A tool gave up, or what it watched did."""


def has(tool):
    """Whether this machine has a tool."""
    return shutil.which(tool) is not None


def watched(tool, words, asked, kept):
    """What a tool kept of a process that reads a file, and must have ended well."""
    kept.unlink(missing_ok=True)
    with open(asked) as given:
        ran = subprocess.run([*tool, *(str(word) for word in words)], stdin=given, capture_output=True)
    if ran.returncode:
        print(ran.stderr.decode()[-1000:], file=sys.stderr)
        raise Unwatched(f"{tool[0]} ended with {ran.returncode}: the rest of its counts is left out")
    return kept.read_text()


def instructions(words, asked, folder):
    """How many machine instructions a process takes."""
    kept = folder / "instructions"
    tool = ("valgrind", "--quiet", "--tool=callgrind", f"--callgrind-out-file={kept}")
    found = re.search(r"^(?:summary|totals): (\d+)", watched(tool, words, asked, kept), re.MULTILINE)
    return int(found[1])


def written(words, asked, folder):
    """How many bytes a process writes, and how often it syncs."""
    kept = folder / "calls"
    tool = ("strace", "-f", "-qq", "-s", "0", "-e", f"trace={','.join(WRITES + SYNCS)}", "-o", str(kept))
    lines = watched(tool, words, asked, kept).splitlines()
    calls = [found.groups() for found in map(CALL.match, lines) if found]
    size = sum(int(answer) for name, answer in calls if name in WRITES)
    return size, sum(name in SYNCS for name, _ in calls)
