#!/usr/bin/env python3
"""Counts the machine instructions of each kind of Tokenize by callgrind: what a message of a pipe takes, and
how many more one of a service takes. Each request asks for a card of its own.

kinds.py [PROGRAM] counts the built program, which is crates/vault_cli/out/vault_cli if it is left out. N is
how many messages of a kind are counted (400; 1000 at most), and BEFORE how many tokens stand before them
(1000), a card each. A long fill or copy counts an instruction a byte, though it costs a processor far less:
these are set apart.
"""

import pathlib
import re
import shutil
import subprocess
import sys
import tempfile
import time

sys.dont_write_bytecode = True
import figures  # noqa: E402, without leaving a folder of its bytecode here
import pipe  # noqa: E402
import settings  # noqa: E402
from model import cards  # noqa: E402, which settings lets Python find
from shared.service import connected, port_of  # noqa: E402
from sides import told  # noqa: E402

# a service has the system clock, so the tokens that stand before it have to be of today
NOW, YEAR = str(int(time.time())), "31536000"
SECONDS = 600
# Where valgrind puts a program that may stand anywhere.
BASE = 0x108000
HEADER = "request,number,use\n"
REPEATED = re.compile(r"^\s*([0-9a-f]+):\s.*\brep (?:stos|movs)", re.MULTILINE)
COST = re.compile(r"^0x([0-9a-f]+) \S+ (\d+)$")
OBJECT = re.compile(r"^c?ob=\((\d+)\) (.+)$", re.MULTILINE)
TOTAL = re.compile(r"^(?:summary|totals): (\d+)", re.MULTILINE)


def messages(many, use, request, card):
    """So many messages, whose requests and cards go on from these."""
    asked = (pipe.message(request + at, cards.number_at(card + at), use) for at in range(many))
    return [one.encode() for one in asked]


class Repeats:
    """Where the instructions stand that repeat by the byte, in the program and in what it is linked with."""

    def __init__(self, program):
        self.program, self.known = program, {}

    def of(self, path):
        """Those of an object, as callgrind names it, and their places; the program has no name there."""
        if path not in self.known:
            at, base = (self.program, BASE) if path == "???" else (path, 0)
            words = ["objdump", "-d", at]
            lines = subprocess.run(words, stdout=subprocess.PIPE, check=True).stdout.decode()
            self.known[path] = {int(it, 16) + base for it in REPEATED.findall(lines)}
        return self.known[path]


class Counted:
    """What a run took: its instructions, and those of them that repeat by the byte."""

    def __init__(self, path, repeats):
        text = path.read_text()
        self.every = int(TOTAL.search(text)[1])
        objects = dict(OBJECT.findall(text))
        self.repeated = 0
        for line in text.splitlines():
            if line.startswith("ob="):
                places = repeats.of(objects[line[4:].split(")")[0]])
            elif it := COST.match(line):
                self.repeated += int(it[2]) if int(it[1], 16) in places else 0

    def beyond(self, other, many):
        """What a message took more than another run's."""
        return (self.every - other.every) / many, (self.repeated - other.repeated) / many


class Counter:
    """Counts a program's runs over copies of a file."""

    def __init__(self, program, folder, before):
        self.program, self.folder, self.file = program, folder, folder / "before.db"
        moment = ("--now", NOW)
        told(program, "merchant", *moment, self.file, "shop1", YEAR, YEAR)
        told(program, "grant", *moment, self.file, "till-1", "shop1", "tokenize")
        rows = (f"{at},{cards.number_at(at)},single\n" for at in range(1, before + 1))
        self.run(("batch", *moment, self.file, "till-1", "shop1"), (HEADER + "".join(rows)).encode())
        self.repeats = Repeats(program)

    def run(self, words, given):
        subprocess.run([self.program, *words], input=given, stdout=subprocess.DEVNULL, check=True)

    def ask(self, asked):
        """Asks the file itself, which is copied afterwards."""
        self.run(("pipe", "--now", NOW, self.file), b"".join(asked))

    def copy(self):
        """A copy of the file with its log."""
        for path in self.folder.glob("copy.db*"):
            path.unlink()
        for path in self.folder.glob("before.db*"):
            shutil.copy(path, self.folder / path.name.replace("before", "copy"))
        return self.folder / "copy.db"

    def watched(self, *words, **streams):
        """The program under callgrind."""
        kept = f"--callgrind-out-file={self.folder / 'counts'}"
        tool = ["valgrind", "--quiet", "--tool=callgrind", "--dump-instr=yes", "--compress-pos=no", kept]
        words = [*tool, self.program, *map(str, words)]
        return subprocess.Popen(words, stdout=subprocess.PIPE, **streams)

    def pipe(self, asked):
        """A pipe of these messages, each of which has to be answered by a token."""
        process = self.watched("pipe", "--now", NOW, self.copy(), stdin=subprocess.PIPE)
        answers, _ = process.communicate(b"".join(asked), timeout=SECONDS)
        assert process.returncode == 0 and answers.count(b" 200 OK") == len(asked)
        return Counted(self.folder / "counts", self.repeats)

    def serve(self, asked):
        """The same by a service with one connection that is kept, a message once its answer is there."""
        process = self.watched("serve", "--connections", 1, "--port", 0, self.copy())
        port = port_of(process, SECONDS)
        with connected(port, SECONDS) as peer:
            for one in asked:
                peer.sendall(one)
                assert b" 200 OK" in peer.recv(4096)
        process.communicate(timeout=SECONDS)
        assert process.returncode == 0
        return Counted(self.folder / "counts", self.repeats)


def kinds(counter, many):
    """The messages of each kind. Those that stand before some of them are asked first."""
    yield "new, single-use", messages(many, "single", 100_001, 100_001)
    yield "the request again", messages(many, "single", 1, 1)
    yield "new, multi-use", messages(many, "multi", 200_001, 200_001)
    counter.ask(messages(many, "multi", 300_001, 300_001))
    yield "multi-use, the card has a token", messages(many, "multi", 400_001, 300_001)
    yield "multi-use, the request again", messages(many, "multi", 300_001, 300_001)


def main():
    many, before = settings.number("N", 400), settings.number("BEFORE", 1000)
    if not shutil.which("valgrind") or not shutil.which("objdump"):
        raise SystemExit("valgrind or objdump isn't there")
    with tempfile.TemporaryDirectory() as name:
        counter = Counter(settings.program(), pathlib.Path(name), before)
        title = f"Instructions a message, {before} tokens before, {many} counted"
        columns = ("A pipe", "of them by the byte", "A service, more", "of them by the byte")
        figures.print_head(title, "Tokenize", *columns)
        for kind, asked in kinds(counter, many):
            piped = counter.pipe(asked).beyond(counter.pipe([]), many)
            served = counter.serve(asked).beyond(counter.serve([]), many)
            more = (served[0] - piped[0], served[1] - piped[1])
            figures.print_line(kind, *(f"{it:,.0f}" for it in (*piped, *more)))


if __name__ == "__main__":
    main()
