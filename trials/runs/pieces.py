"""The bytes of a connection in pieces: what is answered to them, and at which byte."""

import contextlib
import fcntl
import os
import subprocess
import sys
import termios

from runs import cases
from runs.cases import ASKED, MOST_SHOWN, SHOP
from runs.connections import ANSWERED
from runs.heads import CALLERLESS, NAMELESS, NO_HEAD, TOO_LARGE
from shared.runs import Limit, Ran
from shared.tally import unlike

# A message without a body, and one with a body but without a request number.
GET = b"GET /v1/health HTTP/1.1\r\nHost: a\r\n\r\n"
POST = b"POST /v1/merchants/m/tokens HTTP/1.1\r\nContent-Length: 5\r\nX-Vault-Caller: till\r\n\r\nhello"
BOTH, BOTH_ANSWERED = GET + POST, NAMELESS + CALLERLESS
# Both so many times and the beginning of a third one, which is kept until its rest has come.
TIMES, BEGINNING, REST = 200, b"GET /x HT", b"TP/1.1\r\n\r\n"
# How long the pieces are in which these come. The program itself reads 4096 bytes at once, and no more.
SIZES = (1, 2, 7, 100, 4096, 12288, 30000)


def padded(many):
    """A head that a field makes so many bytes longer than 73 bytes, and a body of 4096 bytes."""
    line = b"POST /v1/merchants/shop1/tokens HTTP/1.1\r\nContent-Length: 4096\r\nPad: "
    return line + b"a" * many + b"\r\n\r\n" + b"b" * 4096


def at_its_last_byte(text, answered):
    """The steps of a text that comes byte by byte, and is answered at its last byte and not before."""
    return (text[:-1], 1, b""), (text[-1:], 1, answered)


# The longest message, and the beginning of one whose head is longer by a byte.
LONGEST, TOO_LONG = padded(8119), padded(8120)[:8193]
# Steps of a connection: what comes, in pieces of which size, and what is answered before more comes.
CASES = (
    *(
        (
            f"400 messages in pieces of {size}",
            ((BOTH * TIMES + BEGINNING, size, BOTH_ANSWERED * TIMES), (REST, size, NAMELESS)),
        )
        for size in SIZES
    ),
    (
        "a fault behind two messages stays",
        ((BOTH + b"\x01\r\n\r\n", 4096, BOTH_ANSWERED + NO_HEAD), (GET, 4096, b"")),
    ),
    (
        "a part of a message is open",
        (*((ASKED[end : end + 1], 1, b"") for end in range(len(ASKED) - 1)), (ASKED[-1:], 1, ANSWERED)),
    ),
    ("the longest message", (*at_its_last_byte(LONGEST, CALLERLESS), (GET, 1, NAMELESS))),
    ("a head of 8193 bytes", at_its_last_byte(TOO_LONG, TOO_LARGE)),
)
# The lengths of these texts.
LENGTHS = ((LONGEST, 12288), (TOO_LONG, 8193))


class Fed:
    """The program as it answers a pipe, for the time of a `with`; it is killed where it hangs."""

    def __init__(self, program, file):
        words, pipe = [program, "pipe", "--now", "1000", "--digits", "0", file], subprocess.PIPE
        self.process = subprocess.Popen(words, bufsize=0, stdin=pipe, stdout=pipe, stderr=pipe)
        os.set_blocking(self.process.stdout.fileno(), False)
        self.stat = os.open(f"/proc/{self.process.pid}/stat", os.O_RDONLY)
        self.late = Limit(self.process)

    def __enter__(self):
        return self

    def __exit__(self, *_):
        self.late.cancel()
        self.process.kill()
        self.process.communicate()
        os.close(self.stat)

    def has_ended(self):
        return self.process.poll() is not None

    def has_read_all(self):
        """Whether no byte is left in its pipe."""
        return not int.from_bytes(fcntl.ioctl(self.process.stdin, termios.FIONREAD, bytes(4)), sys.byteorder)

    def sleeps(self):
        """Whether it waits for something, as the kernel says behind its name."""
        return os.pread(self.stat, 4096, 0).rpartition(b")")[2].split()[0] == b"S"

    def feed(self, text, size):
        """Writes pieces of this size, each once all before it are read, unless it ends meanwhile."""
        with contextlib.suppress(BrokenPipeError):
            for start in range(0, len(text), size):
                self.process.stdin.write(text[start : start + size])
                while not (self.has_read_all() or self.has_ended()):
                    os.sched_yield()

    def answered(self):
        """What it has answered since the last time, once it waits for more bytes or has ended."""
        while not (self.has_ended() or self.has_read_all() and self.sleeps()):
            os.sched_yield()
        return self.process.stdout.read(1 << 16) or b""

    def ended(self):
        """How it ends with its input."""
        out, err = self.process.communicate()
        return Ran(self.process.returncode, out, err)


def fault_of(program, file, steps):
    """What is wrong with the answers to these steps, or with the end behind them."""
    sent = 0
    with Fed(program, file) as fed:
        for text, size, answered in steps:
            fed.feed(text, size)
            sent += len(text)
            fault = unlike(fed.answered(), answered)
            if fault:
                return f"behind {sent} bytes {fault[:MOST_SHOWN]}"
        return cases.fault_of(fed.ended(), 0, "", "")


def judged(tally, program):
    """All connections are to one shop, which the worked message alone changes."""
    case = cases.begun(tally, program, "bytes in pieces", "pieces")
    case.done(SHOP)
    for text, length in LENGTHS:
        case.judge(f"a length of {length}", unlike(len(text), length))
    for name, steps in CASES:
        case.judge(name, fault_of(program, case.file, steps))
