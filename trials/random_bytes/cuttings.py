"""How the bytes of a stream are cut, and how the pieces come to the program. Each write to a pipe of packets
is one read of the program, so no pause is needed between them."""

import fcntl
import os
import subprocess
import tempfile

from shared.runs import Limit, Ran

# A packet is no longer than this.
PACKET = 4096
ROOM = 1 << 20


def whole(_, text):
    """All in one piece."""
    return [text]


def singly(_, text):
    """Byte by byte."""
    return [text[place : place + 1] for place in range(len(text))]


def randomly(chosen, text):
    """In pieces cut at places from a seed."""
    many = min(len(text), chosen.choice((1, 2, 3, 8, 30)))
    cuts = [0, *sorted(chosen.sample(range(len(text) + 1), many)), len(text)]
    return [text[start:end] for start, end in zip(cuts, cuts[1:]) if start < end]


CUTTINGS = {"in one piece": whole, "byte by byte": singly, "in random pieces": randomly}


def pipe_of_packets(pieces):
    """The two ends of a pipe, which keeps its pieces apart where there are several."""
    if len(pieces) < 2 or not hasattr(os, "O_DIRECT"):
        return os.pipe2(os.O_CLOEXEC)
    reader, writer = os.pipe2(os.O_CLOEXEC | os.O_DIRECT)
    try:
        fcntl.fcntl(writer, fcntl.F_SETPIPE_SZ, ROOM)
    except OSError:
        pass
    return reader, writer


def write_all(writer, pieces):
    """Writes the pieces, unless the program ends before it has read all."""
    try:
        for piece in pieces:
            for start in range(0, len(piece), PACKET):
                os.write(writer, piece[start : start + PACKET])
    except BrokenPipeError:
        pass
    finally:
        os.close(writer)


def piped(words, pieces):
    """Runs the program with pieces on its standard input."""
    reader, writer = pipe_of_packets(pieces)
    with tempfile.TemporaryFile() as out, tempfile.TemporaryFile() as err:
        process = subprocess.Popen([str(word) for word in words], stdin=reader, stdout=out, stderr=err)
        os.close(reader)
        with Limit(process) as limit:
            write_all(writer, pieces)
            status = process.wait()
        out.seek(0)
        err.seek(0)
        return Ran(None if limit.came else status, out.read(), err.read())
