"""The ways in which the bytes of a file are damaged."""

from collections.abc import Callable
from typing import NamedTuple

CUT = 512


class Damage(NamedTuple):
    """What was done, of which kind it is, and what makes the bytes after it of those before."""

    name: str
    kind: str
    make: Callable[[bytes], bytes]


def cuts(text):
    """Cut short at each multiple of 512."""
    for size in range(0, len(text), CUT):
        yield Damage(f"cut at {size}", "cut short", lambda before, size=size: before[:size])


def with_pages(top, size, pages):
    """What puts other pages in place of some. They are counted behind `top` bytes; each is the place of
    another page, or a byte that fills it."""

    def make(before):
        changed = bytearray(before)
        for place, page in pages.items():
            start = top + place * size
            other = page * size if isinstance(page, bytes) else before[top + page * size :][:size]
            changed[start : start + size] = other
        return bytes(changed)

    return make


def filled(text, top, size, word):
    """Each page zeroed, and each full of ones."""
    for place in range((len(text) - top) // size):
        for kind, byte in (("zeroed", b"\0"), ("full of ones", b"\xff")):
            make = with_pages(top, size, {place: byte})
            yield Damage(f"{word} {place + 1} {kind}", f"a {word} {kind}", make)


def swapped(text, top, size, word, others):
    """Each page swapped with some others, and written over by them; `others` says of a place which."""
    for place in range((len(text) - top) // size):
        for other in others(place):
            name = f"{place + 1} and {other + 1}"
            both = with_pages(top, size, {place: other, other: place})
            yield Damage(f"{word}s {name} swapped", f"two {word}s swapped", both)
            over = with_pages(top, size, {place: other})
            yield Damage(f"{word} {other + 1} over {place + 1}", f"a {word} over another", over)


def turned(place, word, top, size):
    """One bit turned."""

    def make(before):
        changed = bytearray(before)
        changed[place // 8] ^= 1 << place % 8
        return bytes(changed)

    page, byte = divmod(place // 8 - top, size)
    where = f"byte {byte} of {word} {page + 1}" if page >= 0 else f"byte {place // 8} of the head"
    return Damage(f"bit {place % 8} of {where}", "a bit turned", make)


def bits(text, top, size, chosen, heads):
    """Single bits to turn: some in the head of each page, and some anywhere in it. `heads` are how many bits
    a page's head has, how many of them are chosen, and how many of all."""
    wanted = set()
    for start in range(8 * top, 8 * len(text), 8 * size):
        end = min(start + 8 * size, 8 * len(text))
        head = range(start, min(start + heads[0], end))
        wanted |= set(chosen.sample(head, min(heads[1], len(head))))
        wanted |= set(chosen.sample(range(start, end), heads[2]))
    return wanted


def all_of(text, size, chosen, every):
    """Damages of a file whose pages have this size: all of a kind, or a choice of them."""
    many = len(text) // size

    def others(place):
        found = range(place) if every else chosen.sample(range(many), min(2, many))
        return [other for other in found if other != place]

    yield from cuts(text)
    yield from filled(text, 0, size, "page")
    yield from swapped(text, 0, size, "page", others)
    wanted = bits(text, 0, size, chosen, (128, 128, 200) if every else (128, 6, 12))
    wanted |= set(range(800) if every else chosen.sample(range(800), 60))
    yield from (turned(place, "page", 0, size) for place in sorted(wanted))


def log_damages(text, frame, chosen, every):
    """Damages of a log whose frames have this size, behind a head of 32 bytes: many, or a choice of them."""
    top = 32
    many = (len(text) - top) // frame

    def others(place):
        return [other for other in chosen.sample(range(many), min(2, many)) if other != place]

    wanted = bits(text, top, frame, chosen, (192, 12, 12) if every else (192, 1, 1))
    wanted |= set(range(8 * top))
    found = [
        *cuts(text),
        *filled(text, top, frame, "frame"),
        *swapped(text, top, frame, "frame", others),
        *(turned(place, "frame", top, frame) for place in sorted(wanted)),
    ]
    return found if every else chosen.sample(found, min(len(found), 500))
