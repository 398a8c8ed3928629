"""Files and logs that are cut short, or with pages zeroed, swapped or with a bit turned."""

from damage import base, judged, pages, rows
from shared import messages
from shared.files import copied, log_of, removed
from shared.runs import must, side_by_side


def try_damages(whole, folder, tally, name, damages, place_one):
    """Judges each damage of a file; `place_one` makes the damaged copy of its number."""

    def tried(numbered):
        file = place_one(*numbered)
        try:
            return whole.judge(file)
        finally:
            removed(file)

    damages = list(damages)
    for damage, (fault, reading) in zip(damages, side_by_side(tried, enumerate(damages))):
        tally.judge(f"{name}, {damage.name}", fault, f"{damage.kind}: {reading}")
    tally.show(f"{name}, damaged")


def try_file(program, folder, tally, chosen, every):
    """Damages a file whose log is empty."""
    file = folder / "large.db"
    digits = "".join(chosen.choices("0123456789", k=300))
    tokens = base.make_large(program, file, digits)
    rows.change(file, "PRAGMA wal_checkpoint(TRUNCATE)")
    text = file.read_bytes()
    size = int.from_bytes(text[16:18], "big")
    kept = folder / "kept.db"
    kept.write_bytes(text)
    whole = judged.Whole(program, kept, base.questions(tokens))
    damages = pages.all_of(text, size, chosen, every)
    try_damages(
        whole, folder, tally, f"a file of {len(text) // size} pages", damages,
        lambda place, damage: judged.placed(folder, place, damage.make(text)),
    )


def earlier_rows(program, folder, file, asked, digits):
    """The rows of a file after each of some messages, from none on."""
    found = []
    for many in range(len(asked) + 1):
        earlier = copied(file, folder / "earlier.db")
        must(program, "pipe", "--now", 1000, "--digits", digits, earlier, given=b"".join(asked[:many]))
        found.append(rows.read(earlier))
    return found


def try_log(program, folder, tally, chosen, every):
    """Damages the log of a file: what is left of it is the vault as it was earlier."""
    file = folder / "logged.db"
    base.make_small(program, file)
    digits = "".join(chosen.choices("0123456789", k=300))
    asked = [messages.token_asked(20 + place, messages.order(use="single")) for place in range(6)]
    earlier = earlier_rows(program, folder, file, asked, digits)
    must(program, "pipe", "--now", 1000, "--digits", digits, file, given=b"".join(asked))
    text, log = file.read_bytes(), log_of(file).read_bytes()
    kept = folder / "logged-kept.db"
    copied(file, kept)
    size = int.from_bytes(text[16:18], "big") + 24
    whole = judged.Whole(program, kept, b"".join(asked), earlier[:-1])
    damages = pages.log_damages(log, size, chosen, every)
    try_damages(
        whole, folder, tally, f"a log of {len(log) // size} frames", damages,
        lambda place, damage: judged.placed(folder, place, text, damage.make(log)),
    )


def try_all(program, folder, tally, chosen, every):
    """Damages the file, and then a log."""
    try_file(program, folder, tally, chosen, every)
    try_log(program, folder, tally, chosen, every)
