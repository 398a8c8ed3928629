"""What is done to the pair while sixteen tills ask, and what comes of it."""

import contextlib
import random
import time

from shared.runs import until
from shared.tally import unlike
from standby.nodes import NODES, Refused, apart, other

# how long the other one has to answer first, in seconds, on machines that are emulated
TAKEOVER = 300
ROLES = "drbdadm role vault; drbdadm cstate vault; drbdadm dstate vault"
PRIMARY = "drbdadm primary vault"


def errors_since(tills, moment):
    """What tills were told that was no answer: after how many seconds, and what."""
    return [(round(at - moment, 1), status, told) for at, status, told in tills.errors if at > moment]


def judged(tally, name, tills, since, lost, *, may_be=()):
    """No answer is lost, and no till sees an error but those that may be."""
    tally.judge(f"{name}: no answer is lost", unlike(lost, 0))
    others = [it for it in errors_since(tills, since) if it[1] not in may_be]
    tally.judge(f"{name}: no till sees an error", str(others[:5]) if others else "")


def cut(tally, pair, tills, number, pause):
    """The power of the machine that serves goes; the seconds until the other one answers."""
    name = pair.whole()
    begun = time.time()
    tills.resume()
    time.sleep(pause)
    at = pair.nodes[name].cut()
    # what came within two seconds may be the answer of the machine that is off
    well = until(lambda: tills.first_after(at + 2), TAKEOVER)
    spent = tills.first_after(at + 2) - at if well else float("inf")
    time.sleep(3)
    tills.pause()
    pair.nodes[name].start()
    before = sum(begun < when <= at for when, _ in tills.times)
    waited = max((wait for when, wait in tills.times if when > at), default=0)
    asked, lost = tills.all_again(before=at)
    step = f"cut {number} of {name}"
    print(
        f"{step}: {before} answers before; first answer after {spent:.1f} s, longest wait {waited:.1f} s; "
        f"{asked} asked again, {lost} lost; errors {errors_since(tills, begun)[:5]}",
        flush=True,
    )
    tally.judge(f"{step}: the other one answers", "" if well else f"not in {TAKEOVER} s")
    judged(tally, step, tills, begun, lost)
    return before, spent


def cuts(tally, pair, tills, many, seed):
    """So many cuts, each at a random moment."""
    chance = random.Random(seed)
    found = [cut(tally, pair, tills, number + 1, 5 + 10 * chance.random()) for number in range(many)]
    pair.whole()
    asked, lost = tills.all_again()
    tally.judge("after all cuts no answer is lost", unlike(lost, 0))
    spent = sorted(seconds for _, seconds in found)
    answers = sum(before for before, _ in found)
    print(
        f"{many} cuts, seed {seed}: {answers} answers before; the other one answered after "
        f"{spent[0]:.1f} to {spent[-1]:.1f} s; {asked} asked again, {lost} lost",
        flush=True,
    )


def under_tills(tally, pair, tills, name, deed, seconds, may_be=()):
    """What tills see of a deed, which is told who serves, and for so long after it began."""
    node = pair.whole()
    begun = time.time()
    tills.resume()
    time.sleep(8)
    at = time.time()
    said = deed(node)
    time.sleep(max(0.0, at + seconds - time.time()))
    tills.pause()
    times = sorted(when for when, _ in tills.times if when > at - 1)
    gap = max((after - before for before, after in zip(times, times[1:])), default=0)
    asked, lost = tills.all_again()
    step = f"{name} ({node})"
    print(
        f"{step}: longest without an answer {gap:.1f} s; {asked} asked again, {lost} lost; errors "
        f"{errors_since(tills, begun)[:5]}{f'; {said}' if said else ''}; now served by {pair.serving()}",
        flush=True,
    )
    judged(tally, step, tills, begun, lost, may_be=may_be)


def switch(tally, pair, tills):
    """An orderly move, as before maintenance. It may outlast the front's tries here, and is a 503 then."""

    def deed(node):
        pair.nodes[node].type(f"crm node standby {node}", seconds=300)
        tally.judge("an orderly move: the other one serves", "" if pair.moved_from(node) else "it doesn't")

    under_tills(tally, pair, tills, "an orderly move", deed, 60, may_be=(503,))
    for name in NODES:
        with contextlib.suppress(Refused):
            pair.nodes[name].type(f"crm node online {name}", seconds=300)


def refusal_of(machine):
    """What is wrong with how a machine without the cable is refused to be made primary."""
    command = f"timeout 90 {PRIMARY} > said 2>&1; echo ended $?; cat said"
    try:
        said = machine.type(command, well=False)
    except Refused as fault:
        return f"{fault}; then it was up for {machine.says('cut -d. -f1 /proc/uptime')} s"
    return "" if said.startswith("ended") and not said.startswith(("ended 0", "ended 124")) else said


def cable(tally, pair, tills):
    """The cable of the volume is out: the one that serves goes on, and the other one can't take over."""

    def deed(node):
        with pair.cable_out(node):
            time.sleep(40)
            told = [f"{it}: {' '.join(pair.nodes[it].says(ROLES).split())}" for it in NODES]
            fault = refusal_of(pair.nodes[other(node)])
        tally.judge("a cable is out: the other one isn't made primary", fault)
        return told

    under_tills(tally, pair, tills, "the cable is out for 40 s", deed, 60)


def disk(tally, pair, tills):
    """The disk of the machine that serves gives errors."""

    def deed(node):
        machine = pair.nodes[node]
        machine.type("dmsetup wipe_table vault-file")
        time.sleep(20)
        told = " ".join(machine.says("drbdadm role vault; drbdadm dstate vault").split())
        mend = "lvchange --refresh vault/file; drbdadm detach --force vault; drbdadm attach vault"
        machine.type(mend, well=False)
        return f"after 20 s {told}"

    under_tills(tally, pair, tills, "the disk fails", deed, 60)


def split(tally, pair, tills):
    """Neither hears the other, and both reach the power switch and the front: one cuts the other's power."""

    def deed(node):
        apart(True)
        pair.nodes[node].link("cable", False)

    under_tills(tally, pair, tills, "neither hears the other", deed, 100)
    apart(False)
    for node in pair.nodes.values():
        if node.is_on():
            node.link("cable", True)
    print(f"mended, served by {pair.whole()}", flush=True)
