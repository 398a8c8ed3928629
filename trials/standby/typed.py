"""The takeover that somebody types where no cluster runs, by the blocks of docs/STANDBY.md.

What was answered while the cable was out isn't on the machine that waited: so that one has to refuse."""

import os
import re
import time

from shared.runs import until
from shared.tally import unlike
from standby.faults import ROLES, judged
from standby.nodes import NODES, SHOP, Refused, apart, other

PAGE = f"{os.path.dirname(os.path.abspath(__file__))}/../../docs/STANDBY.md"
LOOKS = "/usr/lib/vault/take-over --power-is-cut"
TWO = "ds:UpToDate/UpToDate"
# how long the machines have to find each other, and the vault to start, in seconds
PATIENCE = 400


def block(word, name):
    """The page's block that has a word, as it is typed on one machine: the page has the first one's."""
    blocks = re.findall(r"^```\n(.*?)^```$", open(PAGE).read(), flags=re.M | re.S)
    found = next(it for it in blocks if word in it)
    number = NODES.index(other(name)) + 1
    return found.replace(f"{SHOP}.2 vault-b", f"{SHOP}.{number} {other(name)}").replace(
        "root@vault-b", f"root@{other(name)}"
    )


def set_up(pair):
    """Both machines without their cluster, each with the other's key."""
    asks = {}
    for name in reversed(NODES):
        machine = pair.nodes[name]
        machine.type("systemctl -q disable --now pacemaker corosync", seconds=300)
        machine.type("modprobe drbd; drbdadm up vault", seconds=300, well=False)
        first, last = block("outdate other", name).split("ssh -i", 1)
        machine.type(first, seconds=300)
        asks[name] = f"ssh -o StrictHostKeyChecking=accept-new -i{last}"
        words = re.search("restrict,command=.*", first)[0]
        line = f"{words} {machine.type('cat /etc/vault/outdate.pub')}"
        pair.nodes[other(name)].type(f"cat >> /root/.ssh/authorized_keys << 'END'\n{line}END")
    for name, words in asks.items():
        told = pair.nodes[name].type(words)
        if told != "1\n":
            raise Refused(f"{name}: the other one can't be told that its disk is outdated: {told}")


def takeover(machine, *, looks):
    """Types the takeover; whether it came about, and what was said. While both machines are connected there
    is nothing to look at, and the volume is taken by `drbdadm primary`."""
    lines = block(LOOKS, machine.name)
    if not looks:
        lines = lines.replace(LOOKS, "drbdadm primary vault")
    told = machine.type(f"{{ {lines}}} 2>&1; echo ended $?", seconds=PATIENCE, well=False)
    return told.endswith("ended 0\n"), told


def serve(pair, name):
    """The vault runs on one of both, which see each other."""
    well, told = takeover(pair.nodes[name], looks=False)
    if not well:
        raise Refused(f"{name} doesn't serve: {told}")


def joined(pair):
    """Both have their power and their cables, and both disks are the same."""
    apart(False)
    for machine in pair.nodes.values():
        if not machine.is_on():
            machine.start()
            machine.wait_up()
        machine.link("cable", True)
        machine.type("drbdadm up vault || drbdadm adjust vault", seconds=300, well=False)
    if not until(lambda: all(TWO in it.says("cat /proc/drbd") for it in pair.nodes.values()), PATIENCE):
        raise Refused(f"both disks don't become the same: {pair.nodes[NODES[0]].says(ROLES)}")


def answers_since(tills, moment):
    """How many answers came since a moment."""
    return sum(when > moment for when, _ in tills.times)


def plain(tally, pair, tills, name):
    """The power of the machine that serves is cut: the other one is told to take over, and does."""
    joined(pair)
    begun = time.time()
    tills.resume()
    time.sleep(10)
    at = pair.nodes[name].cut()
    well, told = takeover(pair.nodes[other(name)], looks=True)
    tally.judge(f"a typed takeover from {name} comes about", "" if well else told)
    if not until(lambda: tills.first_after(at + 2), PATIENCE):
        raise Refused("nothing is answered after a typed takeover")
    print(f"a typed takeover: the first answer after {tills.first_after(at + 2) - at:.1f} s", flush=True)
    tills.pause()
    _, lost = tills.all_again()
    judged(tally, f"a typed takeover from {name}", tills, begun, lost)


def outdated(tally, pair, tills, name):
    """The cable is out, and the machine that serves answers on. Then its power is cut, and somebody tells the
    other one to take over: it refuses, or nothing that was answered is lost."""
    joined(pair)
    tills.resume()
    time.sleep(10)
    pair.nodes[name].link("cable", False)
    out = time.time()
    well = until(lambda: answers_since(tills, out + 10) >= 20, PATIENCE)
    tills.pause()
    told = " ".join(pair.nodes[other(name)].says(ROLES).split())
    print(f"without the cable {answers_since(tills, out)} answers; the other one says {told}", flush=True)
    tally.judge("without the cable it goes on", "" if well else "nothing is answered")
    pair.nodes[name].cut()
    well, told = takeover(pair.nodes[other(name)], looks=True)
    print(f"the takeover {'came about' if well else f'was refused: {told.strip()}'}", flush=True)
    if not well:
        tally.judge("the refusal says why", "" if "outdated" in told else told)
        joined(pair)
        serve(pair, name)
    _, lost = tills.all_again()
    tally.judge("answered without the cable: refused, or no answer is lost", unlike(lost, 0))
    return other(name) if well else name


def frozen(tally, pair, tills, name):
    """Neither hears the other by any net, and the front reaches the one that serves: it answers nothing, so
    the other one may take over once its power is cut."""
    joined(pair)
    tills.resume()
    time.sleep(10)
    apart(True)
    pair.nodes[name].link("cable", False)
    time.sleep(20)
    at = time.time()
    time.sleep(40)
    tally.judge("without any net nothing is answered", unlike(answers_since(tills, at), 0))
    pair.nodes[name].cut()
    apart(False)
    well, told = takeover(pair.nodes[other(name)], looks=True)
    tally.judge("the other one takes over", "" if well else told)
    tills.pause()
    _, lost = tills.all_again()
    tally.judge("answered before there was no net: no answer is lost", unlike(lost, 0))


def typed(tally, pair, tills):
    """All of them. Who serves is the first one, then the other one."""
    set_up(pair)
    joined(pair)
    serve(pair, NODES[0])
    plain(tally, pair, tills, NODES[0])
    serving = outdated(tally, pair, tills, NODES[1])
    frozen(tally, pair, tills, serving)
    joined(pair)
