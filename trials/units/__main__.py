"""One of its two parts: python3 -m units PROGRAM REPOSITORY copies [HOW-MANY-FREEZES] [all], or .. outages"""

import functools
import os
import signal
import subprocess
import sys

from operating.page import blocks
from shared.machine import Machine, says
from shared.runs import until
from shared.tally import Tally
from units import copies, disks, restored, services, starts

FILE = "/var/lib/vault/vault.db"
# What each shell of the machine begins with, and the shop that the units serve.
SHELL = f"""asvault() {{ setpriv --reuid=vault --regid=vault --clear-groups -- "$@"; }}
file={FILE} lib=/usr/lib/vault copies=/var/backups/vault
answers() {{ for turn in $(seq "$1"); do $lib/answers vault && return; sleep 0.1; done; return 1; }}
alarms() {{ journalctl -t vault-alarm -o cat --no-pager; }}
"""
SHOP = """asvault vault merchant $file shop1 86400 31536000
for till in 1 2 3 4; do asvault vault grant $file till-$till shop1 tokenize; done
for right in detokenize view revoke purge audit; do asvault vault grant $file back shop1 $right; done
"""
ALARM = """mkdir -p /etc/vault; printf '#!/bin/sh\\nlogger -t vault-alarm "$1: $2"\\n' > /etc/vault/alarm
chmod 755 /etc/vault/alarm
"""


def installed(tally, machine, program, repository):
    """The package, on an image without documents, and the rule for its port, as the page has it."""
    package = ["sh", f"{repository}/deploy/package.sh", program, f"{machine.folder}/srv"]
    subprocess.run(package, check=True, capture_output=True, text=True)
    without = "printf 'path-exclude=/usr/share/doc/*\\n' > /etc/dpkg/dpkg.cfg.d/01_nodoc\n"
    install = f"{without}apt-get install -y /srv/vault_*.deb curl nftables"
    says(tally, machine, "the package is installed without documents", install + "\n" + SHELL + ALARM, "")
    rule = blocks(f"{repository}/docs/OPERATING.md")["Who may connect"][0]
    says(tally, machine, "its port has its rule", rule, "")


# A trial that boots a machine, says its first process, and is killed.
KILLED = """import os, sys, time
from shared.machine import Machine
with Machine(os.getcwd() + "/killed") as machine:
    print(machine.leader, flush=True)
    time.sleep(600)
"""


def killed(tally):
    """A trial that is killed leaves no machine behind."""
    trial = subprocess.Popen([sys.executable, "-c", KILLED], stdout=subprocess.PIPE, text=True)
    leader = trial.stdout.readline().strip()
    trial.send_signal(signal.SIGKILL)
    trial.wait()
    gone = leader and until(lambda: not os.path.exists(f"/proc/{leader}"), 20)
    tally.judge("a trial that is killed leaves no machine", "" if gone else f"{leader} is there still")


def shop(step):
    """The shop that the units serve."""
    step("the first merchant", SHOP + "systemctl enable --now vault", "")


def of_copies(tally, machine, step, freezes="100", *words):
    """Copies under load, copies that are ended, and restores."""
    killed(tally)
    shop(step)
    copies.timers(step)
    copies.clustered(tally, machine, step)
    copies.under_load(tally, machine, step, int(freezes))
    copies.ended(tally, machine, step, every="all" in words)
    copies.too_long(step)
    copies.fewer(step)
    copies.ahead(step)
    restored.looked_at(step)
    restored.forged(step)
    restored.taken_again(step)
    restored.cut_off(step)


def of_outages(tally, machine, step):
    """What takes the service away: its file, the clock, a port, a hang, its volume."""
    disks.no_file(step)
    shop(step)
    starts.orders(step)
    starts.lists(step)
    services.jumped(step)
    # a copy is made of a service that has been frozen
    services.killed_frozen(step)
    services.others_port(step)
    services.hangs(step)
    disks.full(tally, machine, step)
    disks.read_only(step)
    disks.no_inode(step)
    disks.btrfs(machine, step)


def main(program, repository, part, *words):
    tally = Tally()
    with Machine(f"{os.getcwd()}/machine") as machine:
        installed(tally, machine, program, os.path.abspath(repository))
        step = functools.partial(says, tally, machine)
        {"copies": of_copies, "outages": of_outages}[part](tally, machine, step, *words)
    tally.end()


main(*sys.argv[1:])
