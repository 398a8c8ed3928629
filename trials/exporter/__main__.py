"""The whole trial: python3 -m exporter PROGRAM REPOSITORY PYTHON"""

import contextlib
import json
import os
import re
import shutil
import signal
import socket
import subprocess
import sys
import time
import urllib.request

from exporter import prometheus
from front import certificates
from front.clients import NUMBER, Client
from front.services import two_vaults
from haproxy.services import Front
from shared import lines
from shared.runs import until
from shared.service import port_of
from shared.tally import Tally, unlike

SETTINGS = """front = "https://localhost:{port}"
certificate = "{caller}.pem"
key = "{caller}.key"
authority = "place/callers.pem"
revoked = "place/revoked.pem"
indexes = "place/callers-*.index"
rights = ["rights.toml"]
merchants = {merchants}
listen = 0
every = 0.5
folders = [".", "/", "/nowhere"]
volumes = [".", "/"]
ports = {ports}
account = "root"
"""
MERCHANTS = ["shop1", "shop2", "nobody"]
DAY = 86400
FAKETIME = "/usr/lib/x86_64-linux-gnu/faketime/libfaketime.so.1"


class Exporter:
    """The exporter as a process; it is over at the end of a `with`."""

    def __init__(self, python, repository, port, caller="watch", merchants=MERCHANTS, ports=(), **environment):
        with open("exporter.toml", "w") as file:
            lists = {"merchants": json.dumps(merchants), "ports": json.dumps(list(ports))}
            file.write(SETTINGS.format(port=port, caller=caller, **lists))
        words = [python, f"{repository}/deploy/exporter.py", "exporter.toml"]
        self.errors = open("exporter.err", "w+")
        more = {"env": {**os.environ, **environment}} if environment else {}
        self.process = subprocess.Popen(words, stdout=subprocess.PIPE, stderr=self.errors, **more)
        self.port = port_of(self.process) or 0

    def __enter__(self):
        return self

    def __exit__(self, *_):
        self.process.kill()
        self.process.communicate()
        self.errors.close()

    def text(self):
        """What a scrape is answered: nothing where that takes longer than Prometheus waits."""
        url = f"http://127.0.0.1:{self.port}/metrics"
        try:
            with urllib.request.urlopen(url, timeout=10) as answer:
                return answer.read().decode()
        except OSError:
            return ""

    def values(self):
        """Each value by its name and label."""
        found = re.findall(r"(?m)^([a-z_]+)(?:\{(.*)\})? ([0-9.e+-]+)$", self.text())
        return {(name, ",".join(re.findall(r'"([^"]*)"', it))): float(value) for name, it, value in found}

    def says(self, name, label, wanted, seconds=10):
        """Whether a value becomes the wanted one within so many seconds."""
        return until(lambda: self.values().get((name, label)) == wanted, seconds)

    def told(self):
        return open("exporter.err").read()

    def listens(self):
        """The addresses on which it listens, as the kernel has them."""
        mine = {
            os.readlink(f"/proc/{self.process.pid}/fd/{it}")
            for it in os.listdir(f"/proc/{self.process.pid}/fd")
        }
        rows = [line.split() for line in open("/proc/net/tcp").read().splitlines()[1:]]
        return {row[1].split(":")[0] for row in rows if row[3] == "0A" and f"socket:[{row[9]}]" in mine}


def counted(tally, exporter, port):
    """The counts of both merchants, which go up with what is asked."""
    first, back = Client(port, "till-1").token("shop1", 1).json()["token"], Client(port, "back")
    Client(port, "till-1").token("shop1", 2)
    Client(port, "till-2").token("shop2", 1)
    back.ask("POST", f"/v1/merchants/shop1/tokens/{first}/number")
    Client(port, "guest").ask("POST", f"/v1/merchants/shop1/tokens/{first}/number")
    until(lambda: exporter.values().get(("vault_numbers_denied", "shop1")) == 1)
    exporter.says("vault_tokens_made", "shop2", 1)
    seen = exporter.values()
    for name, label, wanted in (
        ("vault_up", "shop1", 1),
        ("vault_up", "shop2", 1),
        ("vault_up", "nobody", 0),
        ("vault_tokens_made", "shop1", 2),
        ("vault_tokens_made", "shop2", 1),
        ("vault_numbers_given", "shop1", 1),
        ("vault_numbers_denied", "shop1", 1),
        ("vault_numbers_given", "shop2", 0),
        ("vault_full_ratio", "shop1", 2e-06),
        ("vault_folder_there", ".", 0),
        ("vault_folder_there", "/", 1),
        ("vault_folder_there", "/nowhere", 0),
        ("vault_unwatched", "shop3", 1),
        ("vault_unwatched", "shop1", None),
        ("vault_ends_known", "caller", 1),
    ):
        tally.judge(f"{name} of {label}", unlike(seen.get((name, label)), wanted))
    tally.judge("no count of one that isn't known", unlike(("vault_tokens_made", "nobody") in seen, False))
    tally.judge("which it tells", "" if "nobody: refused 7" in exporter.told() else exporter.told())
    used = seen.get(("vault_disk_used_ratio", "."), 0)
    tally.judge("the disk's use", "" if 0 < used < 1 else f"{used}")
    used = seen.get(("vault_inodes_used_ratio", "."), -1)
    tally.judge("its inodes' use", "" if 0 <= used < 1 else f"{used}")
    tally.judge(
        "the clock didn't jump", "" if abs(seen.get(("vault_clock_jumped_seconds", ""), 9)) < 1 else f"{seen}"
    )
    text = exporter.text()
    tally.judge("no number and no token in it", "it is there" if NUMBER in text or first in text else "")
    linted = subprocess.run(["promtool", "check", "metrics"], input=text, capture_output=True, text=True)
    tally.judge("promtool takes it", "" if linted.returncode == 0 else linted.stdout + linted.stderr)
    tally.judge("it listens on 127.0.0.1 alone", unlike(exporter.listens(), {"0100007F"}))


def away(tally, exporter, vault):
    """A vault that is away, and the other one beside it."""
    vault.kill()
    gone = exporter.says("vault_up", "shop1", 0)
    seen = exporter.values()
    tally.judge("a vault that is away", unlike(gone, True))
    tally.judge("has no counts", unlike(("vault_tokens_made", "shop1") in seen, False))
    tally.judge("the other one has", unlike(seen.get(("vault_up", "shop2")), 1))
    tally.judge("why is told", "" if "shop1: no answer within 5 s" in exporter.told() else exporter.told())
    vault.start()
    tally.judge("and back again", unlike(exporter.says("vault_up", "shop1", 1), True))


def without(tally, python, repository, front):
    """Without the right, with certificates that aren't taken, and with a front's that has ended."""
    port = front.port
    for caller, wanted in (
        ("guest", "shop1: refused 8"),
        ("nobody", "shop1: front 403"),
        ("expired", "shop1: front 495"),
    ):
        with Exporter(python, repository, port, caller) as exporter:
            is_seen = exporter.says("vault_up", "shop1", 0)
            tally.judge(f"{caller} sees no vault", unlike(is_seen, True))
            tally.judge("and is told why", "" if wanted in exporter.told() else exporter.told())
    with Exporter(python, repository, port, "keyless") as exporter:
        ended = until(lambda: exporter.process.poll() is not None)
        tally.judge("without its key it ends", unlike((ended, exporter.process.returncode), (True, 1)))


def ends(tally, exporter):
    """The ends of certificates: of each caller the last one, of the front, authorities and lists."""
    exporter.says("vault_ends_known", "front", 1)
    seen, now = exporter.values(), time.time()
    for label, days in (("caller,till-3", 20), ("caller,till-4", 397), ("front,front", 397)):
        left = (seen.get(("vault_ends_seconds", label), 0) - now) / DAY
        tally.judge(f"the end of {label}", "" if days - 1 < left <= days else f"{left} days")
    for kind in ("authority", "list"):
        found = [
            value
            for (metric, label), value in seen.items()
            if metric == "vault_ends_seconds" and label.startswith(f"{kind},")
        ]
        late = all(3649 < (it - now) / DAY <= 3650 for it in found)
        tally.judge(f"the ends of two of {kind}", unlike((len(found), late), (2, True)))
    tally.judge(
        "no end of what was taken back", unlike(("vault_ends_seconds", "caller,till-9") in seen, False)
    )


def hung(tally, python, repository, front, vault):
    """Sixty merchants of a vault that hangs, and a connection that says nothing: a scrape takes no time, and
    the other vault's merchant is asked as ever."""
    merchants = ["shop2", *(f"many-{it}" for it in range(60))]
    route = open("haproxy.cfg").read()
    tally.judge(
        "a merchant without a line is the first vault's", "" if "default_backend vault" in route else route
    )
    with Exporter(python, repository, front.port, merchants=merchants) as exporter:
        tally.judge("the other vault's merchant is seen", unlike(exporter.says("vault_up", "shop2", 1), True))
        silent = socket.create_connection(("127.0.0.1", exporter.port))
        os.kill(vault.process.pid, signal.SIGSTOP)
        try:
            exporter.says("vault_up", "many-1", 0, 30)
            begun = time.monotonic()
            seen = exporter.values()
            spent = time.monotonic() - begun
            tally.judge("a scrape of a hung vault is answered", "" if spent < 5 else f"after {spent:.1f} s")
            tally.judge("with the other vault's merchant", unlike(seen.get(("vault_up", "shop2")), 1))
            told = "many-1: no answer within 5 s" in exporter.told() or "many-1: refused 7" in exporter.told()
            tally.judge("and why", "" if told else exporter.told()[-300:])
        finally:
            os.kill(vault.process.pid, signal.SIGCONT)
            silent.close()


def renewed(tally, exporter, front):
    """Another authority in place of the first, while it runs."""
    certificates.by_script("authority", "third")
    for caller in ("watch",):
        certificates.by_script("caller", "third", caller)
    certificates.by_script("server", "third", "localhost")
    for name in ("watch.pem", "watch.key"):
        os.replace(f"third/{name}", name)
    shutil.copy("third/callers.pem", "place/callers.pem")
    certificates.by_script("publish", "third", "place")
    shutil.copy("third/server.key", "front-files/server.pem.key")
    front.take(callers="third/callers.pem", revoked="third/revoked.pem", server="third/server.pem")
    until(lambda: exporter.values().get(("vault_up", "shop1")) == 0, 2)
    tally.judge("a changed authority is taken up", unlike(exporter.says("vault_up", "shop1", 1), True))


def jumped(tally, python, repository, port):
    """A clock that jumps by an hour, before this program alone."""
    if not os.path.exists(FAKETIME):
        print("libfaketime isn't there: a clock that jumps is left out")
        return
    with open("clock", "w") as file:
        file.write("+0")
    moved = {
        "LD_PRELOAD": FAKETIME,
        "FAKETIME_TIMESTAMP_FILE": os.path.abspath("clock"),
        "FAKETIME_NO_CACHE": "1",
    }
    with Exporter(python, repository, port, FAKETIME_DONT_FAKE_MONOTONIC="1", **moved) as exporter:
        exporter.values()
        with open("clock", "w") as file:
            file.write("+3600")
        far = until(lambda: 3500 < exporter.values().get(("vault_clock_jumped_seconds", ""), 0) < 3700)
        tally.judge("a clock that jumped", unlike(far, True))


def listener(account, address):
    """A socket of an account's own that listens, with its port."""
    family = socket.AF_INET6 if ":" in address else socket.AF_INET
    os.seteuid(account)
    try:
        return socket.create_server((address, 0), family=family, dualstack_ipv6=address == "::")
    finally:
        os.seteuid(0)


def ports(tally, python, repository, port, vault):
    """Whose program listens on a port where the front asks a vault."""
    if os.getuid() != 0:
        print("not root: a program of another account is left out")
        return
    with contextlib.ExitStack() as open_ones:
        asked = {"a vault's own": (vault.port, 0), "nobody's": (9, 0)}
        for name, account, address, wanted in (
            ("another account's", 65534, "127.0.0.1", 1),
            ("one at all addresses", 65534, "0.0.0.0", 1),
            ("one at all of both kinds", 65534, "::", 1),
            ("one where no front asks", 65534, "127.0.0.2", 0),
        ):
            held = open_ones.enter_context(listener(account, address))
            asked[name] = held.getsockname()[1], wanted
        with Exporter(python, repository, port, ports=[it for it, _ in asked.values()]) as exporter:
            seen = exporter.values()
        for name, (at, wanted) in asked.items():
            tally.judge(f"the port is {name}", unlike(seen.get(("vault_port_foreign", str(at))), wanted))


def no_more(tally, port):
    """The exporter's caller has the right `audit` and no other: its key brings no number back."""
    watch, target = Client(port, "watch"), "/v1/merchants/shop1/tokens"
    token = Client(port, "till-1").token("shop1", 1).json()["token"]
    for method, place in (("GET", ""), ("POST", "/number"), ("POST", "/revoke"), ("DELETE", "")):
        told = watch.ask(method, f"{target}/{token}{place}").json()
        tally.judge(f"{method} {place or 'of a token'} isn't for it", unlike(told, {"refused": 8}))


def alerts(tally, repository):
    """The rules, and when each of them speaks."""
    rules = os.path.abspath(f"{repository}/deploy/alerts.yaml")
    ran = subprocess.run(["promtool", "check", "rules", rules], capture_output=True, text=True)
    tally.judge("the rules are rules", "" if ran.returncode == 0 else ran.stdout + ran.stderr)
    with open(f"{os.path.dirname(__file__)}/alerts_test.yaml") as file, open("test.yaml", "w") as made:
        made.write(file.read().replace("RULES", rules))
    ran = subprocess.run(["promtool", "test", "rules", "test.yaml"], capture_output=True, text=True)
    tally.judge("each speaks when it has to", "" if ran.returncode == 0 else (ran.stdout + ran.stderr)[-600:])
    tested = set(re.findall(r"alertname: (\w+)", open("test.yaml").read()))
    tally.judge("each is tested", unlike(set(re.findall(r"alert: (\w+)", open(rules).read())), tested))


def prepare():
    """The certificates, those of two authorities where the front has its files, and a list of rights."""
    certificates.make()
    certificates.untaken()
    certificates.by_script("caller", ".", "watch")
    certificates.by_script("authority", "second")
    for folder, name, days in (
        (".", "till-3", "20"),
        (".", "till-4", "20"),
        ("second", "till-4", "397"),
        (".", "till-9", "9"),
    ):
        os.environ["DAYS"] = days
        certificates.by_script("caller", folder, name)
    del os.environ["DAYS"]
    certificates.by_script("revoke", ".", "till-9")
    os.mkdir("place")
    with open("place/callers.pem", "w") as both:
        both.writelines(open(path).read() for path in ("callers.pem", "second/callers.pem"))
    for folder in (".", "second"):
        certificates.by_script("publish", folder, "place")
    shutil.copy("watch.pem", "keyless.pem")
    with open("rights.toml", "w") as file:
        file.write("[back]\nshop1 = ['audit']\nshop3 = ['audit']\n")


def main(program, repository, python):
    tally = Tally()
    alerts(tally, repository)
    prometheus.judge(tally, f"{repository}/deploy/alerts.yaml")
    prepare()
    with two_vaults(program) as vaults:
        for vault in vaults:
            vault.give({"watch": ("audit",)})
        with contextlib.closing(Front(repository, *vaults)) as front:
            with Exporter(python, repository, front.port) as exporter:
                counted(tally, exporter, front.port)
                ends(tally, exporter)
                no_more(tally, front.port)
                away(tally, exporter, vaults[0])
            jumped(tally, python, repository, front.port)
            ports(tally, python, repository, front.port, vaults[0])
            without(tally, python, repository, front)
            hung(tally, python, repository, front, vaults[0])
            with Exporter(python, repository, front.port) as exporter:
                exporter.says("vault_up", "shop1", 1)
                renewed(tally, exporter, front)
    asked = {json.loads(it)["asked"] for it in lines.read("front.log") if '"caller":"watch"' in it}
    tally.judge("it stands in the front's log", "" if "audit" in asked else f"{asked}")
    tally.end()


main(*sys.argv[1:])
