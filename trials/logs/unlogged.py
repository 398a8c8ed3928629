"""Numbers that go out while the log can't be written: the exporter's count of them, and who.py's."""

import contextlib
import json
import os
import re
import shutil
import signal
import subprocess
import sys
import time
import urllib.request

from front.clients import Client
from logs.turned import Syslog
from shared import lines
from shared.ports import free_port
from shared.runs import until
from shared.tally import unlike

NUMBERS = "/v1/merchants/shop1/tokens/{}/number"
OTHERS = ("4012888888881881", "5555555555554444", "378282246310005")
SETTINGS = """front = "https://localhost:{front}"
certificate = "back.pem"
key = "back.key"
authority = "callers.pem"
merchants = ["shop1"]
listen = {port}
every = 0.5
log = "full/front.log"
settle = 2
"""


class Exporter:
    """The exporter beside one front, with a folder of its own."""

    def __init__(self, python, repository, front):
        self.port = free_port()
        with open("exporter.toml", "w") as file:
            file.write(SETTINGS.format(front=front, port=self.port))
        os.makedirs("state", exist_ok=True)
        words = [python, f"{repository}/deploy/exporter.py", "exporter.toml"]
        environment = {**os.environ, "STATE_DIRECTORY": os.path.abspath("state")}
        with open("exporter.err", "a") as errors:
            self.process = subprocess.Popen(words, stdout=errors, stderr=errors, env=environment)

    def end(self):
        self.process.kill()
        self.process.wait()

    def value(self, name, labels='merchant="shop1"'):
        """A value with these labels, or one without a label."""
        try:
            with urllib.request.urlopen(f"http://127.0.0.1:{self.port}/metrics", timeout=10) as answer:
                told = answer.read().decode()
        except OSError:
            return None
        found = re.search(rf'(?m)^vault_{name}(?:\{{{labels}\}})? ([0-9.]+)$', told)
        return found and int(float(found[1]))


class Volume:
    """A volume of 64 KB for the log, this trial's alone, which can be filled; it is gone at the end of a
    `with`. The front writes to it through names of this folder."""

    def __init__(self):
        os.makedirs("full", exist_ok=True)
        subprocess.run(["mount", "-t", "tmpfs", "-o", "size=64k,mode=755", "tmpfs", "full"], check=True)
        for log in ("front.log", "taken.log"):
            if os.path.lexists(log):
                os.remove(log)
            os.symlink(f"full/{log}", log)

    def __enter__(self):
        return self

    def __exit__(self, *_):
        subprocess.run(["umount", "-l", "full"], check=True)
        for log in ("front.log", "taken.log"):
            os.remove(log)

    def fill(self):
        """Takes all of its room. The page of the log's last line has some still, so it waits until the
        exporter's own requests filled that."""
        with open("full/filler", "wb", buffering=0) as file, contextlib.suppress(OSError):
            while file.write(b"x" * 4096):
                pass
        sizes = [-1]
        while sizes[-4:] != [os.path.getsize("full/front.log")] * 4:
            sizes.append(os.path.getsize("full/front.log"))
            time.sleep(1)

    def free(self):
        os.remove("full/filler")


class Shop:
    """A caller who brings numbers back by one front, and what came of that."""

    def __init__(self, tally, name, front, start, token):
        self.tally, self.name, self.front, self.start, self.token = tally, name, front, start, token
        self.exporter = start(front.port)
        until(lambda: self.exporter.value("numbers_given") is not None, 30)
        self.before = self.given = self.exporter.value("numbers_given")
        self.hung_up = 0

    def bring(self, many):
        """Brings a number back so many times; each is answered."""
        for _ in range(many):
            time.sleep(0.25)  # so that nobody is refused by the limit of a second
            status = Client(self.front.port, "back").ask("POST", NUMBERS.format(self.token)).status
            if status != 200:
                self.tally.judge(f"{self.name}: a number", f"status {status}")
            self.given += 1

    def lacking(self):
        """How many numbers no whole line of the log tells of. A part of one may stand before a whole one."""
        found = []
        for name in os.listdir("full"):
            found += lines.read(f"full/{name}") if name.startswith("front.log") else []
        whole = r'.*\{"time":[^{]*"asked":"detokenize","status":200,[^{]*"reference":"[^"]*"\}'
        logged = sum(re.fullmatch(whole, it) is not None for it in found)
        return self.given - self.before - self.hung_up - logged

    def judge(self, what, lost):
        """The exporter counts as many as the log lacks, of which there are some or none."""
        until(lambda: self.exporter.value("numbers_given") == self.given, 30)
        until(lambda: self.exporter.value("numbers_unlogged") == self.lacking(), 20)
        time.sleep(4)  # in which none may come
        lacking, seen = self.lacking(), self.exporter.value("numbers_unlogged")
        self.tally.judge(f"{self.name}: {what}", unlike(bool(lacking), lost))
        self.tally.judge(f"{self.name}: {what}, as the exporter counts", unlike(seen, lacking))

    def end(self):
        self.exporter.end()
        self.front.end()


def noted(given):
    """Whether the ledger has two times, the last of them with this count."""
    try:
        with open("state/ledger.json") as file:
            marks = json.load(file)["merchants"]["shop1"]["marks"]
    except (OSError, ValueError, KeyError):
        return False
    return len(marks) > 1 and marks[-1][1] == given


def reconciled(shop, repository, wanted):
    """What who.py says of it: its exit status, given, logged, perhaps, unlogged, uncounted."""
    until(lambda: noted(shop.given), 60)
    words = ["--reconcile", "--ledger", "state/ledger.json", "--folder", "full"]
    words = [sys.executable, f"{repository}/deploy/logs/who.py", *words]
    ran = subprocess.run(words, capture_output=True, text=True)
    found = re.search(r"(?m)^shop1 +(\d+) +(\d+) +(\d+) +(\d+) +(\d+) ", ran.stdout)
    told = [ran.returncode, *map(int, found.groups())] if found else ran.stdout + ran.stderr
    shop.tally.judge(f"{shop.name}: who.py reconciles {wanted}", unlike(told, wanted))


def full(shop, volume, repository):
    """A volume without room, and what comes once it has some."""
    time.sleep(8)  # so that the ledger has a time before the first number
    shop.bring(3)
    shop.judge("each number stands in the log", False)
    reconciled(shop, repository, [0, 3, 3, 0, 0, 0])
    volume.fill()
    shop.bring(5)
    shop.judge("a full volume loses some", True)
    volume.free()
    shop.bring(2)
    shop.judge("and none once it has room", True)


def guessed(shop):
    """Somebody who sends a used request number with other card numbers: the exporter says how often, and who."""
    labels = 'caller="till-1",status="409"'
    before = shop.exporter.value("caller_refused", labels) or 0
    till = Client(shop.front.port, "till-1")
    statuses = [till.token("shop1", 1, number).status for number in OTHERS]
    shop.tally.judge(f"{shop.name}: a used number with others", unlike(statuses, [409] * len(OTHERS)))
    wanted = before + len(OTHERS)
    until(lambda: shop.exporter.value("caller_refused", labels) == wanted, 20)
    seen = shop.exporter.value("caller_refused", labels)
    shop.tally.judge(f"{shop.name}: the exporter says who guesses", unlike(seen, wanted))


def hung_up(shop, vault):
    """A client that hangs up while the vault works: its number may have gone out, and the log has its line."""
    os.kill(vault.process.pid, signal.SIGSTOP)
    client = Client(shop.front.port, "back")
    client.connect()
    client.connection.request("POST", NUMBERS.format(shop.token))
    time.sleep(1)
    client.connection.close()
    time.sleep(1)
    os.kill(vault.process.pid, signal.SIGCONT)
    until(lambda: shop.exporter.value("numbers_given") == shop.given + 1, 20)
    shop.hung_up = shop.exporter.value("numbers_given") - shop.given
    shop.given += shop.hung_up
    told = [it for it in lines.read("full/front.log") if '"asked":"detokenize"' in it][-1]
    print(f"{shop.name}: {shop.hung_up} given to a client that hung up: {told}")
    shop.judge("a client that hung up has a line", True)


def turned(shop, writer, number):
    """The log is turned while the exporter goes on, as logrotate does it."""
    os.rename("full/front.log", "full/front.log-20261102")
    shop.bring(1)
    os.kill(writer.pid, number)
    time.sleep(0.5)
    shop.bring(2)
    shop.judge("a log that is turned", True)


def without_syslog(shop, repository, syslog):
    """rsyslog is away, once beside the exporter, and once while that is away too. Answers the next rsyslog."""
    syslog.end()
    shop.bring(3)
    syslog = Syslog(repository)
    shop.bring(1)
    shop.judge("without rsyslog some are lost", True)
    shop.exporter.end()
    syslog.end()
    shop.bring(2)
    syslog = Syslog(repository)
    shop.bring(1)
    shop.exporter = shop.start(shop.front.port)
    shop.judge("none is missed while nobody looks", True)
    return syslog


def judge(tally, python, repository, vault, fronts, token):
    """All of it by HAProxy, whose rsyslog may be away, and by nginx."""

    def start(port):
        return Exporter(python, repository, port)

    for name, front in fronts.items():
        with Volume() as volume:
            syslog = Syslog(repository) if name == "HAProxy" else None
            shop = Shop(tally, name, front(), start, token)
            try:
                full(shop, volume, repository)
                guessed(shop)
                hung_up(shop, vault)
                if syslog:
                    syslog = without_syslog(shop, repository, syslog)
                    turned(shop, syslog.process, signal.SIGHUP)
                else:
                    turned(shop, shop.front.process, signal.SIGUSR1)
                given, lost = shop.given - shop.before, shop.lacking()
                logged = given - lost - shop.hung_up
                reconciled(shop, repository, [1, given, logged, 1, lost, 0])
            finally:
                shop.end()
                if syslog:
                    syslog.end()
                shutil.rmtree("state")
