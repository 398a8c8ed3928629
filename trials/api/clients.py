"""The clients of examples/ behind the front: what they say, and how they end, where they aren't answered."""

import os
import re
import shutil
import subprocess
import sys
from typing import NamedTuple

from api import lost
from api.asked import NUMBER
from api.shop import SHOP
from front.clients import Client
from shared.tally import unlike

ONE = re.compile(r"[0-9]{12}1111 [0-9]+\n")
TWO = re.compile(ONE.pattern + r"refused 2\n")
SPACED = " ".join(NUMBER[it : it + 4] for it in range(0, len(NUMBER), 4))


class Ended(NamedTuple):
    """How a client ended, and what it printed."""

    status: int
    out: str
    err: str


class Examples:
    """Runs the clients of examples/ against a front, by the certificate of a caller or without one."""

    def __init__(self, tally, program, repository, vault):
        self.tally, self.program, self.vault = tally, program, vault
        self.folder = os.path.abspath(f"{repository}/examples/clients")
        self.made = {}
        self.tills = self.make()

    def begin(self, name, *words, by):
        """Starts a client; those in Go take what has a name first."""
        keys = ("--certificate", f"{by}.pem", "--key", f"{by}.key") if by else ()
        named = [*keys, "--authority", "callers.pem"]
        begins = self.made.get(name) or [sys.executable, f"{self.folder}/{name}.py"]
        if name == "till.go":
            place = next((it for it, word in enumerate(words) if word.startswith("--")), len(words))
            words = (*words[place:], *named, *words[:place])
        else:
            words = (*words, *named)
        pipe = subprocess.PIPE
        return subprocess.Popen([*begins, *words], stdin=pipe, stdout=pipe, stderr=pipe, text=True)

    def make(self):
        """The tills in other languages, as far as their tools are there; they lie in the first folder."""
        here = os.getcwd()
        shown = {"stdout": subprocess.DEVNULL, "check": True, "env": {"GOCACHE": f"{here}/go", **os.environ}}
        if shutil.which("node"):
            self.made["till.js"] = ["node", f"{self.folder}/till.js"]
        if shutil.which("go"):
            subprocess.run(["go", "build", "-o", f"{here}/till", f"{self.folder}/till.go"], **shown)
            self.made["till.go"] = [f"{here}/till"]
        if shutil.which("javac"):
            subprocess.run(["javac", "-d", here, f"{self.folder}/Till.java"], **shown)
            self.made["Till.java"] = ["java", "-cp", here, "Till"]
        return ["till", *self.made]

    def run(self, name, *words, by, given=""):
        """One run; its errors are no trace of Python's, and have no card number."""
        process = self.begin(name, *words, by=by)
        out, err = process.communicate(given, timeout=120)
        told = Ended(process.returncode, out, err)
        fault = "a trace" if "Traceback" in told.err else ""
        if NUMBER in told.err or SPACED in told.err:
            fault = "a card number"
        self.tally.judge(f"the errors of {name} by {by}", fault)
        return told

    def till(self, port, *words, by="till-1", shop=SHOP, given=NUMBER, name="till"):
        """What a till prints."""
        return self.run(name, f"https://localhost:{port}", shop, *words, by=by, given=given)

    def office(self, port, step, *words, by="back", shop=SHOP):
        """What a back office prints."""
        words = ("--step", step, f"https://localhost:{port}", self.vault.file, shop, "rows.csv", *words)
        return self.run("back_office", *words, "--program", self.program, by=by)


def ended(told, status, out, err):
    """Why a client didn't end so, with these words among its errors; or nothing."""
    fault = unlike((told.status, told.out), (status, out))
    return fault or ("" if err in told.err and bool(err) == bool(told.err) else f"said {told.err!r}")


def tills(tally, examples, port, till="till"):
    """A till that is answered, and one that the front turns away; what is answered is a token of it."""
    told = examples.till(port, given=f"{NUMBER}\n4111111111111112\n", name=till)
    token = told.out.partition(" ")[0]
    said = told.out or told.err or "nothing"
    tally.judge(f"{till} has a token and a refusal", "" if TWO.fullmatch(told.out) else said)
    tally.judge("its status says so", unlike((told.status, told.err), (1, "requests that were refused: 1\n")))
    for name, words, number in (
        ("with no caller's name", {"by": "nobody"}, 403),
        # these two show no certificate but of an authority that the front asks for
        ("of another authority", {"by": "stranger"}, 496 if till in ("till.go", "Till.java") else 495),
        ("without a certificate", {"by": None}, 496),
        ("of a shop outside", {"shop": "../../x"}, 404),
        ("of a shop with a long name", {"shop": "x" * 9000}, 414),
        ("with a long number", {"given": "4" * 5120}, 413),
    ):
        fault = ended(examples.till(port, name=till, **words), 1, f"refused front {number}\n", "refused")
        tally.judge(f"{till} {name} is refused once", fault)
    told = examples.till(port, "--tries", "3", shop="nobody", name=till)
    fault = unlike((told.status, told.out), (1, "refused 7\n"))
    often = told.err.count("refused 7") >= 2
    tally.judge(f"{till} asks again for a merchant that isn't known", fault or ("" if often else told.err))
    return token


def offices(tally, examples, port, token):
    """A back office beside a service, and one that the front turns away."""
    for step in ("sweep", "batch"):
        told = examples.office(port, step)
        tally.judge(f"a {step} beside a service is told", ended(told, 3, "", "file not opened 34"))
    for by, number in (("nobody", 403), ("stranger", 495), (None, 496)):
        told = examples.office(port, "number", "--token", token, by=by)
        tally.judge(f"no number by {by}", ended(told, 1, "", f"refused front {number}"))
    for name, words in (("a card number", NUMBER), ("one with spaces", SPACED), ("nothing", "")):
        told = examples.office(port, "number", "--token", words)
        tally.judge(f"{name} is no token", ended(told, 1, "", "refused "))
    told = examples.office(port, "number", "--token", token, "--caller", "back")
    tally.judge("a number comes back", ended(told, 0, "a number of 16 digits\n", ""))
    Client(port, "back").ask("POST", f"/v1/merchants/{SHOP}/tokens/{token}/revoke")
    told = examples.office(port, "number", "--token", token)
    tally.judge("but not of a revoked token", ended(told, 1, "", "refused 15"))


def on_the_file(tally, examples, port):
    """A back office on the machine of a vault that is stopped."""
    told = examples.office(port, "batch", shop="Shop 1")
    tally.judge("a batch of no name is refused", ended(told, 1, "", "refused 4"))
    told = examples.office(port, "batch", "--caller", "till-9")
    tally.judge("a batch of a stranger", ended(told, 1, "300001 refused 8\n300002 refused 19\n", "refused"))
    told = examples.office(port, "batch")
    tally.judge("a batch", unlike((told.status, told.out.splitlines()[-1]), (1, "300002 refused 19")))
    told = examples.office(port, "sweep", "--caller", "till-1")
    tally.judge("a sweep by a till is refused", ended(told, 1, "", "refused 8"))
    tally.judge("a sweep", ended(examples.office(port, "sweep"), 0, "purged 1\n", ""))


def away(tally, examples, port):
    """Clients of a vault that is away, and a till that is patient."""
    told = examples.office(port, "number", "--token", "0000000000001111", "--tries", "2")
    tally.judge("no number while it is away", ended(told, 1, "", "no number came: status 503"))
    waiting = []
    for name in examples.tills:
        told = examples.till(port, "--tries", "2", name=name)
        fault = ended(told, 1, "", "send it again with this number")
        tally.judge(f"{name}: no token while it is away", fault)
        till = examples.begin(name, f"https://localhost:{port}", SHOP, by="till-1")
        till.stdin.write(f"{NUMBER}\n")
        till.stdin.flush()
        line = till.stderr.readline()
        tally.judge(f"{name} says so", "" if "status 503" in line else line)
        waiting.append((name, till))
    examples.vault.start()
    for name, till in waiting:
        out, err = till.communicate(timeout=120)
        tally.judge(f"{name} waits for it", "" if ONE.fullmatch(out) else out + err)


def hurried(tally, examples, port):
    """A till at a front that takes one request a second."""
    for name in examples.tills:
        told = examples.till(port, given=f"{NUMBER}\n" * 2, name=name)
        tally.judge(f"{name} waits for its turn", unlike((told.status, len(told.out.splitlines())), (0, 2)))
        tally.judge("and says so", "" if "status 429" in told.err else told.err)


def rows():
    """What a batch is sent."""
    with open("rows.csv", "w") as file:
        file.write(f"request,number,use\n300001,{NUMBER},single\n300002,{NUMBER},often\n")


def clients(tally, examples, port):
    """The clients at one front, whose vault runs before and after."""
    rows()
    token = [tills(tally, examples, port, name) for name in examples.tills][0]
    lost.judge(tally, examples, port)
    offices(tally, examples, port, token)
    examples.vault.kill()
    on_the_file(tally, examples, port)
    away(tally, examples, port)
