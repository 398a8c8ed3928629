"""The whole trial: python3 -m batch PROGRAM REPOSITORY"""

import os
import random
import subprocess
import sys
import time

from front import certificates
from front.services import Vault
from haproxy.services import Front
from model.cards import completed
from shared.masked import MaskedTally
from shared.tally import unlike

MANY = 1500
STRANGE = (
    "x,4111111111111111,single",
    "0,4111111111111111,single",
    "01,4111111111111111,single",
    "9223372036854775808,4111111111111111,single",
    "9223372036854775807,4111111111111111,single",
    " 7,4111111111111111,single",
    "900001,4111,single",
    "900002,4111111111111112,often",
    "900003,4111111111111111,often",
    "900004,4111111111111111,multi",
    f"900005,{'4' * 9000},single",
    f"900006,4111111111111111,{'x' * 9000}",
    '900007,"4111 1111 1111 1111",single',
    '900008,4111-1111-1111-1111,"single"',
    '"900009",4111111111111111,single',
    "900010,,single",
    "900011,4111111111111111,",
    ",,",
    '900012,"41""11",single',
    "900013,\u00e4,single",
    "900014,4111111111111111,single ",
    "900015,4111111111111111,single",
    "900015,4222222222222,single",
    "900015,4111111111111111,single",
)


def made(path, end="\n", mark=""):
    """A file of rows, good ones and strange ones among them."""
    drawn = random.Random(7)
    good = [f"{it},{completed(f'41111{drawn.randrange(10**10):010}')},single" for it in range(1, MANY + 1)]
    for row in STRANGE[:-3]:
        good.insert(drawn.randrange(MANY), row)
    all_of = good + list(STRANGE[-3:]) + [""]
    with open(path, "w", newline="", encoding="utf-8") as file:
        file.write(mark + end.join(("request,number,use", *all_of)))


class Clients:
    """Runs of the client before one front."""

    def __init__(self, repository, port):
        self.program, self.url = f"{repository}/examples/clients/batch.py", f"https://localhost:{port}"

    def begin(self, rows, answers, *words, by="till-1", connections=16):
        keys = ("--certificate", f"{by}.pem", "--key", f"{by}.key", "--authority", "callers.pem")
        words = (self.url, "shop1", rows, answers, *words, "--connections", str(connections), *keys)
        return subprocess.Popen([sys.executable, self.program, *words], stderr=subprocess.PIPE, text=True)

    def run(self, *words, **more):
        """How a run ends, and what it says."""
        process = self.begin(*words, **more)
        told = process.communicate(timeout=300)[1]
        return process.returncode, told.strip()


def size(path):
    return os.path.getsize(path) if os.path.exists(path) else 0


def whole(tally, clients, vault, program):
    """One run, and the program's own over the same rows."""
    begun = time.monotonic()
    tally.judge("a run with refused rows", unlike(clients.run("rows.csv", "first"), (1, "")))
    print(f"{MANY} rows by 16 connections took {time.monotonic() - begun:.1f} s")
    vault.kill()
    with open("rows.csv", "rb") as rows, open("wanted", "wb") as answers:
        words = [program, "batch", vault.file, "till-1", "shop1"]
        status = subprocess.run(words, stdin=rows, stdout=answers).returncode
    vault.start()
    tally.judge("the program's own status", unlike(status, 1))
    wanted = open("wanted").read().splitlines()
    found = open("first").read().splitlines()
    differ = [it for it in range(len(wanted)) if found[it : it + 1] != wanted[it : it + 1]]
    tally.judge(
        "the program's own lines",
        f"{[(found[it : it + 1], wanted[it]) for it in differ[:4]]}" if differ else "",
    )
    tally.judge("and no others", unlike(len(found), len(wanted)))


def again(tally, clients):
    """The same rows in another form, by other connections."""
    wanted = open("wanted", "rb").read()
    made("crlf.csv", "\r\n", "\ufeff")
    for name, rows, connections in (("one connection", "rows.csv", 1), ("CR LF and a mark", "crlf.csv", 32)):
        begun = time.monotonic()
        tally.judge(f"by {name}", unlike(clients.run(rows, name, connections=connections), (1, "")))
        tally.judge(f"the same lines by {name}", unlike(open(name, "rb").read() == wanted, True))
        print(f"again by {connections} connections: {time.monotonic() - begun:.1f} s")
    tally.judge("nothing is left to do", unlike(clients.run("rows.csv", "one connection"), (1, "")))


def stopped(tally, clients, vault):
    """Runs that are killed, and a vault that is."""
    wanted = open("wanted", "rb").read()
    for turn in range(1, 4):
        process = clients.begin("rows.csv", "cut")
        while size("cut") < len(wanted) * turn // 4 and process.poll() is None:
            time.sleep(0.005)
        process.kill()
        process.communicate()
        here = open("cut", "rb").read()
        tally.judge(f"kill {turn} leaves a beginning", unlike(wanted.startswith(here), True))
    tally.judge("a run that was killed goes on", unlike(clients.run("rows.csv", "cut"), (1, "")))
    tally.judge("to the same lines", unlike(open("cut", "rb").read() == wanted, True))
    with open("torn", "wb") as file:
        file.write(wanted[: len(wanted) // 3])
    clients.run("rows.csv", "torn")
    tally.judge("behind half a line too", unlike(open("torn", "rb").read() == wanted, True))
    process = clients.begin("rows.csv", "away")
    while size("away") < len(wanted) // 3 and process.poll() is None:
        time.sleep(0.005)
    vault.kill()
    time.sleep(1)
    vault.start()
    told = process.communicate(timeout=120)[1]
    tally.judge("a vault that is killed is waited for", unlike((process.returncode, told), (1, "")))
    tally.judge("with the same lines", unlike(open("away", "rb").read() == wanted, True))


def ended(tally, clients):
    """What ends a run, and what it says."""
    for name, text, answers, told in (
        ("empty", "", None, "stopped 40"),
        ("other", "number,request,use\n1,4111111111111111,single\n", None, "stopped 40"),
        (
            "short",
            "request,number,use\n1,4111111111111111\n2,x,single\n",
            "request,answer,detail\n",
            "stopped 44",
        ),
        (
            "long",
            "request,number,use\n910,x,single\n1,2,3,4\n",
            "request,answer,detail\n910,refused,1\n",
            "stopped 44",
        ),
    ):
        with open(f"{name}.csv", "w") as file:
            file.write(text)
        status, said = clients.run(f"{name}.csv", f"{name}.out")
        tally.judge(f"{name} rows end it", unlike((status, said.split(":")[0]), (4, told)))
        found = open(f"{name}.out").read() if os.path.exists(f"{name}.out") else None
        tally.judge(f"and the answers of {name} rows", unlike(found, answers))
    tally.judge("answers of other rows", unlike(clients.run("long.csv", "first")[0], 1))
    tally.judge(
        "a file that is no answers",
        unlike(clients.run("rows.csv", "rows.csv")[1], "rows.csv is another file"),
    )
    for by, number in (("nobody", 403), ("stranger", 495)):
        told = clients.run("rows.csv", f"by-{by}", by=by)
        tally.judge(f"a run by {by}", unlike(told, (1, f"the front refuses this by {number}")))
    with open("one.csv", "w") as file:
        file.write("request,number,use\n7,4111111111111111,single\n")
    tally.judge("a run without the right", unlike(clients.run("one.csv", "guest", by="guest"), (1, "")))
    tally.judge("is told in its row", unlike(open("guest").read(), "request,answer,detail\n7,refused,8\n"))


def main(program, repository):
    tally = MaskedTally()
    certificates.make()
    certificates.untaken()
    made("rows.csv")
    vault = Vault(program, "shop1", "till-1")
    front = Front(repository, vault)
    try:
        clients = Clients(repository, front.port)
        whole(tally, clients, vault, program)
        again(tally, clients)
        stopped(tally, clients, vault)
        ended(tally, clients)
    finally:
        front.end()
        vault.kill()
    tally.end()


main(*sys.argv[1:])
