"""The whole trial: python3 -m logs PROGRAM REPOSITORY"""

import contextlib
import datetime
import glob
import gzip
import json
import os
import subprocess
import sys
import time

from front import certificates, forged, guards
from front.clients import NUMBER, Client
from front.services import Front as Nginx
from front.services import REST, two_vaults
from haproxy.services import Front
from logs import accounts, forged_lines, odd_lines, refusals, taken, unlogged
from logs.turned import Syslog, configured, turn
from shared import lines
from shared.runs import until
from shared.tally import Tally, unlike

TOKENS = "/v1/merchants/shop1/tokens"


def asked(port, token):
    """What is asked of a front: a number thrice, twice by who may, and another merchant's counts."""
    for caller in ("back", "back", "guest"):
        Client(port, caller).ask("POST", f"{TOKENS}/{token}/number")
    Client(port, "back").ask("GET", "/v1/merchants/shop2/audit")


def who(repository, *words):
    """What the script says, and what it tells of lines that it doesn't know."""
    words = [sys.executable, f"{repository}/deploy/logs/who.py", *words, "--folder", "."]
    ran = subprocess.run(words, capture_output=True, text=True)
    return ran.stdout.splitlines(), ran.stderr


def by_haproxy(tally, repository, vaults):
    """Lines by syslog, of which none is lost as the file is turned."""
    with Syslog(repository):
        front = Front(repository, *vaults, log="haproxy.out")
        try:
            token = Client(front.port, "till-1").token("shop1", 1).json()["token"]
            asked(front.port, token)
            until(lambda: os.path.exists("front.log") and len(lines.read("front.log")) >= 5)
            lines.judge(tally, "front.log")
            told = turn("20261102")
            tally.judge("logrotate turns it", told)
            taken.judge(tally, "HAProxy", front.port, 101)
            forged_lines.by_logger(tally)
            asked(front.port, token)
            guards.typed_wrong(tally, front.port)
            forged.of_numbers(tally, front.port)
            until(lambda: len(lines.read("front.log")) >= 30, 5)
            tally.judge("the new file goes on", "" if len(lines.read("front.log")) >= 5 else "it is empty")
        finally:
            front.end()
        lines.judge(tally, "front.log")
    asked_for = [it for it in lines.read("front.log-20261102") if '"asked":"-"' not in it]
    tally.judge("each request has a line", unlike(len(asked_for), 5))
    return token


def by_nginx(tally, repository, vaults, token):
    """The same by a front that writes its file itself."""
    os.rename("front.log", "front.log-20261103")
    front = Nginx(f"{repository}/deploy/nginx.conf", *vaults)
    try:
        asked(front.port, token)
        tally.judge("logrotate turns it under nginx", turn("20261104"))
        until(lambda: os.path.exists("front.log"))
        time.sleep(0.5)
        asked(front.port, token)
        until(lambda: len(lines.read("front.log")) >= 4)
        tally.judge("four lines after", unlike(len(lines.read("front.log")), 4))
        taken.judge(tally, "nginx", front.port, 201)
    finally:
        front.end()
    tally.judge("four lines before", unlike(len(lines.read("front.log-20261104")), 4))
    turned = os.path.exists("taken.log-20261104") and len(lines.read("taken.log-20261104"))
    tally.judge("what was taken away is turned too", unlike(turned, 3))
    mode = os.stat("front.log").st_mode & 0o777
    tally.judge("for a few alone", unlike(oct(mode), "0o640"))


def of_a_day(days, caller, status=200, merchant="shop1", token="****0001"):
    """A line from some days ago."""
    moment = datetime.datetime.now(datetime.timezone.utc) - datetime.timedelta(days=days)
    told = {
        "time": f"{moment:%Y-%m-%dT%H:%M:%SZ}",
        "from": "127.0.0.1",
        "caller": caller,
        "merchant": merchant,
    }
    return json.dumps({**told, "token": token, "asked": "detokenize", "status": status}) + "\n"


def asked_for(tally, repository):
    """Who brought back numbers in the last week: by files that are compressed and that aren't."""
    with gzip.open("front.log-20261101.gz", "wt") as file:
        file.write(of_a_day(3, "night", token="****0001") + of_a_day(2, "night", token="****0002"))
        file.write(of_a_day(9, "night") + of_a_day(9, "gone") + of_a_day(1, "night", merchant="shop2"))
        file.write(of_a_day(1, "night", 429) + "Proxy callers started.\n")
    told, strange = who(repository, "shop1")
    # each of the four times that a front was asked
    wanted = [["back", "8", "0", "1"], ["night", "2", "1", "2"], ["guest", "0", "4", "0"]]
    found = [line.split()[:4] for line in told[1:]]
    # what was typed wrong was asked by the back office too, and refused
    found = [[*it[:2], "0", it[3]] if it[0] == "back" else it for it in found]
    tally.judge("who brought numbers back", unlike(found, wanted))
    tally.judge("a line that isn't the log's is counted", unlike(strange, "lines that aren't the log's: 1\n"))
    told = who(repository, "shop1", "--days", "30")[0]
    tally.judge("of a longer time", "" if any(it.startswith("gone ") for it in told) else f"{told}")
    day = datetime.date.today() - datetime.timedelta(days=9)
    told = who(repository, "shop1", "--until", f"{day}", "--days", "2")[0]
    callers = sorted(it.split()[0] for it in told[1:])
    tally.judge("of another week", unlike(callers, ["gone", "night"]))
    told = who(repository, "shop2", "--each")[0]
    tally.judge(
        "of another merchant, one by one",
        unlike([it.split()[2:] for it in told], [["night", "****0001", "200"]]),
    )
    told = who(repository, "shop2", "--asked", "audit")[0]
    tally.judge("what else was asked", unlike([it.split()[0] for it in told[1:]], ["back"]))


def kept(tally):
    """Four hundred days are kept, and older files go."""
    for name in glob.glob("front.log-*"):
        os.remove(name)
    first = datetime.date.today() - datetime.timedelta(days=420)
    for days in range(420):
        with gzip.open(f"front.log-{first + datetime.timedelta(days=days):%Y%m%d}.gz", "wt") as file:
            file.write(of_a_day(420 - days, "back"))
    with open("front.log", "a") as file:
        file.write(of_a_day(0, "back"))
    turn("now")
    found = sorted(glob.glob("front.log-*"))
    tally.judge("four hundred days are kept", "" if 399 <= len(found) <= 401 else f"{len(found)}")
    newest = (datetime.date.today() - datetime.timedelta(days=1)).strftime("front.log-%Y%m%d.gz")
    tally.judge("the newest of them", "" if newest in found else f"{found[-3:]}")


def refused(tally, name, front, repository, token):
    """What a front refuses, in a log that begins anew, and the crowd that was refused, as it is summed up."""
    with contextlib.closing(front):
        many = refusals.judge(tally, name, front.port, token, by_body=name == "HAProxy")
    told, _ = who(repository, "shop1")
    of_back = next((line.split() for line in told if line.startswith("back ")), ["", "0", "0"])
    counted = int(of_back[2]) >= many > 0
    tally.judge(f"{name}: who.py counts the refused", "" if counted else f"{many}: {told}")
    words = ("--asked", "tokenize", "--each", "--request", "9223372036854775807")
    found = who(repository, "shop1", *words)[0]
    fits = (
        len(found) == 1 and " guest " in found[0] and "request 922337***5807 reference ref-long" in found[0]
    )
    tally.judge(f"{name}: a request is found by its number", "" if fits else f"{found}")
    lines.judge(tally, "front.log")


def emptied():
    """The log begins anew."""
    for path in glob.glob("front.log*"):
        os.remove(path)


def without_numbers(tally):
    """No file of the log has a number of a card, nor has what goes to syslog beside it."""
    for path in sorted(glob.glob("front.log*")):
        faults = [it for it in map(lines.fault_of, lines.read(path)) if it]
        tally.judge(f"no number in {path}", f"{faults[:3]}" if faults else "")
    for path in sorted(glob.glob("taken.log*")):
        tally.judge(f"no card number in {path}", "it is there" if NUMBER in open(path).read() else "")
    for path in glob.glob("others.log") + ["haproxy.out", "haproxy.err", "vault-error.log"]:
        found = lines.NUMBER.findall(open(path).read())
        tally.judge(f"no number in {path}", f"{len(found)} of them" if found else "")


def main(program, repository, python):
    tally = Tally()
    odd_lines.judge(tally, repository)
    accounts.judge(tally, repository)
    forged_lines.carried_out(tally, repository)
    certificates.make()
    configured(repository)
    with two_vaults(program) as vaults:
        vaults[0].give(REST)
        token = by_haproxy(tally, repository, vaults)
        by_nginx(tally, repository, vaults, token)
        without_numbers(tally)
        asked_for(tally, repository)
        kept(tally)
        emptied()
        with Syslog(repository):
            refused(tally, "HAProxy", Front(repository, *vaults, log="haproxy.out"), repository, token)
        emptied()
        nginx = Nginx(f"{repository}/deploy/nginx.conf", *vaults)
        refused(tally, "nginx", nginx, repository, token)
        emptied()
        fronts = {
            "HAProxy": lambda: Front(repository, *vaults, log="haproxy.out"),
            "nginx": lambda: Nginx(f"{repository}/deploy/nginx.conf", *vaults),
        }
        unlogged.judge(tally, python, repository, vaults[0], fronts, token)
    tally.end()


main(*sys.argv[1:])
