"""Words with options and without, in each order that they may have, and what shows that each was taken."""

import os
import shutil
from pathlib import Path

from runs import cases
from shared import messages
from shared.ports import free_port
from shared.runs import run
from shared.service import must_serve
from shared.tally import unlike

FILE, LIST, MERCHANTS = "v.db", "rights.toml", "merchants.toml"
SHOP = "merchant shop1 single 60 multi 0 lead 6 moment {moment} made 0 given 0 denied 0"
LONGER = SHOP.replace("single 60", "single 90")
VIEW = "right till-1 shop1 view"
DONE = "done"

# Words of one run over a file that isn't there; what it says; and a line of the list that comes then.
SET = (
    ("merchant v.db --now=7 shop1 60 0", DONE, SHOP.format(moment=7)),
    ("merchant --now 7 --lead 8 v.db shop1 60 0", DONE, SHOP.format(moment=7).replace("lead 6", "lead 8")),
    ("merchant v.db shop1 --now 7 60 0 --lead=6", DONE, SHOP.format(moment=7)),
    ("merchant --now 7 v.db shop1 60 3600", DONE, SHOP.format(moment=7).replace("multi 0", "multi 3600")),
    (f"merchants --now 10 v.db {MERCHANTS}", "merchants set 1", LONGER.format(moment=10)),
)
# The same over a shop that was set at 5, where `till-1` may do nothing.
GIVEN = (
    ("grant v.db till-1 shop1 view --now 8", DONE, VIEW),
    ("grant --until 2000 --now 8 v.db till-1 shop1 view", DONE, f"{VIEW} until 2000"),
    ("grant v.db --now=8 till-1 shop1 view --until=7", DONE, f"{VIEW} until 7"),
    ("grant v.db --now=8 till-1 shop1 view", DONE, SHOP.format(moment=8)),
    ("withdraw --now 9 v.db till-1 shop1 view", DONE, SHOP.format(moment=9)),
    ("rights --now 10 v.db rights.toml", "granted 1", VIEW),
    ("rights v.db --exact rights.toml --now 10", "granted 1 withdrawn 0", VIEW),
    # the vault is no list
    ("rights --dry-run rights.toml --now=10 v.db", "refused 70", None),
    ("rights v.db rights.toml --dry-run --now=10", "grant till-1 shop1 view", SHOP.format(moment=5)),
    ("merchants v.db merchants.toml --dry-run", None, SHOP.format(moment=5)),
    ("sweep --now 12 v.db back shop1", "purged 0", SHOP.format(moment=5)),
    ("sweep v.db shop1 back --now=12", "purged 0", SHOP.format(moment=5)),
    ("list --json v.db", None, SHOP.format(moment=5)),
    ("list v.db", SHOP.format(moment=5), SHOP.format(moment=5)),
    ("check v.db", "sound 1 0 0", SHOP.format(moment=5)),
    ("migrate v.db", "schema 4", SHOP.format(moment=5)),
)
# Words that fix the moment 5 and digits that are all 2, and what is read and said then.
TOKEN = cases.answer("200 OK", '{"expires":65,"token":"2222222222221111"}').encode()
ROWS = b"request,number,use\n7,4111111111111111,single\n"
LINES = b"request,answer,detail\n7,2222222222221111,65\n"
DRAWING = (
    ("trial --now 5 --digits 2 till-1 shop1 60", cases.ASKED, TOKEN),
    ("trial till-1 --digits=2 shop1 60 --now=5", cases.ASKED, TOKEN),
    ("pipe --digits 2 --now 5 v.db", cases.ASKED, TOKEN),
    ("pipe v.db --now 5 --digits 2", cases.ASKED, TOKEN),
    ("batch --now 5 --digits 2 v.db till-1 shop1", ROWS, LINES),
    ("batch v.db --digits=2 till-1 shop1 --now=5", ROWS, LINES),
)
# Two groups of digits, of which the first makes the number itself, so that the second is drawn.
GROUPS = "pipe --now 1000 --digits 411111111111000000000000000000 v.db"


def told(program, words, given=b""):
    """What a run says, without its line's end."""
    return run(program, *words.split(), given=given).out.decode().removesuffix("\n")


def listed(program):
    """The lines of a list, in order."""
    return told(program, f"list {FILE}").splitlines()


def begun(program, is_set):
    """A folder of its own, with both lists, and a shop in the file where it is set."""
    folder = Path(f"options {len(os.listdir())}")
    folder.mkdir()
    os.chdir(folder)
    Path(LIST).write_text("[till-1]\nshop1 = ['view']\n# end\n")
    Path(MERCHANTS).write_text("[shop1]\nsingle = 90\nmulti = 0\n# end\n")
    if is_set:
        told(program, f"merchant --now 5 {FILE} shop1 60 0")


def judge(tally, program, words, said, line, is_set):
    """One run by words, in a folder of its own."""
    begun(program, is_set)
    found = told(program, words)
    if said is not None:
        tally.judge(f"{words}: said", unlike(found, said), "options")
    if line is not None:
        there = listed(program)
        tally.judge(f"{words}: listed", "" if line in there else f"{there}", "options")
    os.chdir("..")


def judge_drawing(tally, program):
    """Words that fix a moment and digits."""
    for words, given, answered in DRAWING:
        begun(program, True)
        told(program, f"grant --now 5 {FILE} till-1 shop1 tokenize")
        ran = run(program, *words.split(), given=given)
        tally.judge(f"{words}: drawn", unlike(ran.out, answered), "options")
        os.chdir("..")
    begun(program, True)
    told(program, f"grant --now 5 {FILE} till-1 shop1 tokenize")
    ran = run(program, *GROUPS.split(), given=cases.ASKED)
    tally.judge("digits repeat until there are 300", unlike(ran.out.decode(), cases.ANSWERED), "options")
    os.chdir("..")


def judge_names(tally, program):
    """A file's name with a space in it, and one that begins as an option does."""
    begun(program, True)
    os.mkdir("a folder")
    for name, words in (("a folder/v.db", ("a folder/v.db",)), ("--help", ("--", "--help"))):
        shutil.copy(FILE, name)
        shutil.copy(f"{FILE}-wal", f"{name}-wal")
        tally.judge(f"check {name}", unlike(run(program, "check", *words).out, b"sound 1 0 0\n"), "options")
    os.chdir("..")


# Words of a service that ends once so many connections were served.
SERVED = (
    "serve --port {port} --connections 3 v.db",
    "serve v.db --rights=rights.toml --connections=3 --port={port}",
    "serve --merchants merchants.toml v.db --rights rights.toml --connections 3 --port {port}",
    "serve --connections 1 v.db",
    "serve --connections=1 v.db --merchants=merchants.toml",
)


def judge_service(tally, program, line):
    """A service by these words: its port, how many connections it serves, whether it follows its lists."""
    begun(program, True)
    port = free_port()
    words = line.format(port=port).split()[1:]
    many = 3 if "3" in words or "--connections=3" in words else 1
    with must_serve(program, *words) as service:
        for _ in range(many):
            with service.connect() as peer:
                peer.sendall(messages.asked("GET", "/v1/merchants/shop1/audit"))
                peer.recv(100)
        status = service.ended().status
    tally.judge(f"{line}: ends", unlike(status, 0), "options")
    if "{port}" in line:
        tally.judge(f"{line}: its port", unlike(service.port, port), "options")
    there = listed(program)
    followed = (VIEW in there, any("single 90" in it for it in there))
    wanted = ("--rights" in line, "--merchants" in line)
    tally.judge(f"{line}: its lists", unlike(followed, wanted), "options")
    os.chdir("..")


def judged(tally, program):
    """All words."""
    for words, said, line in SET:
        judge(tally, program, words, said, line, False)
    for words, said, line in GIVEN:
        judge(tally, program, words, said, line, True)
    judge_drawing(tally, program)
    judge_names(tally, program)
    for line in SERVED:
        judge_service(tally, program, line)
