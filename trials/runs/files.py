"""The program on files."""

import socket
from pathlib import Path

from runs.cases import ANSWERED, ASKED, HAS_LOG, NO_DATABASE, NOT_OPENED, SHOP, Case, answer, begun, fault_of, tried
from shared.tally import unlike

# A repeat answers the first token of a shop.
REPEATED = (
    ("vault pipe --now 1000 --digits 0 FILE", ASKED, 0, ANSWERED, ""),
    ("vault pipe --now 1050 --digits 7 FILE", ASKED, 0, ANSWERED, ""),
    ("vault check FILE", "", 0, "sound 1 1 1\n", HAS_LOG),
)
# A right is given and withdrawn.
RIGHT = """\
vault merchant FILE shop1 60 0
vault grant FILE till-1 shop1 tokenize
vault withdraw FILE till-1 shop1 tokenize"""
# The answer to a caller who hasn't the right.
NO_RIGHT = answer("403 Forbidden", '{"refused":8}')
# A question for the counts by `back`, and those of a merchant without tokens.
COUNTS = "GET /v1/merchants/shop1/audit HTTP/1.1\r\nX-Vault-Caller: back\r\n\r\n"
NO_COUNTS = answer("200 OK", '{"denied":0,"given":0,"made":0}')
# A right is given up to an end.
GIVEN = """\
vault merchant --now 1000 FILE shop1 60 0
vault grant --now 1000 --until 2000 FILE back shop1 audit"""
# It lasts up to its end, and is given for good then.
ENDING = (
    ("vault pipe --now 1999 --digits 0 FILE", COUNTS, 0, NO_COUNTS, ""),
    ("vault pipe --now 2000 --digits 0 FILE", COUNTS, 0, NO_RIGHT, ""),
    ("vault grant --now 2000 FILE back shop1 audit", "", 0, "done\n", ""),
    ("vault pipe --now 2000 --digits 0 FILE", COUNTS, 0, NO_COUNTS, ""),
)
# A question for what the worked message's token stands for.
VIEW = "GET /v1/merchants/shop1/tokens/0000000000001111 HTTP/1.1\r\nX-Vault-Caller: till-1\r\n\r\n"
# Its answer with eight digits at the left, and with six.
EIGHT = answer(
    "200 OK",
    '{"birth":1000,"expires":1060,"masked":"41111111****1111","state":"live","use":"single"}',
)
SIX = answer(
    "200 OK",
    '{"birth":1000,"expires":1060,"masked":"411111******1111","state":"live","use":"single"}',
)
# A shop with a lead of eight digits.
LEADING = """\
vault merchant --now 1000 --lead 8 FILE shop1 60 0
vault grant --now 1000 FILE till-1 shop1 tokenize
vault grant --now 1000 FILE till-1 shop1 view"""
# A token is shown with the lead that its merchant has at the time.
LEADS = (
    ("vault pipe --now 1000 --digits 0 FILE", ASKED, 0, ANSWERED, ""),
    ("vault pipe --now 1000 --digits 0 FILE", VIEW, 0, EIGHT, ""),
    ("vault merchant --now 1000 FILE shop1 60 0", "", 0, "done\n", ""),
    ("vault pipe --now 1000 --digits 0 FILE", VIEW, 0, SIX, ""),
    ("vault check FILE", "", 0, "sound 1 1 1\n", HAS_LOG),
)
# What is done over the file of each case, with the lines before it that say `done`.
DONE = (
    ("a shop is set up and a repeat answers its first token", "files/shop", SHOP, REPEATED),
    (
        "a right that is withdrawn is refused",
        "files/right",
        RIGHT,
        (("vault pipe FILE", ASKED, 0, NO_RIGHT, ""),),
    ),
    ("a right lasts up to its end", "files/ending", GIVEN, ENDING),
    ("a token is shown with its merchant's lead", "files/leads", LEADING, LEADS),
)
# A file is made in the newest schema, and stays in it.
MIGRATED = """\
vault migrate FILE = schema 4 ! vault: there was no vault in FILE, and an empty one is made
vault migrate FILE = schema 4"""
# It is an empty vault.
EMPTY = ("vault check FILE", "", 0, "sound 0 0 0\n", HAS_LOG)
# A right that isn't there is withdrawn, which is said; one that is there is withdrawn once.
WITHDRAWN = """\
vault merchant FILE shop1 60 0 = done
vault grant FILE till-1 shop1 view = done
vault withdraw FILE till-2 shop1 view = done ! vault: there was nothing to withdraw
vault withdraw FILE till-1 shop1 audit = done ! vault: there was nothing to withdraw
vault withdraw FILE till-1 shop1 view = done
vault withdraw FILE till-1 shop1 view = done ! vault: there was nothing to withdraw"""
# Names and rights that are refused before the file.
MISNAMED = """\
vault grant FILE Till shop1 view = refused 4 ! vault: CALLER is no name
vault grant FILE till Shop1 view = refused 4 ! vault: MERCHANT is no name
vault grant FILE till shop1 veiw = refused 71 ! vault: RIGHT is no right
vault grant FILE till Shop1 veiw = refused 4 ! vault: MERCHANT is no name
vault withdraw FILE till  view = refused 4 ! vault: MERCHANT is no name
vault merchant FILE Shop1 60 0 = refused 4 ! vault: NAME is no name"""
# A merchant that isn't known.
UNKNOWN = "vault withdraw FILE till shop1 view = refused 7"
# A text that is no database, and runs on files that are no vault.
TEXT = "this is no database, and long enough to be told from one"
OTHER = (
    "vault check files/other",
    "vault pipe files/other",
    "vault check files/other/text",
    "vault pipe files/other/text",
    "vault check :memory:",
    "vault pipe :memory:",
    "vault check files/none/vault.db",
    "vault pipe files/none/vault.db",
)
# A line for each status but 4.
STATUSES = (
    ("vault merchant --now 1000 FILE shop1 60 0", "", 0, "done\n", ""),
    ("vault grant FILE till-1 shop2 view", "", 1, "refused 7\n", ""),
    (
        "vault serve --connections 0 FILE",
        "",
        2,
        "",
        "vault: bad words\nCONNECTIONS: 0 isn't a number of one to a million\n",
    ),
    ("vault check files/statuses", "", 3, "", NOT_OPENED),
)
# The file afterwards.
STATUSES_SOUND = ("vault check FILE", "", 0, "sound 1 0 0\n", HAS_LOG)
# The rights of a trial that a shop hasn't given.
RIGHTS = """\
vault grant --now 1000 FILE till-1 shop1 detokenize
vault grant --now 1000 FILE till-1 shop1 view
vault grant --now 1000 FILE till-1 shop1 revoke
vault grant --now 1000 FILE till-1 shop1 purge
vault grant --now 1000 FILE till-1 shop1 audit"""
# A message whose number has a wrong check digit.
WRONG = (
    "POST /v1/merchants/shop1/tokens HTTP/1.1\r\nHost: vault\r\n"
    "X-Vault-Caller: till-1\r\nX-Vault-Request: 7\r\nContent-Length: 44\r\n\r\n"
    '{"number":"4111111111111112","use":"single"}'
)
# A message of each other kind, and one by another caller.
REST = (
    "GET /v1/merchants/shop1/tokens/0000000000001111 HTTP/1.1\r\nX-Vault-Caller: till-1\r\n\r\n"
    "POST /v1/merchants/shop1/tokens/0000000000001111/number HTTP/1.1\r\nX-Vault-Caller: till-1\r\n\r\n"
    "POST /v1/merchants/shop1/tokens/0000000000001111/revoke HTTP/1.1\r\nX-Vault-Caller: till-1\r\n\r\n"
    "POST /v1/merchants/shop1/tokens/0000000000001111/number HTTP/1.1\r\nX-Vault-Caller: till-1\r\n\r\n"
    "GET /v1/merchants/shop1/audit HTTP/1.1\r\nX-Vault-Caller: till-1\r\n\r\n"
    "GET /v1/merchants/shop1/audit HTTP/1.1\r\nX-Vault-Caller: guest\r\n\r\n"
)


def judge_new(tally, program):
    """A file that isn't there, and one without a byte."""
    case = begun(tally, program, "a new file has the newest schema", "files/migrated")
    case.said(MIGRATED)
    case.ends(EMPTY)
    case = begun(tally, program, "a file without a byte is made and that is said", "files/blank")
    Path(case.file).touch()
    case.said(MIGRATED)
    case.ends(EMPTY)


def judge_names(tally, program):
    """Names, rights and merchants that are none."""
    name = "a right that is not there is withdrawn and that is said"
    begun(tally, program, name, "files/withdrawn").said(WITHDRAWN)
    name = "names, rights and merchants are refused by number"
    case = begun(tally, program, name, "files/misnamed")
    for line in MISNAMED.splitlines():
        case.said(line)
        case.makes_nothing()
    case.said(UNKNOWN)


def judge_other(tally, program):
    """Files that are no vault."""
    Path("files/other").mkdir(parents=True)
    Path("files/other/text").write_text(TEXT)
    case = Case(tally, program, "a file that is no vault is not opened")
    case.ends(*((line, "", 3, "", NO_DATABASE if "text" in line else NOT_OPENED) for line in OTHER))


def judge_statuses(tally, program):
    """Each status; the program ends with 4 where it is to serve on a port that is taken."""
    case = begun(tally, program, "each status goes with its line", "files/statuses")
    case.ends(*STATUSES)
    with socket.create_server(("127.0.0.1", 0)) as taken:
        line = f"vault serve --connections 1 --port {taken.getsockname()[1]} FILE"
        fault = fault_of(case.run(line), 4, "", "vault: stopped 80\n")
        case.judge("a service on a port that is taken", fault)
    case.ends(STATUSES_SOUND)


def judge_alike(tally, program):
    """`trial` and `pipe` answer the same messages by the same bytes, the last one by 403. They say nothing
    on the errors."""
    case = begun(tally, program, "a trial and a pipe answer the same messages alike", "files/alike")
    case.done(SHOP)
    case.done(RIGHTS)
    given = ASKED * 2 + (WRONG + REST).encode()
    tried_so = tried(program, "0", given)
    piped = case.run("vault pipe --now 1000 --digits 0 FILE", given)
    for name, ran in (("trial", tried_so), ("pipe", piped)):
        fault = ran.broke or unlike((ran.status, ran.err), (0, b""))
        case.judge(f"{name} is calm and silent", fault)
    case.judge("the same bytes", fault_of(piped, *tried_so))
    last = piped.out[-len(NO_RIGHT) :]
    case.judge("the last one is a 403", unlike(last, NO_RIGHT.encode()))


def judged(tally, program):
    """Each case has a folder of its own."""
    for name, folder, lines, rows in DONE:
        case = begun(tally, program, name, folder)
        case.done(lines)
        case.ends(*rows)
    for judge in (judge_new, judge_names, judge_other, judge_statuses, judge_alike):
        judge(tally, program)
