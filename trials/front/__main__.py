"""The whole trial: python3 -m front PROGRAM REPOSITORY"""

import contextlib
import json
import ssl
import subprocess
import sys

from front import both, certificates, ciphers, guards, held, limits
from front.clients import NUMBER, Client
from front.load import MESSAGES, Load
from front.services import Front, two_vaults
from shared.runs import run
from shared.tally import Tally, unlike


def strangers(tally, port):
    """Who has no certificate of the authority, or none with a name, or says another name."""
    try:
        status = Client(port).token("shop1", 1).status
    except (ssl.SSLError, OSError):
        status = 400
    tally.judge("without a certificate no answer of the vault", unlike(status, 400))
    nameless = Client(port, "nobody").token("shop1", 1)
    tally.judge("a certificate without a caller's name", unlike(nameless.status, 403))
    guest = Client(port, "guest")
    for name in ("X-Vault-Caller", "x-vault-caller", "X_Vault_Caller"):
        answer = guest.ask(
            "POST",
            "/v1/merchants/shop1/tokens",
            json.dumps({"number": NUMBER, "use": "single"}),
            **{"X-Vault-Request": "100002", name: "till-1"},
        )
        tally.judge(f"{name} of the client is dropped", unlike(answer.json(), {"refused": 8}))


def refused_by_the_front(tally, port):
    """What never reaches the vault."""
    till = Client(port, "till-1")
    large = till.ask("POST", "/v1/merchants/shop1/tokens", "x" * 5120, **{"X-Vault-Request": "1"})
    tally.judge("a body of 5 KiB", unlike(large.status, 413))
    for target in ("/x", "/v2/merchants/shop1/audit", "/status"):
        tally.judge(f"{target} is refused", unlike(Client(port, "till-1").ask("GET", target).status, 404))


def by_merchant(tally, port, program, vaults):
    """Two vaults: each has the tokens of its own merchant alone."""
    both.by_merchant(tally, port)
    for vault in vaults:
        vault.kill()
    sound = [run(program, "check", vault.file).out for vault in vaults]
    tally.judge("the other vault has it alone", unlike(sound[1], b"sound 1 1 1\n"))
    # the first token, that of the body in chunks, the load's, and one each of the till and of the batch
    wanted = f"sound 1 {MESSAGES + 4} {MESSAGES + 4}\n".encode()
    tally.judge("the first vault has the others", unlike(sound[0], wanted))


def under_load(tally, port, vault):
    """32 clients, 2,000 messages, and a vault that is killed among them."""
    load = Load(port)
    load.run(vault, 3)
    both.loaded(tally, port, load)
    tally.judge("and by 503 else", unlike(set(load.statuses) - {200, 503}, set()))
    print(f"{load.statuses.count(503)} requests were answered 503 while the vault was away")


def away(tally, port, vault):
    """What a client is told while the vault is away."""
    vault.kill()
    answer = Client(port, "till-1").token("shop1", 100003)
    kind, after = answer.fields.get("Content-Type"), answer.fields.get("Retry-After")
    told = answer.status, kind, after, answer.json()
    wanted = 503, "application/json", "1", {"away": True}
    tally.judge("503 with a JSON body while it is away", unlike(told, wanted))
    typed = Client(port, "back").ask("GET", f"/v1/merchants/shop1/tokens/{NUMBER}").status
    tally.judge("also to a number in place of a token", unlike(typed, 503))
    vault.start()


def example(repository, name, port, *words, given=""):
    """What a client of examples/ prints."""
    path = f"{repository}/examples/clients/{name}.py"
    caller = "till-1" if name == "till" else "back"
    keys = ("--certificate", f"{caller}.pem", "--key", f"{caller}.key", "--authority", "callers.pem")
    words = [sys.executable, path, *words, *keys]
    return subprocess.run(words, input=given, capture_output=True, text=True, timeout=60).stdout


def examples(tally, port, program, repository, vault):
    """The till and the back office of examples/, as their first lines say."""
    url = f"https://localhost:{port}"
    told = example(repository, "till", port, url, "shop1", given=f"{NUMBER}\n4111111111111112\n").splitlines()
    tally.judge("the till has a token", "" if told[0].split()[0].endswith("1111") else told[0])
    tally.judge("and a refusal", unlike(told[1], "refused 2"))
    with open("rows.csv", "w") as rows:
        rows.write(f"request,number,use\n200001,{NUMBER},single\n200002,{NUMBER},often\n")
    words = (url, vault.file, "shop1", "rows.csv", "--program", program)
    vault.kill()
    told = example(repository, "back_office", port, "--step", "batch", *words).splitlines()
    tally.judge("the batch has a line for each row", unlike(len(told), 2))
    tally.judge("and a refusal", unlike(told[1], "200002 refused 19"))
    swept = example(repository, "back_office", port, "--step", "sweep", *words)
    tally.judge("nothing is dead", unlike(swept, "purged 0\n"))
    vault.start()
    token = told[0].split()[1]
    back = example(repository, "back_office", port, "--step", "number", *words, "--token", token)
    tally.judge("the number is brought back", unlike(back, "a number of 16 digits\n"))


def guarded(tally, front):
    """What the front lets through, and what it doesn't."""
    port = front.port
    scan = ciphers.Scan(port)
    token = both.one_token(tally, port)
    strangers(tally, port)
    refused_by_the_front(tally, port)
    both.forgeries(tally, front, token)
    guards.bodies(tally, port)
    guards.numbers(tally, port, token)
    scan.judge(tally)


def limited(tally, program, configuration):
    """What a caller is stopped at; a clerk has four card numbers of a day here."""
    vault = limits.shop(program)
    fewer = ("zone=day burst=1000", "zone=day burst=3")
    with contextlib.closing(Front(configuration, vault, vault, (fewer,))) as front:
        token = limits.judge(tally, front.port, vault, limits.Kind(100, "60"))
        limits.by_day(tally, front.port, limits.SHOP, token, "60")
    vault.kill()


def main(program, repository):
    tally = Tally()
    certificates.make()
    with two_vaults(program) as vaults:
        first, second = vaults
        with contextlib.closing(Front(f"{repository}/deploy/nginx.conf", first, second)) as front:
            guarded(tally, front)
            guards.health(tally, front, first)
            guards.flooded(tally, front)
            held.judge(tally, front.port, second, (front.health,))
            away(tally, front.port, first)
            under_load(tally, front.port, first)
            examples(tally, front.port, program, repository, first)
            guards.page(tally, front.port)
            guards.logged(tally, "vault-error.log")
            by_merchant(tally, front.port, program, vaults)
    limited(tally, program, f"{repository}/deploy/nginx.conf")
    tally.end()


main(*sys.argv[1:])
