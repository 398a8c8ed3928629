"""The whole trial: python3 -m api PROGRAM REPOSITORY [front] [perl]"""

import contextlib
import json
import sqlite3
import sys

from api import refusals, shop
from api.asked import TOKENS, Request, by_a_back_office, by_a_till, order
from api.clients import Examples, clients, hurried
from api.description import Description, errors_of, refusals_of
from api.generated import Generated
from front import certificates
from front.raw import received
from front.services import REST, Front, two_vaults
from shared.runs import run
from shared.shop import BACK, TILL, made
from shared.tally import Tally, unlike


def examples_of(tally, description):
    """The description's examples by their schemas."""
    for name, content in description.contents():
        fault = description.fault(content["schema"], content["example"])
        tally.judge(f"the example of {name}", fault)


def answer_of(out):
    """The status and the body of the one answer in these bytes."""
    head, _, body = out.partition(b"\r\n\r\n")
    return int(head.split()[1]), json.loads(body)


def compared(tally, description, request, out):
    """One answer with what is said of it."""
    status, body = answer_of(out)
    name = f"{request.method} {request.target} {request.status}"
    fault = "" if status == request.status else f"answered {status} {body}"
    response = description.response(request.method, request.target, status)
    if not fault and response is None and status not in (405, 404):
        fault = "no such response is described"
    if not fault and response:
        fault = description.fault(response["content"]["application/json"]["schema"], body)
        number = body.get("refused")
        if not fault and number is not None and number not in response.get("x-refusals", ()):
            fault = f"{number} isn't among its refusals"
    tally.judge(name, fault)
    return status, body


def asked(program, *words, request):
    """What a pipe answers to one request."""
    return run(program, "pipe", *words, given=request.bytes).out


def answers(tally, program, description):
    """Each status of the service, with its body."""
    made(program, "a.db", 86400, 0, TILL | BACK)
    seen, token = set(), None
    for request in by_a_till():
        status, body = compared(tally, description, request, asked(program, "a.db", request=request))
        seen.add(status)
        token = token or body.get("token")
    for request in by_a_back_office(token):
        seen.add(compared(tally, description, request, asked(program, "a.db", request=request))[0])
    return seen


def rare(tally, program, description):
    """The statuses for which a vault has to be full, or its digits taken."""
    words = ("--digits", "0", "a.db")
    first = Request(200, "POST", TOKENS, request=10, body=order())
    taken = Request(503, "POST", TOKENS, request=11, body=order())
    token = compared(tally, description, first, asked(program, *words, request=first))[1]["token"]
    seen = {compared(tally, description, taken, asked(program, *words, request=taken))[0]}
    with sqlite3.connect("a.db") as store:
        store.execute("UPDATE counts SET total = 4611686018427387903 WHERE kind = 2")
    store.close()
    full = Request(507, "POST", f"{TOKENS}/{token}/number", caller="back")
    seen.add(compared(tally, description, full, asked(program, "a.db", request=full))[0])
    return seen


def by_a_service(tally, program, description):
    """Each status of the service, among those that are described."""
    seen = answers(tally, program, description) | rare(tally, program, description)
    all_of_it = {200} | {status for _, status in description.numbers("x-refusals")}
    tally.judge("each status came", "" if seen == all_of_it else f"{sorted(seen ^ all_of_it)}")


def by_the_pages(tally, description, docs):
    """Each number of the vault and of the front, among those of the pages."""
    said, listed = description.numbers("x-refusals"), refusals_of(f"{docs}/REFUSALS.md")
    tally.judge("the numbers are those of REFUSALS.md", "" if said == listed else f"{sorted(said ^ listed)}")
    said, listed = description.numbers("x-front") - refusals.OTHERS, errors_of(f"{docs}/API.md")
    tally.judge("the front's are those of API.md", "" if said == listed else f"{sorted(said ^ listed)}")


def at_a_port(tally, description, client, examples, port):
    """What comes through a front, what it answers itself, and the clients of examples/."""
    slow = refusals.slow(port)
    if client:
        shop.walked(tally, description, client, port)
    refusals.each(tally, description, port)
    clients(tally, examples, port)
    examples.vault.kill()
    refusals.away(tally, description, client, port)
    examples.vault.start()
    tally.judge("half a request has no answer", unlike(received(slow), b""))


def behind_a_front(tally, program, repository, description, client):
    """The same at a front as it is shipped, and a front that has too many requests."""
    configuration = f"{repository}/deploy/nginx.conf"
    certificates.make()
    certificates.untaken()
    with two_vaults(program) as vaults:
        vaults[0].give(REST)
        examples = Examples(tally, program, repository, vaults[0])
        with contextlib.closing(Front(configuration, *vaults)) as front:
            at_a_port(tally, description, client, examples, front.port)
        with contextlib.chdir(refusals.hurried(configuration)):
            with contextlib.closing(Front("shipped.conf", *vaults)) as front:
                refusals.too_many(tally, description, front.port)
                hurried(tally, examples, front.port)


def main(program, repository, *parts):
    tally = Tally()
    docs = f"{repository}/docs"
    description = Description(f"{docs}/openapi.yaml")
    examples_of(tally, description)
    by_a_service(tally, program, description)
    by_the_pages(tally, description, docs)
    with Generated(f"{docs}/openapi.yaml") if "perl" in parts else contextlib.nullcontext() as client:
        if client:
            tally.judge("a validator finds nothing", client.faults)
            client = None if client.faults else client
        if "front" in parts:
            behind_a_front(tally, program, repository, description, client)
    tally.end()


main(*sys.argv[1:])
