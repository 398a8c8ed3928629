"""The whole trial: python3 -m office PROGRAM REPOSITORY [SCREENS]"""

import re
import sys

from front import certificates
from front.services import REST, two_vaults
from front.services import Front as Nginx
from haproxy.services import Front
from office import walk
from office.browser import Browser, prepare
from shared import lines
from shared.masked import MaskedTally
from shared.tally import unlike


def words(tally, repository):
    """The page has words for each number that comes over HTTP, and for no other."""
    script = open(f"{repository}/deploy/office/office.js").read()
    table = re.search(r"const REFUSED = \{\n(.*?)\n\};", script, re.S)[1]
    said = [int(it) for it in re.findall(r"(?m)^  ([0-9]+): \"", table)]
    page = open(f"{repository}/docs/REFUSALS.md").read()
    rows = re.findall(r"(?m)^\| ([0-9]+) \| [A-Za-z]+ \| .* \| ([0-9]{3}|-) \| [^|]* \|$", page)
    listed = [int(number) for number, status in rows if status != "-"]
    tally.judge("it has words for each refusal", unlike(sorted(said), sorted(listed)))
    for forbidden in ("innerHTML", "localStorage", "sessionStorage", "document.cookie", "eval("):
        tally.judge(f"it has no {forbidden}", f"{forbidden} is there" if forbidden in script else "")


def unknown_to(tokens):
    """A token that none of these is: it has another last digit and fails the card check."""
    return next(it for it in ("0000000000001112", "0000000000001113") if it not in tokens)


def behind_haproxy(tally, repository, home, vaults, screens):
    """The whole walk."""
    front = Front(repository, *vaults)
    try:
        tokens = walk.tokens(front.port, 3)
        with Browser(home) as browser:
            person = walk.Walk(tally, browser, front.port, screens)
            walk.opened(person)
            walk.edges(person)
            walk.looked_up(person, tokens[0])
            walk.number_shown(person)
            walk.counted(person)
            walk.ended(person, tokens[1])
            walk.refused(person, unknown_to(tokens))
            walk.several(person, [tokens[0], tokens[2]], unknown_to(tokens))
            walk.kept(person)
            walk.by_others(person, front.figures)
            walk.by_another_site(person)
            walk.away(person, vaults[0], tokens[0])
        walk.left_behind(tally, browser.profile, walk.NUMBER, walk.GROUPED, *tokens)
    finally:
        front.end()
    lines.judge(tally, "front.log")
    return tokens


def behind_nginx(tally, repository, home, vaults, token):
    """The page by the other front, in short."""
    front = Nginx(f"{repository}/deploy/nginx.conf", *vaults)
    try:
        with Browser(home) as browser:
            walk.told_away(walk.Walk(tally, browser, front.port), vaults[0], token)
    finally:
        front.end()


def main(program, repository, screens=""):
    tally = MaskedTally()
    words(tally, repository)
    certificates.make()
    with two_vaults(program) as vaults:
        vaults[0].give(REST)
        home = prepare("back")
        tokens = behind_haproxy(tally, repository, home, vaults, screens)
        behind_nginx(tally, repository, home, vaults, tokens[0])
    tally.end()


main(*sys.argv[1:])
