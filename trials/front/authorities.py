"""What deploy/certificates.sh does for an authority beyond its certificates: a request of a till's own, one of
several taken back, a pass phrase, and lists of two authorities."""

import os
import re
import subprocess

from front import certificates
from front.clients import Client
from shared.tally import unlike

AUDIT = "/v1/merchants/shop1/audit"


def listed(folder):
    """The lines of what an authority signed: end, serial number, state, subject."""
    return [line.split() for line in certificates.by_script("list", folder).splitlines()]


def judge(tally, port, front):
    """An authority with a pass phrase that follows the first one."""
    with open("phrase", "w") as file:
        file.write("a pass phrase of many words\n")
    os.environ["PHRASE"] = "phrase"
    try:
        certificates.by_script("authority", "next")
        certificates.by_script("caller", "next", "back")
        key = open("next/authority.key").read()
        tally.judge("its key has a pass phrase", "" if "ENCRYPTED" in key else key[:40])
        signed(tally)
        one_of_several(tally)
    finally:
        del os.environ["PHRASE"]
    ran = subprocess.run(
        ["setsid", "sh", certificates.SCRIPT, "caller", "next", "till-7"],
        capture_output=True,
        stdin=subprocess.DEVNULL,
    )
    tally.judge("nobody signs without it", unlike(ran.returncode != 0, True))
    renewed(tally, port, front)


def signed(tally):
    """A till makes its key and a request itself; what the request says of its subject doesn't count."""
    certificates.openssl(
        *("req", *certificates.CURVE, "-keyout", "own.key", "-out", "own.csr", "-subj", "/CN=back/O=x")
    )
    certificates.by_script("sign", "next", "till-5", "own.csr")
    told = subprocess.run(
        ["openssl", "x509", "-noout", "-subject", "-in", "next/till-5.pem"], capture_output=True, text=True
    ).stdout
    tally.judge("a till's own request is signed for its name", unlike(told, "subject=CN = till-5\n"))
    tally.judge("and its key was never there", unlike(os.path.exists("next/till-5.key"), False))
    broken = open("own.csr").read().replace("A", "B", 3)
    with open("broken.csr", "w") as file:
        file.write(broken)
    words = ["sh", certificates.SCRIPT, "sign", "next", "till-5", "broken.csr"]
    ran = subprocess.run(words, capture_output=True, text=True)
    tally.judge(
        "a request that its key didn't sign isn't",
        unlike((ran.returncode, "no request" in ran.stderr), (1, True)),
    )


def one_of_several(tally):
    """A renewed till has two certificates, of which the older is taken back alone."""
    for _ in range(2):
        certificates.by_script("caller", "next", "till-6")
        os.rename("next/till-6.key", "next/carried.key")
    serials = [serial for _, serial, _, subject in listed("next") if subject == "/CN=till-6"]
    told = certificates.by_script("revoke", "next", "till-6", serials[0])
    tally.judge("one of two is taken back", unlike(told, "revoked 1\n"))
    found = {serial: state for _, serial, state, subject in listed("next") if subject == "/CN=till-6"}
    tally.judge("and the other isn't", unlike(found, {serials[0]: "revoked", serials[1]: "valid"}))
    days = all(re.fullmatch(r"20[0-9]{2}-[0-9]{2}-[0-9]{2}", line[0]) for line in listed("next"))
    tally.judge("each end is listed", unlike(days, True))


def renewed(tally, port, front):
    """Two authorities while one follows the other, and a till of the first is stolen; then the new one."""
    os.makedirs("place", exist_ok=True)
    with open("place/callers.pem", "w") as both:
        both.writelines(open(path).read() for path in ("callers.pem", "next/callers.pem"))
    for folder in (".", "next"):
        certificates.by_script("publish", folder, "place")
    front.take(callers="place/callers.pem", revoked="place/revoked.pem")
    for name in ("back", "next/back"):
        tally.judge(f"{name} beside two authorities", unlike(asked(port, name).status, 200))
    certificates.by_script("caller", ".", "till-8")
    certificates.by_script("revoke", ".", "till-8")
    certificates.by_script("publish", ".", "place")
    front.take(revoked="place/revoked.pem")
    tally.judge("a stolen till is turned away then", unlike(asked(port, "till-8").json(), {"front": 495}))
    for name in ("back", "next/back"):
        tally.judge(f"{name} isn't, of either authority", unlike(asked(port, name).status, 200))
    with open("next/callers.pem") as file, open("place/callers.pem", "w") as one:
        one.write(file.read())
    certificates.by_script("publish", "next", "place")
    left = [it for it in os.listdir("place") if it.endswith(".index")]
    lists = open("place/revoked.pem").read().count("BEGIN")
    tally.judge("nothing of the old one is left", unlike((len(left), lists), (1, 1)))
    front.take(callers="place/callers.pem", revoked="place/revoked.pem")
    old = asked(port, "back").json()
    tally.judge("the old authority's caller is turned away", unlike(old, {"front": 495}))
    tally.judge("the new one's isn't", unlike(asked(port, "next/back").status, 200))
    front.take(callers="callers.pem", revoked="revoked.pem")


def asked(port, name):
    """What the front answers who asks for the back office's counts with this certificate."""
    return Client(port, name).ask("GET", AUDIT)
