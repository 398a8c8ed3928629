"""What two scanners of TLS find at a front: sslscan its versions and ciphers, testssl its defaults and what it
may be attacked by. Each is left out, with a line that says so, if it isn't there."""

import json
import pathlib
import re
import shutil
import subprocess

from shared.tally import unlike

STRONG = re.compile(
    r"TLSv1\.3 +[0-9]+ bits +TLS_(AES_256_GCM_SHA384|CHACHA20_POLY1305_SHA256|AES_128_GCM_SHA256)\b"
    r"|TLSv1\.2 +[0-9]+ bits +ECDHE-(ECDSA|RSA)-(AES(128|256)-GCM-SHA(256|384)|CHACHA20-POLY1305)\b"
)
# its defaults, and what may be wrong beside what sslscan sees: CCS, Ticketbleed, renegotiation, and bodies that
# are compressed
ATTACKS = ("-S", "-I", "-T", "-R", "-B")
# the trial's authority is a file: it publishes no list of revoked certificates on the net, and no record of a
# domain names it
NOT_OF_A_FRONT = {"cert_revocation", "DNS_CAArecord"}
TRIES = 3


def is_there(program):
    """Whether a scanner is there."""
    found = shutil.which(program) is not None
    if not found:
        print(f"{program} isn't there and can't be installed: what it finds is left out", flush=True)
    return found


class Scan:
    """testssl beside other cases, since it takes a minute or two; `judge` waits for it."""

    def __init__(self, port):
        self.port, self.process = port, None
        if is_there("testssl"):
            self.begin()

    def begin(self):
        pathlib.Path("found.json").unlink(missing_ok=True)
        words = ("--quiet", "--color", "0", "--warnings", "off", "--ip", "127.0.0.1", "-n", "none", "--fast")
        words += ("--add-ca", "callers.pem", "--openssl-timeout", "60", "--severity", "LOW")
        self.process = subprocess.Popen(
            ["testssl", *words, "--jsonfile", "found.json", *ATTACKS, f"localhost:{self.port}"],
            stdout=subprocess.DEVNULL,
            stdin=subprocess.DEVNULL,
        )

    def judge(self, tally):
        """Nothing is found above `info`; and what sslscan says. A check that testssl gave up says WARN, as on a
        busy machine, and is made again."""
        self.scanned(tally)
        if self.process is None:
            return
        for turn in range(TRIES):
            if turn:
                self.begin()
            # a status above 200 is a fault of testssl's own
            ended = self.process.wait(600)
            told = self.told() if ended < 200 else []
            if not any("WARN" in it for it in told):
                break
        tally.judge("testssl comes to its end", "" if ended < 200 else f"status {ended}")
        if ended < 200:
            tally.judge("testssl finds nothing", unlike(told, []))

    @staticmethod
    def told():
        """What it found, in words."""
        with open("found.json") as file:
            found = [it for it in json.load(file) if it["id"] not in NOT_OF_A_FRONT]
        return [f"{it['id']} {it['severity']}: {it['finding']}" for it in found]

    def scanned(self, tally):
        """TLS 1.2 and 1.3 alone, and ciphers that keep secret what was said once a key is known."""
        if not is_there("sslscan"):
            return
        words = ["sslscan", "--no-colour", f"localhost:{self.port}"]
        lines = subprocess.run(words, capture_output=True, text=True, timeout=120).stdout.splitlines()
        enabled = [it.split()[0] for it in lines if re.match(r"(SSL|TLS)v[0-9.]+ +enabled", it)]
        tally.judge("TLS 1.2 and 1.3 alone", unlike(enabled, ["TLSv1.2", "TLSv1.3"]))
        ciphers = [it.partition(" ")[2].strip() for it in lines if re.match("(Preferred|Accepted) ", it)]
        tally.judge("sslscan sees ciphers", "" if len(ciphers) >= 6 else f"{ciphers}")
        weak = [it for it in ciphers if not STRONG.match(it)]
        tally.judge("each is a strong one", unlike(weak, []))
