"""Lines that somebody forged: none comes into the front's logs, and none is carried out after a restore."""

import http.server
import os
import pty
import subprocess
import threading
import time

from shared import lines
from shared.tally import unlike

COPY = "/somewhere/vault-20261101T000000Z.db"
SOUND = '{{"time":"{}","caller":"{}","merchant":"shop1","token":"{}","asked":"{}","status":200}}'
TOKEN = "1000000000001111"
TIME = "2026-11-02T10:00:00Z"
# Lines that no front writes.
FORGED = (
    SOUND.format(TIME, "back", "[1000000000001111-1000000000003111]/revoke#", "purge"),
    SOUND.format(TIME, "back", "{1000000000001111,1000000000003111}", "purge"),
    SOUND.format("foo", "back", TOKEN, "purge"),
    SOUND.format("2026-02-30T10:00:00Z", "back", TOKEN, "purge"),
    SOUND.format(f"{TIME}' -d 'now", "back", TOKEN, "purge"),
    SOUND.format(TIME, "back\\r\\nX-Vault-Caller: other", TOKEN, "purge"),
    SOUND.format(TIME, "\x1b]0;pwn\x07back", TOKEN, "purge"),
    SOUND.format(TIME, "somebody-with-a-long-name", TOKEN, "purge"),
    SOUND.format(TIME, "back", f"{TOKEN}/../../shop2", "purge"),
    SOUND.format(TIME, "back", TOKEN, "detokenize"),
    SOUND.format(TIME, "back", TOKEN, "purge") + " ",
    "\0\0\0",
    "x" * 3000000,
    "",
)


class Vault(http.server.ThreadingHTTPServer):
    """What stands at a vault's port; it notes what it is asked, and answers what it likes."""

    def __init__(self):
        self.asked, self.status, self.body = [], 200, b'{"revoked":true}'
        super().__init__(("127.0.0.1", 0), Answer)
        threading.Thread(target=self.serve_forever, daemon=True).start()


class Answer(http.server.BaseHTTPRequestHandler):
    def do_POST(self):
        vault, path = self.server, self.path.removeprefix("/v1/merchants/")
        vault.asked.append((self.headers["X-Vault-Caller"], self.command, path))
        self.send_response(vault.status)
        self.end_headers()
        self.wfile.write(vault.body)

    do_DELETE = do_POST

    def log_message(self, *_):
        pass


def again(repository, vault, *words, typed=None):
    """Runs again.sh, with a terminal if something is typed there: its status, and what it says."""
    words = [*words, "--port", str(vault.server_port), COPY, "forged.log"]
    ours, theirs = pty.openpty() if typed else (None, subprocess.DEVNULL)
    if typed:
        os.write(ours, f"{typed}\n".encode())
    vault.asked.clear()
    how = {"stdin": theirs, "stdout": subprocess.PIPE, "stderr": subprocess.STDOUT}
    ran = subprocess.run(["sh", f"{repository}/deploy/again.sh", *words], **how)
    if typed:
        os.close(ours)
        os.close(theirs)
    return ran.returncode, ran.stdout.decode(errors="replace")


def carried_out(tally, repository):
    """What is carried out of a log with forged lines, and after which word."""
    done = [("back", "POST", f"shop1/tokens/{TOKEN}/revoke"), ("back", "DELETE", f"shop1/tokens/{TOKEN}")]
    sound = [SOUND.format(TIME, "back", TOKEN, it) for it in ("revoke", "purge")]
    with open("forged.log", "w") as file:
        file.write("\n".join((*FORGED[:5], *sound, *FORGED[5:])) + "\n")
    vault = Vault()
    says = "back at shop1: revoke 1 purge 1\n"
    for name, words, typed, ended, wanted in (
        ("without a terminal nothing is done", (), None, 2, []),
        ("nor is it after a no", (), "no", 2, []),
        ("after a yes all is done that a front wrote", (), "yes", 1, done),
        ("with --yes as well, and no forged line", ("--yes",), None, 1, done),
    ):
        status, told = again(repository, vault, *words, typed=typed)
        tally.judge(f"again.sh: {name}", unlike((status, vault.asked), (ended, wanted)))
        tally.judge(f"again.sh: it says what first, {name}", "" if says in told else told[-300:])
    is_counted = f"refused {len(FORGED)}\n" in told
    tally.judge("again.sh: forged lines are counted", "" if is_counted else told[-300:])
    vault.status, vault.body = 500, b"\x1b]0;pwn\x07 no" + b"x" * 1000000
    told = again(repository, vault, "--yes")[1]
    signs = [it for it in told if not (" " <= it <= "~" or it == "\n")]
    tally.judge("again.sh: no sign that can't be printed", unlike((signs, len(told) < 3000), ([], True)))
    vault.shutdown()
    vault.server_close()


def by_logger(tally):
    """An account without rights writes to each socket of rsyslog, as HAProxy would."""
    line = SOUND.format(TIME, "director", "****1111", "detokenize")
    line += "|" + SOUND.format(TIME, "back", "****1111", "purge")  # other logs have no ten digits either
    os.chmod(".", 0o755)
    before = [lines.read(it) for it in ("front.log", "taken.log")]
    nobody = ["setpriv", "--reuid=65534", "--regid=65534", "--clear-groups"]
    nobody += ["logger", "--socket-errors=on", "-t", "haproxy", "-p", "local0.info"]
    sent = [
        subprocess.run([*nobody, "-u", f"nowhere/{it}/log", line], capture_output=True, text=True).stderr
        for it in ("dev", "vault")
    ]
    tally.judge("the front's socket is closed to others", "" if "Permission denied" in sent[1] else f"{sent}")
    time.sleep(1)
    after = [lines.read(it) for it in ("front.log", "taken.log")]
    tally.judge("no forged line comes into the logs", unlike(after, before))
    tally.judge("it came to rsyslog", "" if "director" in open("others.log").read() else "it didn't")
