"""HAProxy by the file that an installation starts from, with this machine's ports and folders."""

import os
import re
import shutil
import signal
import subprocess
import urllib.request

from front.services import CLASSES, Reloaded
from shared.ports import free_port, has_ipv6, takes_connections
from shared.runs import until

# the log is a file here, and a socket of syslog where it is installed
TO_FILE = tuple((f"log {it} local0", "log stdout format raw local0") for it in ("/dev/log", "/vault/log"))
# an address of a shop's
SHOP = "127.0.0.3"
FILES = ("server.pem", "server.key", "callers.pem", "revoked.pem")


def changed(text, *pairs):
    """A text with one thing in place of another, each of which has to be there."""
    for old, new in pairs:
        found = re.search(old, text) if isinstance(old, re.Pattern) else old in text
        if not found:
            raise SystemExit(f"the file hasn't {old}\n0 passed, 1 failed")
        text = re.sub(old, new, text) if isinstance(old, re.Pattern) else text.replace(old, new)
    return text


def route(merchant, backend):
    """The line of the file by which a merchant has a vault."""
    return f"use_backend {backend} if {{ path -m beg /v1/merchants/{merchant}/ }}"


def classes():
    """The pairs by which the file says what callers are: its own example has one caller of each class."""
    for name, callers in CLASSES.items():
        line = rf"(http-request .*str\({name}\) if {{ var\(txn.caller\) -m str) .* }}"
        yield re.compile(rf"(?m)^    # {line}$"), rf"    \1 {' '.join(callers)} }}"


def routes(vaults):
    """The lines for vaults, each of which has the name of its merchant."""
    return "\n".join(f"    {route(it.merchant, it.merchant)}" for it in vaults)


def backends(vaults):
    """What they are."""
    parts = (f"backend {it.merchant}\n    server vault 127.0.0.1:{it.port} maxconn 64\n" for it in vaults)
    return "\n".join(parts)


class Front(Reloaded):
    """The master and its worker; what they log stands in front.log, and their alarms in haproxy.err."""

    again = "USR2"

    def __init__(self, repository, vault, *others, pairs=(), log="front.log"):
        self.port, self.figures, self.health = free_port(), free_port(), free_port()
        by_ipv6 = f",[::1]:{self.port}" if has_ipv6() else ""
        self.log = log
        self.folder = folder = os.getcwd()
        os.makedirs("front-files", exist_ok=True)
        os.makedirs("nowhere", exist_ok=True)
        for name in FILES:
            shutil.copy(name, "front-files")
        shutil.copy("server.key", "front-files/server.pem.key")
        text = changed(
            open(f"{repository}/deploy/haproxy.cfg").read(),
            ("/etc/vault/", f"{folder}/front-files/"),
            ("/usr/share/vault/office", f"{os.path.abspath(repository)}/deploy/office"),
            ("chroot /var/lib/haproxy", f"chroot {folder}/nowhere"),
            *(TO_FILE if log == "front.log" else ()),
            ("bind :8443,[::]:8443", f"bind 127.0.0.1:{self.port}{by_ipv6}"),
            ("127.0.0.1:8404", f"127.0.0.1:{self.health}"),
            ("127.0.0.1:8405", f"127.0.0.1:{self.figures}"),
            ("127.0.0.1:8087", f"127.0.0.1:{vault.port}"),
            (f"    # {route('shop2', 'north')}", routes(others)),
            ("backend north\n    server north 127.0.0.1:8088 maxconn 64\n", backends(others)),
            ("acl shops src 192.0.2.0/24", f"acl shops src {SHOP}"),
            *classes(),
            *pairs,
        )
        if os.getuid():
            text = re.sub(r"(?m)^    (?:user|group|chroot) .*\n", "", text)
        with open("haproxy.cfg", "w") as file:
            file.write(text)
        self.start()

    def start(self):
        """Starts it as its unit does, with a master that can load its files anew."""
        words = ["haproxy", "-W", "-db", "-f", "haproxy.cfg"]
        with open(self.log, "ab") as log, open("haproxy.err", "ab") as errors:
            self.process = subprocess.Popen(words, stdout=log, stderr=errors)
        if not until(lambda: takes_connections(self.port) and self.workers(), 5):
            self.end()
            raise SystemExit(f"the front didn't start: {open('haproxy.err').read()}\n0 passed, 1 failed")

    def numbers(self):
        """What its exporter says."""
        with urllib.request.urlopen(f"http://127.0.0.1:{self.figures}/metrics", timeout=10) as answer:
            return answer.read().decode()

    def end(self):
        self.process.terminate()
        try:
            self.process.wait(5)
        except subprocess.TimeoutExpired:
            for worker in self.workers():
                os.kill(int(worker), signal.SIGKILL)
            self.process.kill()
            self.process.wait()
