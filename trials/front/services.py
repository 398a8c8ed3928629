"""The two vaults and the front before them."""

import contextlib
import os
import shutil
import subprocess

from shared import shop
from shared.ports import free_port, has_ipv6, takes_connections
from shared.runs import until
from shared.service import must_serve

# What a back office may do elsewhere, and not at these vaults.
REST = {"back": ("view", "revoke", "purge")}
# What callers are that aren't tills: those that send thousands of messages in a trial are batches.
CLASSES = {
    "office": ("back",),
    "batch": ("batch-1", *(f"till-{place}" for place in range(1, 9))),
    "settlement": ("settle",),
}
RELOAD = f"{os.path.dirname(os.path.abspath(__file__))}/../../deploy/reload"


class Vault:
    """A vault with one merchant, served on a port of its own; it can be killed and started again."""

    def __init__(self, program, merchant, till):
        self.program, self.merchant, self.file, self.port = program, merchant, f"{merchant}.db", free_port()
        self.listed = []
        rights = {till: ("tokenize",), "back": ("detokenize", "audit")}
        shop.made(program, self.file, 86400, 0, rights, merchant)
        self.start()

    def give(self, rights):
        """Gives callers rights while it is away."""
        self.kill()
        shop.granted(self.program, self.file, rights, self.merchant)
        self.start()

    def start(self):
        """Starts it as the unit does: without a number of connections."""
        self.service = must_serve(self.program, "--port", self.port, *self.listed, self.file)

    def stop(self):
        self.service.stop()

    def kill(self):
        self.service.kill()

    @property
    def process(self):
        return self.service.process

    def list(self, rights):
        """From its next start on its rights are those of a rights file with this text, and no others."""
        path = f"{self.merchant}.toml"
        with open(path, "w") as file:
            file.write(rights)
        self.listed = ["--rights", path]


@contextlib.contextmanager
def two_vaults(program):
    """A vault for each of two shops; both are over at the end of a `with`."""
    vaults = Vault(program, "shop1", "till-1"), Vault(program, "shop2", "till-2")
    try:
        yield vaults
    finally:
        for vault in vaults:
            vault.kill()


class Reloaded:
    """A front whose process has others that answer; by a signal it takes its files anew, with new ones."""

    again = "HUP"

    def workers(self):
        """The processes that answer just now."""
        with open(f"/proc/{self.process.pid}/task/{self.process.pid}/children") as file:
            return set(file.read().split())

    def take(self, **files):
        """Gives it other files, as `take(revoked="revoked.pem")`, and reloads it by deploy/reload: what is
        asked from then on is answered by the new ones."""
        for name, path in files.items():
            shutil.copy(path, f"front-files/{name}.pem")
        pid = str(self.process.pid)
        if subprocess.run(["sh", RELOAD, pid, "kill", f"-{self.again}", pid]).returncode:
            raise SystemExit("the front didn't reload\n0 passed, 1 failed")

    def close(self):
        """The same as `end`, for a `with`."""
        self.end()


def classes():
    """The lines of the file that say what callers are."""
    return "\n".join(f"{caller} {name};" for name, callers in CLASSES.items() for caller in callers)


class Front(Reloaded):
    """nginx by the file that an installation starts from, with this machine's ports and folders."""

    def __init__(self, configuration, first, second, pairs=()):
        self.port, self.health = free_port(), free_port()
        self.folder = folder = os.getcwd()
        os.makedirs("front-files", exist_ok=True)
        for name in ("server.pem", "server.key", "callers.pem", "revoked.pem"):
            shutil.copy(name, "front-files")
        text = open(configuration).read()
        for old, new in (
            ("/etc/vault/", f"{folder}/front-files/"),
            ("/var/log/nginx/", f"{folder}/"),
            ("/var/log/vault/", f"{folder}/"),
            ("/run/nginx.pid", f"{folder}/nginx.pid"),
            ("/run/vault-front", f"{folder}/bodies"),
            ("/usr/share/vault/office", f"{os.path.dirname(os.path.abspath(configuration))}/office"),
            ("listen 8443 ssl", f"listen 127.0.0.1:{self.port} ssl"),
            ("listen [::]:8443 ssl;", f"listen [::1]:{self.port} ssl;" if has_ipv6() else ""),
            ("127.0.0.1:8404", f"127.0.0.1:{self.health}"),
            ("127.0.0.1:8087", f"127.0.0.1:{first.port}"),
            ("# ~^/v1/merchants/shop2/ 127.0.0.1:8088", f"~^/v1/merchants/shop2/ 127.0.0.1:{second.port}"),
            ("# settle settlement;", classes()),
            *pairs,
        ):
            if text.count(old) < 1:
                raise SystemExit(f"nginx.conf hasn't {old}\n0 passed, 1 failed")
            text = text.replace(old, new)
        with open("nginx.conf", "w") as file:
            file.write(text)
        os.chmod(folder, 0o755)
        words = ["nginx", "-c", f"{folder}/nginx.conf", "-g", "daemon off;"]
        self.process = subprocess.Popen(words, stderr=subprocess.PIPE)
        self.wait()

    def wait(self):
        """Until it takes connections."""
        if not until(lambda: takes_connections(self.port), 5):
            self.process.kill()
            raise SystemExit(f"the front didn't start: {self.process.stderr.read()}\n0 passed, 1 failed")

    def end(self):
        self.process.terminate()
        self.process.communicate()
