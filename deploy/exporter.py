#!/usr/bin/python3
"""The counts of merchants for Prometheus, whether their vaults answer, and what ends or fills up.

    exporter.py CONFIGURATION

It asks the front for the counts of each merchant that CONFIGURATION lists, as a caller who has the right
`audit` there and no other right. CONFIGURATION is a TOML file:

    front = "https://localhost:8443"
    certificate = "/etc/vault/watch.pem"
    key = "/etc/vault/watch.key"
    authority = "/etc/vault/callers.pem"
    merchants = ["shop1", "shop2"]
    listen = 9187            # on 127.0.0.1 alone
    every = 30               # seconds in which each merchant is asked once
    rights = ["/etc/vault/rights.toml"]            # merchants in it that aren't watched are told
    folders = ["/var/lib/vault"]                   # how full their disks are
    volumes = ["/var/lib/vault"]                   # which of them have to be mounted
    ports = [8087, 8088]     # of the vaults; [8087] if left out
    account = "vault"        # whose programs alone listen there
    revoked = "/etc/vault/revoked.pem"             # whose ends are told, and those of `authority`
    indexes = "/etc/vault/callers-*.index"         # what the authorities signed, by certificates.sh publish
    log = "/var/log/vault/front.log"               # the front's; numbers that no line of it tells of are told
    settle = 10              # seconds until a number's line stands there at the latest

Merchants are asked one after the other all the time, eight at most at once, and a scrape is answered what was
told last. So it takes no time however many there are, and vaults that hang hold up nobody. One that isn't
answered within five seconds has `vault_up` 0 and no counts, and why stands on standard error. Certificates
are read anew for each question. What it knows of the log it keeps in `ledger.json` of the unit's own folder,
which `who.py --reconcile` reads. It needs Debian's `python3-prometheus-client` and openssl beyond Python 3.11.
"""

import calendar
import collections
import concurrent.futures
import glob
import http.client
import itertools
import json
import os
import pwd
import re
import socketserver
import ssl
import subprocess
import sys
import threading
import time
import tomllib
import urllib.parse
from wsgiref.simple_server import WSGIRequestHandler, WSGIServer, make_server

import front_log
from prometheus_client import make_wsgi_app
from prometheus_client.core import CollectorRegistry, GaugeMetricFamily

MOST = 1000000  # tokens that a merchant has for good
SECONDS = 5
AT_ONCE = 8
LEAST = 0.02  # seconds between two questions
# How openssl is asked for an end, and how it names whose it is, and the end.
KINDS = {
    "x509": (("-enddate", "-subject"), "subject", "notAfter"),
    "crl": (("-nextupdate", "-issuer"), "issuer", "nextUpdate"),
}
# Gauges, since they fall where a vault is restored: a counter that falls would count as one that began anew.
COUNTS = {
    "made": ("vault_tokens_made", "Tokens made for a merchant, purged ones too."),
    "given": ("vault_numbers_given", "Card numbers that were given to callers."),
    "denied": ("vault_numbers_denied", "Card numbers that were denied to callers."),
}


def gauge(name, words, *labels):
    """A metric without a value yet."""
    return GaugeMetricFamily(name, words, labels=labels)


def problem(error):
    """What kept an answer from coming, in few words."""
    if isinstance(error, ssl.SSLCertVerificationError):
        return f"the front's certificate: {error.verify_message}"
    if isinstance(error, TimeoutError):
        return f"no answer within {SECONDS} s"
    return f"no answer: {getattr(error, 'strerror', None) or type(error).__name__}"


class Front:
    """Asks the front, over a connection for each question, by the certificates as they stand then. `end` is of
    the certificate that the front showed last."""

    def __init__(self, settings):
        self.settings, self.place, self.end = settings, urllib.parse.urlsplit(settings["front"]), None

    def connection(self):
        if self.place.scheme != "https":
            return http.client.HTTPConnection(self.place.netloc, timeout=SECONDS)
        context = ssl.create_default_context(cafile=self.settings["authority"])
        context.load_cert_chain(self.settings["certificate"], self.settings["key"])
        return http.client.HTTPSConnection(self.place.netloc, timeout=SECONDS, context=context)

    def counts(self, merchant):
        """A merchant's counts or None, why there are none, and the seconds that it took."""
        begun = time.monotonic()
        return *self.asked(merchant), time.monotonic() - begun

    def asked(self, merchant):
        """A merchant's counts, or None and why: `refused 8`, `front 495`, `no answer within 5 s`."""
        try:
            peer = self.connection()
        except OSError as error:
            return None, f"the certificates: {error}"
        try:
            peer.connect()
            if self.place.scheme == "https":
                self.end = ssl.cert_time_to_seconds(peer.sock.getpeercert()["notAfter"])
            peer.request("GET", f"/v1/merchants/{merchant}/audit", headers={"Connection": "close"})
            answer = peer.getresponse()
            told = dict(json.loads(answer.read()))
        except (OSError, http.client.HTTPException, ValueError, TypeError) as error:
            return None, problem(error)
        finally:
            peer.close()
        if answer.status == 200 and all(isinstance(told.get(name), int) for name in COUNTS):
            return told, ""
        if told.get("away"):
            return None, "the vault is away"
        said = (f"{by} {told[by]}" for by in ("refused", "front") if by in told)
        return None, next(said, f"status {answer.status}")


class Merchants(threading.Thread):
    """What each merchant was answered last; it asks all the time, evenly."""

    def __init__(self, front, settings, unlogged):
        super().__init__(daemon=True)
        self.front, self.names, self.unlogged = front, settings["merchants"], unlogged
        self.pause = max(LEAST, settings.get("every", 30) / max(1, len(self.names)))
        self.told, self.why, self.all_told = {}, {}, threading.Event()

    def run(self):
        """Asks each in turn, at first without a pause."""
        with concurrent.futures.ThreadPoolExecutor(AT_ONCE) as pool:
            room = threading.Semaphore(AT_ONCE)
            for turn, name in enumerate(itertools.cycle(self.names)):
                room.acquire()
                pool.submit(self.ask, name).add_done_callback(lambda _: room.release())
                time.sleep(LEAST if turn < len(self.names) else self.pause)

    def ask(self, name):
        """Asks once. Why there is no answer is written where it is another reason than before."""
        looked = self.unlogged.look(name)
        counts, why, spent = self.front.counts(name)
        self.unlogged.told(name, counts, looked)
        if why and self.why.get(name) != why:
            print(f"{name}: {why}", file=sys.stderr, flush=True)
        self.why[name] = why
        self.told[name] = counts, spent
        if len(self.told) == len(set(self.names)):
            self.all_told.set()

    def collect(self):
        """Each merchant's counts, whether it was answered, and how long that took."""
        up = gauge("vault_up", "Whether a merchant's vault answered.", "merchant")
        took = gauge("vault_answer_seconds", "How long an answer took.", "merchant")
        full = gauge("vault_full_ratio", "Tokens made, of what there can be.", "merchant")
        known = {name: gauge(*words, "merchant") for name, words in COUNTS.items()}
        for merchant, (told, spent) in sorted(self.told.copy().items()):
            up.add_metric([merchant], 1 if told else 0)
            took.add_metric([merchant], spent)
            if told:
                full.add_metric([merchant], told["made"] / MOST)
                for name, family in known.items():
                    family.add_metric([merchant], told[name])
        return [up, took, full, *known.values()]


class Unlogged:
    """Card numbers that went out by no line of the front's log, and who was refused, if the settings name it."""

    def __init__(self, settings):
        folder = os.environ.get("STATE_DIRECTORY")
        file = folder and f"{folder}/ledger.json"
        words = settings.get("log"), settings["merchants"], file, settings.get("settle", 10)
        self.ledger = front_log.Ledger(*words) if words[0] else None

    def look(self, merchant):
        """What the log has, before the vault is asked."""
        return self.ledger and self.ledger.look(merchant)

    def told(self, merchant, counts, looked):
        """What the vault then said, if it did."""
        if counts and looked:
            self.ledger.told(merchant, counts["given"], looked)

    def collect(self):
        """How many numbers no line tells of, and whether the log can be read."""
        unlogged = gauge("vault_numbers_unlogged", "Card numbers that the log lacks.", "merchant")
        seen = gauge("vault_log_known", "Whether the front's log can be read.")
        if not self.ledger:
            return []
        for merchant, account in sorted(self.ledger.accounts.items()):
            if account.base is not None:
                unlogged.add_metric([merchant], account.unlogged)
        seen.add_metric([], 0 if self.ledger.fault else 1)
        refused = gauge("vault_caller_refused", "Refusals of a caller in the last hour.", "caller", "status")
        with self.ledger.lock:
            for (caller, status), count in self.ledger.refusals.counts():
                refused.add_metric([caller, str(status)], count)
        return [unlogged, seen, refused]


def told_by_openssl(kind, words, text):
    """What openssl says of one certificate or list."""
    ran = subprocess.run(["openssl", kind, "-noout", *words], input=text, capture_output=True, text=True)
    return dict(line.partition("=")[::2] for line in ran.stdout.splitlines())


def ends_of(path, kind):
    """Name and end of each certificate, or list, of a file."""
    words, name, end = KINDS[kind]
    with open(path) as file:
        parts = re.findall(r"-----BEGIN [^-]+-----.*?-----END [^-]+-----\n", file.read(), re.S)
    for part in parts:
        told = told_by_openssl(kind, words, part)
        found = re.search(r"CN = (.*)", told.get(name, ""))
        if end in told:
            yield found[1] if found else "-", ssl.cert_time_to_seconds(told[end])


def ends_of_callers(pattern):
    """Of each caller the end of the certificate that lasts longest, by the authorities' indexes."""
    found = collections.defaultdict(int)
    for path in glob.glob(pattern):
        for line in open(path):
            state, end, _, _, _, subject = line.rstrip("\n").split("\t")
            name = re.fullmatch(r"/CN=([a-z0-9-]{1,16})", subject)
            if state == "V" and name and not re.search(r"(?:[0-9]-?){10}", name[1]):
                moment = time.strptime(("20" if len(end) == 13 else "") + end, "%Y%m%d%H%M%SZ")
                found[name[1]] = max(found[name[1]], calendar.timegm(moment))
    return found.items()


class Ends:
    """When certificates and lists of revoked ones end, as their files stand."""

    def __init__(self, front, settings):
        self.front, self.settings = front, settings

    def collect(self):
        ends = gauge("vault_ends_seconds", "When a certificate or a list ends.", "kind", "name")
        seen = gauge("vault_ends_known", "Whether a kind's ends can be read.", "kind")
        for kind, source in self.sources().items():
            try:
                found = list(source())
            except (OSError, ValueError) as error:
                print(f"the ends of {kind}: {error}", file=sys.stderr, flush=True)
                found = []
            seen.add_metric([kind], 1 if found else 0)
            for name, moment in found:
                ends.add_metric([kind, name], moment)
        return [ends, seen]

    def sources(self):
        """Where the ends of each kind are read; of the front, as it shows its certificate."""
        named = {"front": lambda: [("front", self.front.end)] if self.front.end else []}
        if "authority" in self.settings:
            named["authority"] = lambda: ends_of(self.settings["authority"], "x509")
        if "revoked" in self.settings:
            named["list"] = lambda: ends_of(self.settings["revoked"], "crl")
        if "indexes" in self.settings:
            named["caller"] = lambda: ends_of_callers(self.settings["indexes"])
        return named


class Machine:
    """How full disks are, whether volumes are mounted, by how much the clock jumped, and merchants that have
    rights and aren't watched."""

    def __init__(self, settings):
        self.settings, self.began = settings, self.apart()

    @staticmethod
    def apart():
        """The seconds between the clock and a steady one, which nobody sets."""
        return time.time() - time.clock_gettime(time.CLOCK_BOOTTIME)

    def collect(self):
        room = gauge("vault_disk_used_ratio", "What is used of a folder's disk.", "folder")
        names = gauge("vault_inodes_used_ratio", "What is used of its inodes.", "folder")
        there = gauge("vault_folder_there", "Whether it is there, and mounted.", "folder")
        for folder in self.settings.get("folders", []):
            is_there = os.path.isdir(folder)
            mounted = folder not in self.settings.get("volumes", []) or os.path.ismount(folder)
            there.add_metric([folder], 1 if is_there and mounted else 0)
            if is_there:
                disk = os.statvfs(folder)
                room.add_metric([folder], 1 - disk.f_bavail / (disk.f_blocks - disk.f_bfree + disk.f_bavail))
                names.add_metric([folder], 1 - disk.f_favail / disk.f_files if disk.f_files else 0)
        clock = gauge("vault_clock_jumped_seconds", "By how much the clock jumped since a start.")
        clock.add_metric([], self.apart() - self.began)
        return [room, names, there, clock, self.unwatched()]

    def unwatched(self):
        """Merchants of the rights files that this doesn't watch."""
        found = gauge("vault_unwatched", "A merchant with rights, unwatched.", "merchant")
        named = set()
        for path in self.settings.get("rights", []):
            try:
                with open(path, "rb") as file:
                    named.update(*(rights.keys() for rights in tomllib.load(file).values()))
            except (OSError, ValueError, AttributeError) as error:
                print(f"{path}: {error}", file=sys.stderr, flush=True)
        for merchant in sorted(named - set(self.settings["merchants"])):
            found.add_metric([merchant], 1)
        return found


class Ports:
    """Whether a program of another account listens where the front asks a vault, and so gets card numbers."""

    # 127.0.0.1 and all addresses, as the kernel writes them in both of its tables
    ASKED = re.compile(r"0100007F|0{8}|0{32}|0{16}FFFF00000100007F")

    def __init__(self, settings):
        self.ports, self.account = settings.get("ports", [8087]), settings.get("account", "vault")

    def collect(self):
        foreign = gauge("vault_port_foreign", "Whether another account listens on a vault's port.", "port")
        own, found = self.number(), set(self.listening())
        for port in self.ports:
            is_foreign = any(at == port and account != own for at, account in found)
            foreign.add_metric([str(port)], 1 if is_foreign else 0)
        return [foreign]

    def number(self):
        try:
            return pwd.getpwnam(self.account).pw_uid
        except KeyError:
            return None

    def listening(self):
        """Each port on which somebody listens there, with the number of the account."""
        for path in ("/proc/self/net/tcp", "/proc/self/net/tcp6"):
            if not os.path.exists(path):
                continue
            for line in open(path).read().splitlines()[1:]:
                _, local, _, state, _, _, _, account, *_ = line.split()
                address, _, port = local.rpartition(":")
                if state == "0A" and self.ASKED.fullmatch(address):
                    yield int(port, 16), int(account)


class Server(socketserver.ThreadingMixIn, WSGIServer):
    """Answers each scrape by itself, so one that says nothing holds up no other."""

    daemon_threads = True


class Silent(WSGIRequestHandler):
    """Writes no line for a scrape, and waits for none longer than this."""

    timeout = 10

    def log_message(self, *_):
        pass


def main(path):
    with open(path, "rb") as file:
        settings = tomllib.load(file)
    front, registry = Front(settings), CollectorRegistry(auto_describe=False)
    try:
        front.connection()
    except OSError as error:
        raise SystemExit(f"the certificates can't be used: {error}") from None
    unlogged = Unlogged(settings)
    merchants = Merchants(front, settings, unlogged)
    for one in (merchants, unlogged, Ends(front, settings), Machine(settings), Ports(settings)):
        registry.register(one)
    port, answering = settings.get("listen", 9187), make_wsgi_app(registry)
    with make_server("127.0.0.1", port, answering, server_class=Server, handler_class=Silent) as server:
        merchants.start()
        merchants.all_told.wait(SECONDS)
        print(f"listening {server.server_port}", flush=True)
        server.serve_forever()


if __name__ == "__main__":
    if len(sys.argv) != 2:
        raise SystemExit(__doc__)
    main(sys.argv[1])
