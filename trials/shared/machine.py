"""An empty Debian that boots beside this machine, and a shell of its root."""

import fcntl
import os
import re
import subprocess

from shared.runs import until

SUITE = "bookworm"
# What a machine has before anything is typed.
EMPTY = "systemd-sysv,dbus,adduser,ca-certificates"
# What the pages install, which comes without a network once it was fetched.
FETCHED = (
    *("nginx-light", "openssl", "curl", "sqlite3", "chrony", "nftables", "logrotate", "python3"),
    *("haproxy", "rsyslog", "procps", "python3-prometheus-client", "libjemalloc2"),
)
# What begins a machine: it moves itself into groups of processes of its own, so that nothing of another
# machine is ended with it, and ends with whoever began it.
BEGIN = """for group; do mkdir -p "$group" && echo $$ > "$group/cgroup.procs"; done
exec setpriv --pdeathsig TERM systemd-nspawn --quiet --register=no --keep-unit --private-network --boot \\
    --kill-signal=SIGKILL --directory="$FOLDER" --machine="$NAME"
"""


def must(*words):
    """Runs a command of this machine, which has to end well; what it says."""
    ran = subprocess.run(words, capture_output=True, text=True)
    if ran.returncode != 0:
        raise SystemExit(f"{words[0]}: {(ran.stdout + ran.stderr)[-500:]}\n0 passed, 1 failed")
    return ran.stdout


def mirrors():
    """Where this machine has its own packages from; none is debootstrap's own choice."""
    told = must("apt-get", "indextargets", "--format", "$(CODENAME) $(REPO_URI)", "Created-By: Packages")
    return [line.split()[1] for line in told.splitlines() if line.split()[0] == SUITE][:1]


def made_base(folder):
    """An empty Debian in a folder; several trials copy one in MACHINES. The first one makes it, and others wait."""
    base = os.path.join(os.environ.get("MACHINES", os.path.dirname(folder)), "base")
    with open(f"{base}.lock", "w") as lock:
        fcntl.flock(lock, fcntl.LOCK_EX)
        if not os.path.exists(base):
            part = f"{base}.part"
            must("debootstrap", "--variant=minbase", f"--include={EMPTY}", SUITE, part, *mirrors())
            must("chroot", part, "apt-get", "update")
            must("chroot", part, "apt-get", "install", "-y", "--download-only", *FETCHED)
            os.rename(part, base)
    return base


def groups(name):
    """The folders of two groups of processes of this name: the second version's, and systemd's own."""
    found = []
    for line in open("/proc/self/mounts"):
        _, folder, kind, options, *_ = line.split()
        if kind == "cgroup2" or (kind == "cgroup" and "name=systemd" in options.split(",")):
            found.append(f"{folder}/{name}")
    return found


class Machine:
    """A booted Debian in a folder, without a network; it is gone at the end of a `with`."""

    def __init__(self, folder):
        self.folder = folder
        must("cp", "-a", "--reflink=auto", made_base(folder), folder)
        self.groups = groups(f"vault-trial-{os.getpid()}")
        self.boot()
        self.typed = 0

    def boot(self):
        self.console = open("console", "w")
        named = {"FOLDER": self.folder, "NAME": f"vault-trial-{os.getpid()}", "SYSTEMD_NSPAWN_UNIFIED_HIERARCHY": "1"}
        self.process = subprocess.Popen(
            ["sh", "-c", BEGIN, "sh", *self.groups],
            stdin=subprocess.DEVNULL,
            stdout=self.console,
            stderr=self.console,
            env={**os.environ, **named},
        )
        self.children = f"/proc/{self.process.pid}/task/{self.process.pid}/children"
        if not until(self.is_up, 180):
            raise SystemExit(f"no machine came up: {open('console').read()[-500:]}\n0 passed, 1 failed")
        home = {"HOME": "/root", "PATH": "/usr/sbin:/usr/bin:/sbin:/bin", "DEBIAN_FRONTEND": "noninteractive"}
        self.shell = subprocess.Popen(
            [*self.inside, "bash"],
            stdin=subprocess.PIPE,
            stdout=subprocess.DEVNULL,
            text=True,
            env={**home, "LANG": "C.UTF-8"},
        )
        self.shell.stdin.write("cd /srv\ntrap 'echo \"failed: $BASH_COMMAND\"; failed=1' ERR\nset -E\n")

    def is_up(self):
        """Whether the machine answers. Before its first process, nspawn has another child for some
        milliseconds, so the first process is looked up at each call."""
        children = open(self.children).read().split()
        if not children:
            return False
        self.leader = children[0]
        self.inside = ["nsenter", "-t", self.leader, "-m", "-u", "-i", "-n", "-p", "-r", "-w"]
        # a program of this machine that shares the network of that one
        self.beside = ["nsenter", "-t", self.leader, "-n"]
        is_running = [*self.inside, "systemctl", "is-system-running"]
        told = subprocess.run(is_running, capture_output=True, text=True).stdout
        return told in ("running\n", "degraded\n")

    def __enter__(self):
        return self

    def __exit__(self, *_):
        self.shell.kill()
        self.process.terminate()
        self.process.wait()
        self.console.close()
        for group in self.groups:
            until(lambda group=group: self.is_gone(group), 20)

    @staticmethod
    def is_gone(group):
        """Removes a group of processes with those below it, whose processes have ended."""
        try:
            for folder, _, _ in os.walk(group, topdown=False):
                os.rmdir(folder)
        except OSError:
            return False
        return True

    def put(self, name, text):
        """A file on the machine."""
        with open(f"{self.folder}/{name}", "w") as file:
            file.write(text)

    def type(self, text, seconds=120):
        """Types a text into the shell; whether each command ended well, and what they printed."""
        self.typed += 1
        at = f"/srv/typed-{self.typed}"
        self.put(at, text)
        self.shell.stdin.write(f"failed=0; . {at} < /dev/null > {at}.out 2>&1; echo $failed > {at}.ended\n")
        self.shell.stdin.flush()
        ended = f"{self.folder}{at}.ended"
        done = until(lambda: os.path.exists(ended) and os.path.getsize(ended), seconds)
        told = open(f"{self.folder}{at}.out", errors="replace").read()
        return done and open(ended).read() == "0\n", told if done else f"no end in {seconds} s: {told}"


def says(tally, machine, name, text, wanted, well=True, seconds=120):
    """Types a text, and judges how it ends and what it says: a pattern has to stand in it."""
    ended, told = machine.type(text, seconds)
    found = re.search(wanted, told, re.M)
    tally.judge(name, "" if ended == well and found else f"{ended}: {told[-400:]}")
