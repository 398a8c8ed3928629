"""Both machines, which are qemus, with a network of their own between them and the front.

All of it is in a network namespace, which trials/standby.sh makes: the bridge `shop` has both machines and
the front, and the bridge `cable` both machines alone. A machine has two disks, its own and the volume's.
The latter is opened past this machine's memory: what was written is on it when the power goes."""

import json
import os
import signal
import socket
import subprocess
import time

from shared.machine import must
from shared.runs import until

NODES = ("vault-a", "vault-b")
SHOP, CABLE = "192.0.2", "198.51.100"
FRONT, ADDRESS = f"{SHOP}.254", f"{SHOP}.10"
TILLS = tuple(f"till-{number}" for number in range(1, 17))
# `kvm` where this machine boots a kernel by it; emulated ones run anywhere
ACCELERATOR = os.environ.get("ACCELERATOR", "tcg,thread=multi")
KERNEL = "root=/dev/vda rw console=ttyS0 net.ifnames=0 quiet mitigations=off no_timer_check"
SSH = (
    *("ssh", "-i", "key", "-o", "StrictHostKeyChecking=no", "-o", "UserKnownHostsFile=/dev/null"),
    # an emulated machine may say nothing for a while
    *("-o", "LogLevel=ERROR", "-o", "ConnectTimeout=20", "-o", "ServerAliveInterval=10"),
    *("-o", "ServerAliveCountMax=6"),
)


class Refused(Exception):
    """A command of a machine that ended badly, or that couldn't be asked."""


def other(node):
    """The name of the other machine."""
    return NODES[1 - NODES.index(node)]


def monitor_port(node):
    """Where a machine's monitor listens, which is its power switch."""
    return 4441 + NODES.index(node)


def network():
    """The bridges and their ports."""
    for bridge in ("shop", "cable"):
        must("ip", "link", "add", bridge, "type", "bridge", "forward_delay", "0")
        must("ip", "link", "set", bridge, "up")
        for number in (1, 2):
            must("ip", "tuntap", "add", f"{bridge}{number}", "mode", "tap")
            must("ip", "link", "set", f"{bridge}{number}", "master", bridge, "up")
    must("ip", "address", "add", f"{FRONT}/24", "dev", "shop")
    must("ip", "link", "set", "lo", "up")


def apart(isolated):
    """Whether the shop's net lets both machines reach the front and nobody else."""
    for number in (1, 2):
        must("bridge", "link", "set", "dev", f"shop{number}", "isolated", "on" if isolated else "off")


class Node:
    """One machine of the pair: its power, its cables, and a shell of its root."""

    def __init__(self, name, ahead):
        # by how many seconds its clock is ahead when its power comes on
        self.name, self.ahead, self.process = name, ahead, None
        self.number = NODES.index(name) + 1

    def words(self):
        """What begins it."""
        clock = time.strftime("%Y-%m-%dT%H:%M:%S", time.gmtime(time.time() + self.ahead))
        ports = []
        for place, name in enumerate(("shop", "cable")):
            port = f"tap,id={name},ifname={name}{self.number},script=no,downscript=no"
            card = f"virtio-net-pci,netdev={name},id=n{name},mac=52:54:00:77:0{place}:0{self.number}"
            ports += ["-netdev", port, "-device", card]
        own = f"file={self.name}.img,format=raw,if=none,id=own,cache=writeback"
        data = f"file={self.name}.data,format=raw,if=none,id=data,cache=none,rerror=report,werror=report"
        return [
            *("qemu-system-x86_64", "-accel", ACCELERATOR, "-cpu", "max", "-smp", "2", "-m", "640"),
            *("-display", "none", "-nodefaults", "-rtc", f"base={clock}"),
            *("-kernel", "vmlinuz", "-initrd", "initrd", "-append", KERNEL),
            *("-serial", f"file:{self.name}.console"),
            *("-drive", own, "-device", "virtio-blk-pci,drive=own"),
            *("-drive", data, "-device", "virtio-blk-pci,drive=data"),
            *ports,
            *("-qmp", f"unix:{self.name}.monitor,server=on,wait=off"),
            *("-qmp", f"tcp:{FRONT}:{monitor_port(self.name)},server=on,wait=off"),
        ]

    def start(self):
        """Its power comes on."""
        with open(f"{self.name}.qemu", "ab") as said:
            self.process = subprocess.Popen(self.words(), stdin=subprocess.DEVNULL, stdout=said, stderr=said)

    def is_on(self):
        return self.process is not None and self.process.poll() is None

    def cut(self):
        """Its power goes; when."""
        at = time.time()
        self.process.send_signal(signal.SIGKILL)
        self.process.wait()
        return at

    def link(self, name, up):
        """The cable to the `shop`, or the one between both, is pulled out or put back."""
        with socket.socket(socket.AF_UNIX) as peer:
            peer.settimeout(10)
            peer.connect(f"{self.name}.monitor")
            lines = peer.makefile("rw")
            lines.readline()
            set_link = {"execute": "set_link", "arguments": {"name": f"n{name}", "up": up}}
            for command in ({"execute": "qmp_capabilities"}, set_link):
                lines.write(json.dumps(command) + "\n")
                lines.flush()
                while "event" in (answer := json.loads(lines.readline())):
                    pass
        if "return" not in answer:
            raise Refused(f"{name} of {self.name}: {answer}")

    def type(self, command, seconds=120, well=True):
        """What a command says on it, which has to end well; otherwise, what it said when it ended."""
        try:
            words = [*SSH, f"root@{SHOP}.{self.number}", command]
            ran = subprocess.run(words, capture_output=True, text=True, timeout=seconds)
        except subprocess.TimeoutExpired:
            raise Refused(f"{self.name}: {command[:80]}: no end in {seconds} s") from None
        # ssh itself ends with 255, where the command wasn't asked or its end isn't known
        if ran.returncode == 255 or (well and ran.returncode != 0):
            said = f"ended with {ran.returncode}: {(ran.stdout + ran.stderr)[-400:]}"
            raise Refused(f"{self.name}: {command[:80]}: {said}")
        return ran.stdout

    def says(self, command):
        """What a command says; nothing where it can't be asked."""
        try:
            return self.type(command, seconds=40, well=False) if self.is_on() else ""
        except Refused:
            return ""

    def wait_up(self, seconds=600):
        """Until it can be asked."""
        if not until(lambda: "up" in self.says("echo up"), seconds):
            raise Refused(f"{self.name} doesn't come up: {open(f'{self.name}.console').read()[-400:]}")
