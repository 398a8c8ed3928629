"""The pair as one: its volume, its cluster, the front before it, and who serves."""

import contextlib
import subprocess
import time

from shared.runs import until
from standby.nodes import ADDRESS, NODES, Node, Refused, network, other

# What an operator types once. Both disks are empty files here, and so they are the same already. An emulated
# machine may take longer for a part of it than the five seconds that `drbdadm` waits.
EACH = """pvcreate -q /dev/vdb && vgcreate -q vault /dev/vdb && lvcreate -q -W n -L 400M -n file vault &&
drbdadm create-md --force vault && modprobe drbd && { drbdadm up vault || { sleep 9; drbdadm adjust vault; }; }"""
ONCE = """drbdadm -- --clear-bitmap new-current-uuid vault && drbdadm primary vault &&
mkfs.ext4 -q /dev/drbd0 && mount /dev/drbd0 /var/lib/vault &&
chown vault:vault /var/lib/vault && chmod 700 /var/lib/vault"""
SHOP = """cd / && asvault() { runuser -u vault -- vault "$@"; } && file=/var/lib/vault/vault.db &&
asvault merchant $file shop1 86400 31536000 &&
for till in $(seq 16); do asvault grant $file till-$till shop1 tokenize || exit 1; done"""
LEFT = "umount /var/lib/vault && drbdadm secondary vault"
# What says that all is well, by the one that serves.
STATE = """ip -o -4 address show dev eth0; cat /proc/drbd; crm_node -p
cibadmin -Q -o constraints | grep drbd-fence-by"""
WELL = "cs:Connected ro:Primary/Secondary ds:UpToDate/UpToDate"


class Pair:
    """Both machines and the front, for the time of a `with`."""

    def __init__(self):
        # their clocks differ by 20 seconds, throughout
        self.nodes = {name: Node(name, ahead) for name, ahead in zip(NODES, (-10, 10))}

    def __enter__(self):
        network()
        with open("front.log", "ab") as log:
            words = ["haproxy", "-db", "-f", "haproxy.cfg"]
            self.front = subprocess.Popen(words, stdin=subprocess.DEVNULL, stdout=log, stderr=log)
        return self

    def __exit__(self, *_):
        for node in self.nodes.values():
            if node.is_on():
                node.cut()
        self.front.kill()
        self.front.wait()

    def boot(self):
        """The power of both comes on; how many seconds it takes until both can be asked."""
        if self.front.poll() is not None:
            raise Refused(f"the front ended: {open('front.log').read()[-400:]}")
        at = time.time()
        for node in self.nodes.values():
            node.start()
        for node in self.nodes.values():
            node.wait_up()
        return time.time() - at

    def volume(self):
        """The volume, and a vault with 16 tills on it."""
        for node in self.nodes.values():
            node.type(EACH, seconds=300)
        first = self.nodes[NODES[0]]
        if not until(lambda: "cs:Connected" in first.says("cat /proc/drbd"), 120):
            raise Refused("the volume's two sides don't find each other")
        for step in (ONCE, SHOP, LEFT):
            first.type(step, seconds=600)

    def cluster(self):
        """The cluster's configuration, once, on one of them; who serves then."""
        self.nodes[NODES[0]].type("crm configure load update /etc/vault/cluster.crm", seconds=600)
        return self.whole()

    def serving(self):
        """The name of the machine that has the address, or nothing."""
        names = (it for it in NODES if ADDRESS in self.nodes[it].says("ip -o -4 address show dev eth0"))
        return next(names, None)

    def moved_from(self, node, seconds=600):
        """Waits until the other one serves; whether it does."""
        return until(lambda: self.serving() == other(node), seconds)

    def is_whole(self, name):
        told = self.nodes[name].says(STATE)
        members = all(it in told for it in NODES)
        return f"{ADDRESS}/" in told and WELL in told and members and "drbd-fence-by" not in told

    def whole(self, seconds=900):
        """Waits until one serves, and both disks are the same; who serves."""
        end = time.monotonic() + seconds
        while time.monotonic() < end:
            for name in NODES:
                if self.is_whole(name):
                    return name
            time.sleep(4)
        raise Refused("the pair doesn't become whole")

    def compared(self, seconds=300):
        """What `drbdadm verify` finds that differs, in KiB."""
        node = self.nodes[self.whole()]
        node.type("drbdadm verify vault")
        time.sleep(5)
        until(lambda: "cs:Connected" in node.says("cat /proc/drbd"), seconds)
        told = node.type("cat /proc/drbd")
        return told.partition("oos:")[2].split()[0]

    @contextlib.contextmanager
    def cable_out(self, node):
        """The cable of the volume is out, of one machine, for the time of a `with`."""
        self.nodes[node].link("cable", False)
        try:
            yield
        finally:
            for one in self.nodes.values():
                if one.is_on():
                    one.link("cable", True)
