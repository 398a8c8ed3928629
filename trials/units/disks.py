"""Volumes that aren't mounted, are full, have no inode, are read-only or are a btrfs."""

from shared.asking import Asked
from shared.machine import must

# A volume for the vault's folder, by the words of its mount; the file is taken along.
MOUNTED = """systemctl stop vault; cp -a /var/lib/vault /srv/kept
mount {words} /var/lib/vault
cp -a /srv/kept/. /var/lib/vault/; : > /srv/told
"""
# One in memory, of so many KiB and inodes.
VOLUME = MOUNTED.format(words="-t tmpfs -o size={size}k,nr_inodes={inodes},mode=700,uid=vault,gid=vault none")
# What a machine needs to mount a file as a disk.
LOOPS = """[ -e /dev/loop-control ] || mknod /dev/loop-control c 10 237
for disk in $(seq 0 15); do [ -e /dev/loop$disk ] || mknod /dev/loop$disk b 7 $disk; done
"""
BACK = """systemctl stop vault; umount /var/lib/vault; rm -rf /var/lib/vault/* /srv/kept/none
cp -a /srv/kept/. /var/lib/vault/; rm -rf /srv/kept; systemctl reset-failed vault
"""
WAITS = "vault.service: waits for its start: the volume of /var/lib/vault/vault.db"


def awaited(what, seconds):
    """Types a test each half second until it holds."""
    return f"for turn in $(seq {2 * seconds}); do {what} && break; sleep 0.5; done; {what}\n"


def no_file(step):
    """A start where there is no file makes none, and is told."""
    start = "systemctl start vault 2>&1; ls -A /var/lib/vault | wc -l"
    step("no start without a file", start, r"Assertion failed[\s\S]*^0$", well=False)
    told = awaited("alarms | grep -q \"isn't started\"", 20) + "alarms"
    step("and that is told", told, "vault.service: isn't started: its file isn't there")
    wanted = "systemctl show -p RequiresMountsFor --value vault vault@north"
    step("the units wait for their volume", wanted, r"/var/lib/vault( .*)?\n[\s\S]*/var/lib/vault-north")


def full(tally, machine, step):
    """A volume that fills up under load: the unit waits and never fails, and goes on once there is room."""
    step("a small volume", VOLUME.format(size=96 * 1024, inodes="1k") + "systemctl start vault", "")
    fill = "asvault dd if=/dev/zero of=/var/lib/vault/filler bs=64k status=none 2>/dev/null || true\n"
    waits = awaited(f"alarms | grep -q '{WAITS} has '", 90)
    with Asked(machine) as asked:
        step("it fills up, and the unit waits", fill + waits, "", seconds=120)
        # as long as twelve starts took once
        step("it doesn't fail", "sleep 20; systemctl show -p ActiveState,Result vault", "activating[^f]*$")
        again = "rm /var/lib/vault/filler; date +%s > /srv/since\n" + awaited("$lib/answers vault", 60)
        step("room again, and within a minute it serves", again, "")
    tally.judge("no request is lost on a full volume", asked.fault)
    step("the file is sound", BACK + "systemctl start vault; $lib/answers vault", "")


def read_only(step):
    """A volume that turned read-only."""
    step("a volume", VOLUME.format(size=96 * 1024, inodes="1k") + "systemctl start vault", "")
    turned = "systemctl stop vault; mount -o remount,ro /var/lib/vault; systemctl start --no-block vault\n"
    told = awaited(f"alarms | grep -q '{WAITS} is read-only'", 60)
    step("read-only, it waits", turned + told, "", seconds=90)
    again = "mount -o remount,rw /var/lib/vault\n" + awaited("$lib/answers vault", 60)
    step("and serves once it takes writes", again, "", seconds=90)
    step("the volume goes", BACK + "systemctl start vault", "")


def no_inode(step):
    """A volume without an inode for the log."""
    step("a volume", VOLUME.format(size=96 * 1024, inodes="32"), "")
    taken = """asvault cp $file /var/lib/vault/vault.copy; rm $file-wal
for name in $(seq 64); do asvault touch /var/lib/vault/$name 2> /dev/null || break; done
systemctl start --no-block vault
"""
    told = awaited(f"alarms | grep -q '{WAITS} has no inode'", 60)
    step("no inode, it waits", taken + told, "", seconds=90)
    again = "rm /var/lib/vault/[1-9]*\n" + awaited("$lib/answers vault", 60)
    step("and serves once there is one", again, "", seconds=90)
    step("the last volume goes", BACK + "systemctl start vault", "")


def btrfs(machine, step):
    """A volume that is a btrfs is warned of as the service starts, which serves all the same."""
    disk = f"{machine.folder}/srv/btrfs.img"
    must("truncate", "-s", "256M", disk)
    must("mkfs.btrfs", "-q", disk)
    started = LOOPS + MOUNTED.format(words="-o loop /srv/btrfs.img") + "systemctl start vault\n"
    warned = "journalctl -u vault -p warning -o cat --no-pager | tail -n 1\n" + awaited("$lib/answers vault", 60)
    step("a btrfs is warned of", started + warned, "^the volume of /var/lib/vault/vault.db is a btrfs: ", seconds=90)
    step("that volume goes", BACK + "systemctl start vault", "")
