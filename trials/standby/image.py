"""The disks of both machines, made before there is a network of their own: python3 -m standby.image PROGRAM
REPOSITORY. What is done to them is what docs/STANDBY.md has an operator do."""

import glob
import os
import secrets
import shutil
import sys

from front.certificates import by_script
from haproxy.services import changed
from shared.machine import made_base, must
from standby.nodes import ADDRESS, CABLE, FRONT, NODES, SHOP, TILLS, monitor_port

PACKAGES = (
    *("linux-image-amd64", "initramfs-tools", "udev", "kmod", "iproute2", "procps", "psmisc", "e2fsprogs"),
    *("lvm2", "drbd-utils", "corosync", "pacemaker", "pacemaker-cli-utils", "crmsh", "resource-agents"),
    *("haproxy", "openssh-server", "openssl", "libjemalloc2", "adduser", "python3"),
)
# Nothing is started while it is installed, and a small kernel's memory disk has what a qemu has.
BEFORE = """printf '#!/bin/sh\\nexit 101\\n' > /usr/sbin/policy-rc.d; chmod 755 /usr/sbin/policy-rc.d
mkdir -p /etc/initramfs-tools/conf.d; echo MODULES=list > /etc/initramfs-tools/conf.d/virtual
printf 'path-exclude=/usr/share/%s/*\\n' doc man locale > /etc/dpkg/dpkg.cfg.d/small
"""
INSTALL = "DEBIAN_FRONTEND=noninteractive apt-get install -y -q --no-install-recommends "
AFTER = """printf 'virtio_pci\\nvirtio_blk\\nvirtio_net\\next4\\n' > /etc/initramfs-tools/modules
update-initramfs -u -k all
apt-get clean; rm -rf /var/lib/apt/lists/* /usr/sbin/policy-rc.d
sed -i 's/usage-count yes/usage-count no/' /etc/drbd.d/global_common.conf
systemctl --quiet enable haproxy corosync pacemaker systemd-networkd
systemctl --quiet set-default multi-user
systemctl --quiet disable vault vault-backup.timer drbd 2> /dev/null || :
"""
# What an emulated machine needn't start: each of them costs it a second.
NEEDLESS = (
    *("apt-daily.timer", "apt-daily-upgrade.timer", "e2scrub_all.timer", "e2scrub_reap", "fstrim.timer"),
    *("dpkg-db-backup.timer", "systemd-timesyncd", "systemd-networkd-wait-online", "systemd-update-utmp"),
    *("lvm2-monitor", "systemd-pcrphase", "systemd-pcrphase-sysinit", "systemd-random-seed", "getty@tty1"),
    *("modprobe@drm", "modprobe@fuse", "modprobe@loop", "modprobe@configfs", "modprobe@efi_pstore"),
    *("dev-hugepages.mount", "dev-mqueue.mount", "sys-kernel-debug.mount", "sys-kernel-tracing.mount"),
    *("sys-fs-fuse-connections.mount", "serial-getty@ttyS0"),
)
# The front's log is its own output here, and it has no need of IPv6.
HERE = (
    ("log /dev/log local0", "log stdout format raw local0"),
    ("log /vault/log local0", "log stdout format raw local0"),
    # its tills ask for more tokens than a till has in a day
    ("set-var(txn.class) str(till)", "set-var(txn.class) str(batch)"),
    ("bind :8443,[::]:8443 v6only", "bind :8443"),
)
FENCE = "stonith:fence_ipmilan"
WORDS = "ip=203.0.113.{number} username=fence password_script=/etc/vault/fence-phrase lanplus=1"


def certificates():
    """In the folder where the trial runs those of the front and its tills; in `machines` the relay's, and the
    one by which it knows the front."""
    by_script("authority", ".")
    by_script("server", ".", FRONT)
    for caller in TILLS:
        by_script("caller", ".", caller)
    by_script("authority", "machines")
    by_script("server", "machines", ADDRESS)
    by_script("caller", "machines", "front")
    # the names that haproxy.cfg has for them
    for source, name in (
        ("server.key", "server.pem.key"),
        ("machines/callers.pem", "machines.pem"),
        ("machines/front.pem", "front.pem"),
        ("machines/front.key", "front.pem.key"),
    ):
        shutil.copy(source, name)


def put(root, path, text, mode=0o644):
    """A file on both machines."""
    os.makedirs(os.path.dirname(f"{root}/{path}"), exist_ok=True)
    with open(f"{root}/{path}", "w") as file:
        file.write(text)
    os.chmod(f"{root}/{path}", mode)


def installed(root, program, repository):
    """Debian with all that a machine of the pair has, and the vault's package."""
    made = must("sh", f"{repository}/deploy/package.sh", program, ".").strip()
    shutil.copy(made, f"{root}/srv/vault.deb")
    masks = f"systemctl --quiet mask {' '.join(NEEDLESS)}\n"
    text = BEFORE + INSTALL + " ".join(PACKAGES) + " /srv/vault.deb\n" + AFTER + masks
    must("mount", "-t", "proc", "proc", f"{root}/proc")
    try:
        # the trial's own folder for short-lived files isn't there
        must("chroot", root, "env", "TMPDIR=/tmp", "sh", "-eu", "-c", text)
    finally:
        must("umount", f"{root}/proc")
    shutil.copy(glob.glob(f"{root}/boot/vmlinuz-*")[0], "vmlinuz")
    shutil.copy(glob.glob(f"{root}/boot/initrd.img-*")[0], "initrd")


def of_standby(root, deploy):
    """The files of a standby, in their places. Changed is the secret, who cuts the power, and how long an
    emulated machine may be silent: some share their processors, and are for seconds."""

    def text(name, *pairs):
        return changed(open(f"{deploy}/standby/{name}").read(), *pairs)

    put(root, "etc/drbd.d/vault.res", text("vault.res", ('"CHANGE"', f'"{secrets.token_hex(24)}"')), 0o600)
    put(root, "etc/corosync/corosync.conf", text("corosync.conf", ("token: 3000", "token: 8000")))
    put(root, "etc/systemd/system/vault.service.d/standby.conf", text("standby.conf"))
    # no other account is on these machines, whose kernel has no rule for the port
    put(root, "etc/systemd/system/vault.service.d/trial.conf", "[Service]\nEnvironment=UNGUARDED=yes\n")
    put(root, "etc/haproxy/haproxy.cfg", text("relay.cfg"))
    switches = [
        (WORDS.format(number=number), f"ip={FRONT} port={monitor_port(node)}")
        for number, node in enumerate(NODES, 1)
    ]
    put(root, "etc/vault/cluster.crm", text("cluster.crm", (FENCE, "stonith:fence_qemu"), *switches))
    put(root, "usr/sbin/fence_qemu", open(f"{os.path.dirname(__file__)}/fence_qemu").read(), 0o755)
    with open(f"{root}/etc/corosync/authkey", "wb") as file:
        file.write(secrets.token_bytes(256))
    os.chmod(f"{root}/etc/corosync/authkey", 0o400)
    put(root, "etc/vault/machines.pem", open("machines/callers.pem").read())
    put(root, "etc/vault/relay.pem", open("machines/server.pem").read())
    put(root, "etc/vault/relay.pem.key", open("machines/server.key").read(), 0o600)


def entered(root):
    """What the trial itself needs: to enter, and names."""
    must("ssh-keygen", "-q", "-t", "ed25519", "-N", "", "-f", "key")
    put(root, "root/.ssh/authorized_keys", open("key.pub").read(), 0o600)
    os.chmod(f"{root}/root/.ssh", 0o700)
    put(root, "etc/ssh/sshd_config.d/trial.conf", "UseDNS no\n")
    put(root, "etc/fstab", "/dev/vda / ext4 noatime 0 1\n")
    put(root, "etc/systemd/journald.conf.d/trial.conf", "[Journal]\nStorage=volatile\n")
    names = "".join(f"{SHOP}.{number} {node}\n" for number, node in enumerate(NODES, 1))
    put(root, "etc/hosts", f"127.0.0.1 localhost\n{names}{FRONT} front\n")


def disks(root, deploy):
    """A disk for each machine, with its own name and addresses, and an empty one for the volume."""
    cable = open(f"{deploy}/standby/cable.network").read()
    for number, node in enumerate(NODES, 1):
        put(root, "etc/hostname", f"{node}\n")
        put(root, "etc/machine-id", f"{number:032x}\n")
        shop = f"[Match]\nName=eth0\n[Network]\nAddress={SHOP}.{number}/24\n"
        put(root, "etc/systemd/network/shop.network", shop)
        own = changed(cable, (f"Address={CABLE}.1/24", f"Address={CABLE}.{number}/24"))
        put(root, "etc/systemd/network/cable.network", own)
        must("mke2fs", "-q", "-t", "ext4", "-d", root, f"{node}.img", "3G")
        must("truncate", "-s", "1G", f"{node}.data")


def front(repository):
    """The front's file, for a vault on another machine."""
    told = must("sh", f"{repository}/trials/shared/elsewhere.sh", repository, os.getcwd())
    with open("haproxy.cfg", "w") as file:
        file.write(changed(told, *HERE))


def main(program, repository):
    repository = os.path.abspath(repository)
    deploy = f"{repository}/deploy"
    root = f"{os.getcwd()}/root"
    must("cp", "-a", "--reflink=auto", made_base(root), root)
    certificates()
    installed(root, program, repository)
    of_standby(root, deploy)
    entered(root)
    disks(root, deploy)
    shutil.rmtree(root)
    front(repository)


if __name__ == "__main__":
    main(*sys.argv[1:])
