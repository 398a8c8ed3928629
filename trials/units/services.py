"""A port that another vault has, and a service that hangs."""

from units.disks import awaited

ANOTHER = """install -d -m 700 -o vault -g vault /var/lib/vault-{name}
echo PORT=8088 > /etc/vault/{name}.env
asvault vault merchant /var/lib/vault-{name}/vault.db shop2 60 60
"""
# One that listens, and never answers. Its unit has the real program again for the next start.
DEAF = """mkdir -p /etc/systemd/system/vault.service.d
cat > /etc/systemd/system/vault.service.d/deaf.conf <<'END'
[Service]
ExecStart=
ExecStart=/usr/bin/perl -MIO::Socket::INET -e \
    '$$it = IO::Socket::INET->new(Listen => 9, LocalAddr => "127.0.0.1:8087"); sleep'
END
systemctl daemon-reload; systemctl restart vault; systemctl is-active vault
rm /etc/systemd/system/vault.service.d/deaf.conf; systemctl daemon-reload
"""


def jumped(step):
    """A run that a clock ended is told as the next one starts."""
    drop = "/etc/systemd/system/vault.service.d"
    ended = f"""mkdir -p {drop}
cat > {drop}/ended.conf <<'END'
[Service]
ExecStart=
ExecStart=/bin/sh -c 'echo vault: stopped 60 >&2; exit 4'
END
systemctl daemon-reload; ! systemctl restart vault; rm {drop}/ended.conf; systemctl daemon-reload
"""
    told = awaited("alarms | grep 'ended by a clock that jumped'", 30) + awaited("$lib/answers vault", 30)
    step("an end by the clock is told", ended + told, "vault.service: was ended by a clock", seconds=90)
    again = "systemctl restart vault; sleep 1; alarms | grep -c 'by a clock'"
    step("and told once", again, "^[1-3]$")


def killed_frozen(step):
    """A service that is killed while it is frozen starts again, and its next copy is of one instant."""
    kill = """systemctl freeze vault; kill -9 $(systemctl show -p MainPID --value vault); sleep 1
$lib/thaw vault 2> /dev/null
"""
    copy = "systemctl start vault-backup; systemctl show -p FreezerState --value vault"
    back = awaited("$lib/answers vault", 120)
    step("a frozen one that is killed", kill + back + copy, "^running$", seconds=200)


def others_port(step):
    """A start of a vault whose port another one has isn't told as one that went well."""
    both = ANOTHER.format(name="north") + ANOTHER.format(name="south") + "systemctl start vault@north"
    step("a second vault", both, "")
    # its file takes a while to open, so that its port is looked for before it ends
    slow = """mkdir -p /etc/systemd/system/vault@south.service.d
cat > /etc/systemd/system/vault@south.service.d/slow.conf <<'END'
[Service]
ExecStart=
ExecStart=/bin/sh -c "sleep 1; exec vault serve --port 8088 /var/lib/vault-south/vault.db"
END
systemctl daemon-reload
timeout 20 systemctl start vault@south
"""
    step("another's port is no start", slow, "", well=False)
    waits = awaited("journalctl -u vault@south -o cat --no-pager | grep 'waits for 4 s'", 30)
    step("its pauses grow", waits, "waits for 4 s", seconds=60)
    ends = "systemctl stop vault@south vault@north; systemctl reset-failed vault@south 2> /dev/null || true"
    step("both stop", ends, "")


def hangs(step):
    """A service that hangs is started again, and that is told."""
    sooner = """mkdir -p /etc/systemd/system/vault-watch@.service.d
printf '[Service]\\nEnvironment=SILENT=2\\n' > /etc/systemd/system/vault-watch@.service.d/trial.conf
systemctl daemon-reload; systemctl restart vault-watch@vault.service
systemctl is-active vault-watch@vault.service
"""
    step("the watch runs", sooner, "^active$")
    back = awaited("$lib/answers vault", 90)
    frozen = "systemctl freeze vault\n" + back + awaited("alarms | grep 'was frozen'", 10)
    step("one that was left frozen goes on", frozen, "vault.service: was frozen, and goes on", seconds=120)
    silent = DEAF + awaited("alarms | grep 'is silent'", 60) + back
    step("one that never answers is started again", silent, "vault.service: is silent", seconds=180)
    ends = awaited('[ "$(systemctl show -p ActiveState --value vault-watch@vault.service)" = inactive ]', 30)
    step("the watch ends with its service", "systemctl stop vault\n" + ends, "", seconds=60)
    begins = "systemctl start vault\n" + awaited("systemctl is-active vault-watch@vault.service", 10)
    step("and begins with it", begins, "^active$")
