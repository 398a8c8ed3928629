"""Another account of the machine at the vault's port: whatever keeps the vault away, it isn't sent a byte, and
an alarm names it. Without the rule for the port nothing starts, and an alarm tells of that too."""

import os

from shared.machine import says
from units.disks import BACK, VOLUME, awaited

NUMBER = "4000056655665556"
CHECK = "/usr/lib/vault/check-port 8087"
# Parts of the rule, of which none is enough.
TABLE = """table inet vault {{
    chain outgoing {{
        type filter hook output priority filter
{rules}
    }}
}}
"""
ASKING = "meta skuid != { root, www-data, vault } tcp dport 8087-8187 reject with tcp reset"
ANSWERING = "meta skuid { root, vault } tcp sport 8087-8187 accept"
KNOWN = "meta skuid != { root, vault } tcp sport 8087-8187 drop"
UNKNOWN = "tcp flags & syn == syn tcp sport 8087-8187 drop"
# What keeps the vault from listening, and how it listens again.
DROP = "/etc/systemd/system/vault.service.d/slow.conf"
FULL = VOLUME.format(size=48 * 1024, inodes="1k") + """asvault dd if=/dev/zero of=/var/lib/vault/filler \\
    bs=64k status=none 2> /dev/null || true
systemctl start --no-block vault
"""
OPENING = f"""cat > {DROP} <<'END'
[Service]
ExecStart=
ExecStart=/bin/sh -c "sleep 20; exec vault serve --port 8087 $OPTIONS /var/lib/vault/vault.db"
END
systemctl daemon-reload; systemctl restart --no-block vault
"""
AWAY = {
    "a restart": ("systemctl restart --no-block vault\n", ""),
    "a full disk": (FULL, BACK),
    "an opening": (OPENING, f"rm {DROP}; systemctl daemon-reload\n"),
}
SERVES = "systemctl restart vault\n" + awaited("$lib/answers vault", 60)
# Tills, several at a time, while another account is at the port.
THIEF = """systemctl reset-failed thief 2> /dev/null || true
systemctl restart vault-watch@vault.service
date +%s > /srv/since
systemd-run --quiet --unit=thief --uid=nobody -p StandardOutput=truncate:/srv/thief.out \\
    python3 /srv/thief.py 8087 60
"""
TILLS = """for turn in $(seq 11); do
    asking=
    for till in 1 2 3 4 5 6; do
        curl -s -m 1 -o /dev/null -H "X-Vault-Request: $turn$till" -d '{{"number":"{number}","use":"multi"}}' \\
            --cacert {folder}/callers.pem --cert {folder}/back.pem --key {folder}/back.key \\
            https://localhost:8443/v1/merchants/shop1/tokens & asking="$asking $!"
    done
    for one in $asking; do wait $one || true; done
done
"""
TOLD = "journalctl -t vault -o cat --no-pager --since @$(cat /srv/since)"
ENDED = awaited(f"{TOLD} | grep -q 'taken by another'", 30) + "sleep 11; systemctl stop thief; cat /srv/thief.out\n"
HELD = r"has its port 8087 taken by another program: uid 65534 \(nobody\), process [0-9]+ \(python3\)$"


def taken(tally, machine, folder, ways=tuple(AWAY)):
    """Whatever keeps the vault away, nobody else is sent what tills send. Who has the port is told once."""
    with open(f"{os.path.dirname(__file__)}/thief.py") as file:
        machine.put("srv/thief.py", file.read())
    for way in ways:
        begin, back = AWAY[way]
        tills = TILLS.format(folder=folder, number=NUMBER)
        held = r"\A(way [0-3] held, 0 connections, 0 bytes b''\n){4,}\Z"
        attack = THIEF + begin + tills + ENDED
        says(tally, machine, f"{way}: no byte for another account", attack, held, seconds=90)
        told = f"{TOLD} | grep 'taken by another' > /srv/told; cat /srv/told; wc -l < /srv/told"
        says(tally, machine, "who it is is told once", told, rf"{HELD}\n^1$")
        says(tally, machine, "it serves again", back + SERVES, "", seconds=90)


def unguarded(tally, machine):
    """A rule that isn't there, one that lacks a line, and a front that would run without."""
    timed = f"begun=$(date +%s%N); {CHECK}; echo $((($(date +%s%N) - begun) / 1000000))"
    says(tally, machine, "the rule holds, which takes less than a second", timed, r"\A[0-9]{1,3}\n\Z")
    for name, rules, wanted in (
        ("no rule", (), "can ask the vault at port 8087"),
        ("a rule for who connects", (ASKING,), "can take port 8087"),
        ("one for sockets that are known", (ASKING, KNOWN), "can take port 8087"),
        ("one for who listens", (ANSWERING, KNOWN, UNKNOWN), "can ask the vault at port 8087"),
    ):
        machine.put("srv/rule.nft", TABLE.format(rules="\n".join(rules)))
        text = f"nft flush ruleset; nft -f /srv/rule.nft; echo loaded\n{CHECK}"
        says(tally, machine, f"{name} isn't enough", text, rf"\Aloaded\n.*{wanted}", well=False)
    start = "systemctl stop vault; ! systemctl start vault; journalctl -u vault -n 20 -o cat --no-pager\n"
    says(tally, machine, "without it nothing starts", start, "check-port: any account of this machine can ask")
    say_so = """systemctl stop vault; mkdir -p /etc/systemd/system/vault.service.d
printf '[Service]\\nEnvironment=UNGUARDED=yes\\n' > /etc/systemd/system/vault.service.d/unguarded.conf
systemctl daemon-reload; systemctl start vault; systemctl is-active vault
journalctl -u vault -n 20 -o cat --no-pager
rm /etc/systemd/system/vault.service.d/unguarded.conf; systemctl daemon-reload
"""
    unlooked = r"^active$[\s\S]*nobody looks whether port 8087 has its rule"
    says(tally, machine, "but where that is said", say_so, unlooked)
    flushed = """systemctl reload nftables; systemctl restart vault; date +%s > /srv/since; nft flush ruleset
systemctl restart vault-watch@vault.service
"""
    told = awaited(f"{TOLD} | grep -q 'safe: check-port'", 20) + TOLD
    wanted = "vault.service isn't safe: check-port: any account"
    says(tally, machine, "a rule that goes is told", flushed + told, wanted)
    back = "systemctl reload nftables; " + CHECK
    says(tally, machine, "the rule is back", back, r"\A\Z")


def bound(tally, machine, front):
    """A front ends with the rule, and doesn't start without it."""
    ends = f"systemctl is-active {front}; systemctl stop nftables; ! systemctl is-active {front}"
    says(tally, machine, f"{front} ends with the rule", ends, r"^active\ninactive$")
    begins = f"systemctl start {front}; systemctl is-active {front} nftables; {CHECK}"
    says(tally, machine, f"{front} begins with the rule", begins, r"\Aactive\nactive\n\Z")
