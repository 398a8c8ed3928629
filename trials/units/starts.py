"""What comes before a start, and an operator's orders: restarts, a hangup, and lists that others may write."""

from units.disks import awaited

LISTS = """printf '[shop1]\\nsingle = 86400\\nmulti = 31536000\\n# end\\n' > /etc/vault/merchants.toml
printf '[back]\\nshop1 = ["detokenize", "view", "revoke", "purge", "audit"]\\n' > /etc/vault/rights.toml
for till in 1 2 3 4; do printf "[till-$till]\\nshop1 = ['tokenize']\\n"; done >> /etc/vault/rights.toml
echo '# end' >> /etc/vault/rights.toml
mkdir -p /etc/systemd/system/vault.service.d
cat > /etc/systemd/system/vault.service.d/lists.conf <<'END'
[Service]
Environment="OPTIONS=--merchants /etc/vault/merchants.toml --rights /etc/vault/rights.toml"
END
systemctl daemon-reload; systemctl restart vault; systemctl is-active vault
"""
# What lets others write a list, and how that ends.
OPEN = {
    "a list that all may write": ("chmod 666 /etc/vault/rights.toml", "chmod 644 /etc/vault/rights.toml"),
    "one that a group may write": ("chmod 664 /etc/vault/rights.toml", "chmod 644 /etc/vault/rights.toml"),
    "one of another account": ("chown nobody /etc/vault/rights.toml", "chown root /etc/vault/rights.toml"),
    "a folder that all may write": ("chmod 1777 /etc/vault", "chmod 755 /etc/vault"),
    "a folder above it of another account": ("chown nobody /etc", "chown root /etc"),
    "a link on the way in another's folder": (
        "cd /etc/vault; mv rights.toml real.toml; mkdir -m 777 /srv/open\n"
        "ln -s /etc/vault/real.toml /srv/open/to; ln -s /srv/open/to rights.toml",
        "cd /etc/vault; rm -r rights.toml /srv/open; mv real.toml rights.toml",
    ),
}
SAID = "journalctl -u vault -n 12 -o cat --no-pager"
STOPS = "systemctl stop vault; systemctl reset-failed vault 2> /dev/null || true\n"


def orders(step):
    """An operator's restarts wait for nothing; a hangup and a reload change nothing."""
    four = """date +%s > /srv/since; begun=$(date +%s)
for turn in 1 2 3 4; do systemctl restart vault; $lib/answers vault; done
[ $(($(date +%s) - begun)) -le 12 ]; ! journalctl -u vault -o cat --since @$(cat /srv/since) | grep 'in a row'
"""
    step("restarts in a row wait for nothing", four, r"\A\Z")
    killed = "kill -9 $(systemctl show -p MainPID --value vault)\n"
    row = awaited("journalctl -u vault -o cat --since @$(cat /srv/since) | grep 'start 2 in a row'", 20)
    step("ends that nobody ordered do", killed + row, "waits for 2 s", seconds=60)
    by_hand = "systemctl restart vault; $lib/answers vault; systemctl is-active vault"
    step("a restart ends the row", by_hand, "^active$")
    same = """begun=$(systemctl show -p InvocationID --value vault)
kill -HUP $(systemctl show -p MainPID --value vault); systemctl kill -s HUP vault
systemctl reload vault; $lib/answers vault
[ $(systemctl show -p InvocationID --value vault) = $begun ]
cat /proc/$(systemctl show -p MainPID --value vault)/comm
"""
    step("a hangup and a reload leave it as it is", same, r"\Avault\n\Z")


def lists(step):
    """A list that others may write keeps the service from starting, and says so. The watch tells of it too."""
    step("with lists", LISTS, "^active$")
    for name, (opened, closed) in OPEN.items():
        start = f"{STOPS}{opened}\n! timeout 20 systemctl start vault; {SAID}\n"
        line = r"check-lists: /etc/vault/(rights|merchants).toml can be written by others: /"
        step(f"{name} is refused", start, rf"{line}.* has owner and mode[\s\S]*status=78")
        step(f"{name}: it starts again", f"{closed}\n{STOPS}systemctl start vault; $lib/answers vault", "")
    own = "chown vault /etc/vault/rights.toml; systemctl restart vault; systemctl is-active vault"
    step("one of the service's account is taken", own, "^active$")
    told = "chmod 666 /etc/vault/rights.toml; systemctl restart vault-watch@vault.service\n"
    told += awaited("alarms | grep -q 'safe: check-lists'", 20) + "alarms; chmod 644 /etc/vault/rights.toml"
    wanted = "vault.service: isn't safe: check-lists: /etc/vault/rights.toml"
    step("one that is opened while it runs is told", told, wanted)
    gone = "rm /etc/systemd/system/vault.service.d/lists.conf; systemctl daemon-reload\n"
    step("without lists", gone + "systemctl restart vault", "")
