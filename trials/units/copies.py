"""Copies of a vault that serves: under load, ended at each step, too long, and of an older vault."""

import re

from shared.asking import Asked

WAYS = {"frozen by systemd": "", "stopped by a signal": "FREEZER=no"}
BACKUP = "FOLDER=$copies DAYS=14 {way} $lib/backup-now\n"
# Each of these programs is one that a copy calls: the one that is the AT-th to be called says so, and sleeps.
CALLED = "cp install mv nice setpriv sync systemctl vault find cmp"
STEPS = f"""mkdir -p /srv/steps; : > /srv/steps/called; chmod 666 /srv/steps/called
cat > /srv/steps/one <<'END'
#!/bin/sh
name=${{0##*/}}
echo "$name $*" >> /srv/steps/called
if [ "$(wc -l < /srv/steps/called)" = "$(cat /srv/steps/at)" ] && [ ! -e /srv/steps/reached ]; then
    touch /srv/steps/reached
    sleep 20
fi
PATH=${{PATH#/srv/steps:}} exec "$name" "$@"
END
chmod 755 /srv/steps/one
for name in {CALLED}; do ln -sf one /srv/steps/$name; done
mkdir -p /etc/systemd/system/vault-backup.service.d
cat > /etc/systemd/system/vault-backup.service.d/steps.conf <<'END'
[Service]
Environment=PATH=/srv/steps:/usr/sbin:/usr/bin:/sbin:/bin
END
echo 0 > /srv/steps/at; chmod 644 /srv/steps/at; chmod 777 /srv/steps
systemctl daemon-reload; systemctl start vault-backup; cat /srv/steps/called
"""
# A copy up to one of its steps.
UP_TO = """echo {at} > /srv/steps/at; : > /srv/steps/called; rm -f /srv/steps/reached
{begin}
for turn in $(seq 200); do [ -e /srv/steps/reached ] && break; sleep 0.05; done
[ -e /srv/steps/reached ]
"""
# Ends the unit's copy there; how long the service's next answer takes, and what is left.
BEGIN = """systemctl reset-failed vault-backup 2> /dev/null || true
systemctl start --no-block vault-backup
"""
END = """all="systemctl kill -s KILL vault-backup"
{how}
since=$(date +%s%N); $lib/answers vault; echo answered $((($(date +%s%N) - since) / 1000000))
for turn in $(seq 100); do
    case $(systemctl show -p ActiveState --value vault-backup) in failed | inactive) break ;; esac
    sleep 0.1
done
echo freezer $(systemctl show -p FreezerState --value vault)
for sound in $copies/*.sound; do [ -e ${{sound%.sound}} ] || echo "no copy of $sound"; done
"""
ENDS = {
    "TERM": "systemctl kill -s TERM vault-backup",
    "KILL": "systemctl kill -s KILL vault-backup",
    "HUP": "systemctl kill -s HUP vault-backup",
    "KILL of the script": "systemctl kill --kill-who=main -s KILL vault-backup 2> /dev/null || $all",
    "stop": "systemctl stop vault-backup",
}


def timers(step):
    """A copy that was missed waits for the next night."""
    stamp = "/var/lib/systemd/timers/stamp-vault-backup.timer"
    missed = f"""mkdir -p {stamp.rpartition("/")[0]}; touch -d '2 days ago' {stamp}
printf '[Timer]\\nRandomizedDelaySec=0\\n' > /run/systemd/no-delay.conf
install -D /run/systemd/no-delay.conf /run/systemd/system/vault-backup.timer.d/no-delay.conf
systemctl daemon-reload; systemctl start vault-backup.timer; sleep 2; systemctl stop vault-backup.timer
ls $copies 2> /dev/null | wc -l
"""
    step("a missed copy isn't made in the morning", missed, "^0$")
    level = "systemd-analyze security vault-backup.service | tail -n 1"
    step("its fences", level, r"level for vault-backup.service: [0-3]\.")


def clustered(tally, machine, step):
    """A service that a cluster runs isn't copied, upgraded or removed, and stays as it is."""
    begun = invocation(machine)
    of_pacemaker = "/run/systemd/system/vault.service.d"
    begin = f"""install -d {of_pacemaker}
printf '[Unit]\\nDescription=Cluster Controlled vault\\n' > {of_pacemaker}/50-pacemaker.conf
systemctl daemon-reload
"""
    refused = "a cluster runs vault, so nothing is copied here"
    step("a cluster's service isn't copied", begin + BACKUP.format(way=""), refused, well=False)
    upgrade = "apt-get install -y --reinstall /srv/vault_*.deb"
    refused = "A cluster runs vault.service here, so nothing is changed"
    step("nor upgraded", upgrade, refused, well=False)
    refused = "A cluster runs vault.service here, so nothing is removed"
    step("nor removed", "apt-get remove -y vault", refused, well=False)
    tally.judge("and it goes on", ends_since(machine, begun))
    end = f"""rm -r {of_pacemaker}; systemctl daemon-reload
echo vault install | dpkg --set-selections; dpkg -s vault
"""
    step("it is installed still", end, "^Status: install ok installed$")


def under_load(tally, machine, step, freezes):
    """Copies and freezes by both ways while four clients ask: nothing is refused, and nothing lost."""
    begun = invocation(machine)
    for way, word in WAYS.items():
        with Asked(machine) as asked:
            copy = BACKUP.format(way=word) + "sleep 1\n"
            step(f"copies, {way}", copy * 3, r"(frozen for[\s\S]*copy sound 1 [\s\S]*){3}")
            frozen = freezing(freezes, word)
            step(f"{freezes} freezes, {way}", frozen, f"^frozen {freezes}$", seconds=60 + freezes)
        tally.judge(f"{way}, each request is answered, and again the same", asked.fault)
        told = asked.told
        again = f"{told.get('again')} asked again, the longest wait {told.get('longest')} s"
        print(f"{way}: {told.get('answered')} requests, {again}")
        tally.judge(f"{way}, the service didn't end", ends_since(machine, begun))
    by_unit = "systemctl start vault-backup; systemctl is-active vault; cat $copies/*.sound | tail -n 1"
    step("the unit's copy", by_unit, r"^active\nsound 1 [0-9]+ [0-9]+$")


def invocation(machine):
    """The service's run, by a name that each start gets anew."""
    return machine.type("systemctl show -p InvocationID --value vault")[1].strip()


def ends_since(machine, begun):
    """What the journal says of the service where it isn't the same run any more."""
    if invocation(machine) == begun:
        return ""
    return machine.type("journalctl -u vault -o cat --no-pager | tail -n 8")[1] or "it ended"


def freezing(many, word):
    """Freezes the service so many times, and lets it go on after a while."""
    if word:
        pair = "kill -STOP $process; sleep 0.01; kill -CONT $process"
    else:
        pair = "systemctl freeze vault; systemctl thaw vault"
    return f"""process=$(systemctl show -p MainPID --value vault); done=0
for turn in $(seq {many}); do {pair} && done=$((done + 1)); sleep 0.0$((RANDOM % 9)); done
$lib/answers vault; echo frozen $done
"""


def ended(tally, machine, step, *, every):
    """A copy that is ended at each of its steps: the service answers within a second."""
    begun = invocation(machine)
    told = machine.type(STEPS)[1]
    steps = [line for line in told.splitlines() if line.split()[0] in CALLED.split()]
    tally.judge("a copy has its steps", "" if len(steps) > 15 else told[-400:])
    for at, called in enumerate(steps, 1):
        ways = ENDS if every else [list(ENDS)[at % len(ENDS)]]
        for way in ways:
            well, told = machine.type(UP_TO.format(at=at, begin=BEGIN) + END.format(how=ENDS[way]))
            answered = re.search(r"^answered ([0-9]+)$", told, re.M)
            soon = well and answered and int(answered[1]) < 1000 and "freezer running" in told
            fault = "" if soon and "no copy of" not in told else told[-300:]
            tally.judge(f"{way} at step {at}, {called[:40]}", fault)
    frozen = next(at for at, called in enumerate(steps, 1) if "--bytes" in called)
    late = """printf '[Service]\\nTimeoutStartSec=2\\n' > /etc/systemd/system/vault-backup.service.d/late.conf
systemctl daemon-reload
"""
    limit = late + UP_TO.format(at=frozen, begin=BEGIN) + END.format(how="sleep 2.5")
    step("a time limit", limit, r"answered [0-9]{1,3}$")
    gone = """rm /etc/systemd/system/vault-backup.service.d/late.conf; systemctl daemon-reload
echo 0 > /srv/steps/at; systemctl reset-failed vault-backup; alarms
"""
    so = "vault-backup.service: has failed: there is no new copy; vault.service answers"
    step("the alarm says what is so", gone, so)
    begin = "PATH=/srv/steps:$PATH FOLDER=$copies DAYS=14 $lib/backup-now > /srv/by-hand 2>&1 & copy=$!"
    by_hand = UP_TO.format(at=frozen, begin=begin) + """kill -9 $copy; sleep 0.5
systemctl show -p FreezerState --value vault; echo 0 > /srv/steps/at
rm -r /etc/systemd/system/vault-backup.service.d; systemctl daemon-reload
"""
    step("one by hand that is killed", by_hand, "^running$")
    tally.judge("no end of a copy ended the service", ends_since(machine, begun))


def too_long(step):
    """A copy that takes too long: the service goes on, and there is no copy."""
    slow = """mkdir -p /srv/slow; printf '#!/bin/sh\\nsleep 3\\nexec /usr/bin/cp "$@"\\n' > /srv/slow/cp
chmod 755 /srv/slow/cp; before=$(ls $copies/*.sound | wc -l)
PATH=/srv/slow:$PATH FREEZE_MOST=1 FOLDER=$copies DAYS=14 $lib/backup-now & copy=$!
sleep 2; answers 5; ! wait $copy; [ $(ls $copies/*.sound | wc -l) = $before ]
"""
    step("a copy that takes too long", slow, "ran while it was copied")


def ahead(step):
    """A merchant whose moment is ahead of the clock is told with the next copy."""
    grant = "asvault vault grant --now $(($(date +%s) + 864000)) $file back shop1 tokenize"
    moved = f"""systemctl stop vault; cp -a /var/lib/vault /srv/kept; {grant}
systemctl start vault-backup; systemctl start vault; systemctl start vault-backup; alarms | grep moment
"""
    told = r"(^vault: has a moment more than a day ahead of the clock: shop1\n){2}"
    step("a moment that is ahead is told", moved, told)
    back = """systemctl stop vault; rm /var/lib/vault/* $copies/*
cp -a /srv/kept/. /var/lib/vault/; rm -r /srv/kept
systemctl start vault; systemctl start vault-backup; alarms | grep -c moment
"""
    step("one that isn't is not", back, "^2$")


def fewer(step):
    """A copy with fewer tokens than the one before isn't one, but after a restore."""
    more = """last=$(ls $copies/*.sound | tail -n 1); sed -i 's/^sound 1 /sound 2 /' $last
systemctl start vault-backup
"""
    step("a copy of an older vault is refused", more, "", well=False)
    told = "journalctl -u vault-backup -o cat --no-pager | tail -n 20"
    step("and that is told", told, "where the one before has sound 2 .*: was an older vault put in its place")
    again = """sed 's/^sound 2 /sound 1 /' $last > $copies/restored; chown vault $copies/restored
systemctl reset-failed vault-backup; systemctl start vault-backup; ls $copies/restored
"""
    step("after a restore it is one", again, "No such file", well=False)
