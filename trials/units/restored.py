"""What is asked of a copy, what is restored from one, and what is taken away again afterwards."""

LOOK = """newest=$(ls $copies/*.sound | tail -n 1); sum=$(cat ${{newest%.sound}}* | sha256sum)
vault-look {words}
[ "$sum" = "$(cat ${{newest%.sound}}* | sha256sum)" ]; systemctl is-active vault
"""
ASK = """ask() {
    curl -s -w ' %{http_code}\\n' -H "X-Vault-Caller: $1" -H "X-Vault-Request: 77000000$4" ${5:+-d "$5"} -X "$2" \\
        http://127.0.0.1:8087/v1/merchants/shop1/$3
}
body='{"number":"4111111111111111","use":"single"}'
token() { ask till-1 POST tokens $1 "$body" | sed 's/.*"token":"\\([0-9]*\\)".*/\\1/'; }
number() { for it; do ask back POST tokens/$it/number; done; }
"""


def looked_at(step):
    """What is asked of the newest copy stops nothing and changes nothing."""
    step("a list of the newest copy", LOOK.format(words="list"), r"^merchant shop1 single [\s\S]*^active$")
    step("a check of it", LOOK.format(words="check"), r"^sound 1 [\s\S]*^active$")
    rights = "printf '[back]\\nshop1 = [\"view\"]\\n' > /srv/rights.toml\n"
    changes = LOOK.format(words="rights /srv/rights.toml")
    step("what a rights file would change", rights + changes, r"back shop1 purge[\s\S]*^active$")
    step("words that it hasn't", "vault-look purge", "vault-look .*list", well=False)


def forged(step):
    """What an account without rights sends in HAProxy's name doesn't come into the front's logs."""
    installed = """apt-get install -y haproxy rsyslog > /dev/null
install -d /var/log/vault; install -d -m 750 -g haproxy /var/lib/haproxy/vault
install -m 644 /usr/share/vault/examples/logs/rsyslog.conf /etc/rsyslog.d/48-vault.conf
systemctl restart rsyslog
line() { printf '{"time":"2026-12-01T00:00:00Z","caller":"%s","status":200}|{"asked":"purge"}' $1; }
as() {
    setpriv --reuid=$1 --regid=$(id -g $1) --clear-groups -- \\
        logger --socket-errors=on -t haproxy -p local0.info "$2" "$3" "$4" || echo not sent
}
as haproxy -u /var/lib/haproxy/vault/log "$(line first)"
systemctl restart rsyslog; as haproxy -u /var/lib/haproxy/vault/log "$(line second)"
sleep 1; cat /var/log/vault/front.log; stat -c '%a %U %G' /var/lib/haproxy/vault /var/log/vault/taken.log
"""
    own = r'"first"[\s\S]*"second".*\n750 root haproxy\n640 root adm$'
    step("what HAProxy sends comes in, also once rsyslog was restarted", installed, own)
    others = """for socket in /dev/log /run/systemd/journal/syslog /var/lib/haproxy/dev/log; do
    as nobody -u $socket "$(line director)"
done
as nobody -u /var/lib/haproxy/vault/log "$(line director)"
sleep 1; ! grep -r director /var/log/vault; grep -c director /var/log/haproxy.log; rm /var/log/vault/*
"""
    step("what another account sends doesn't", others, r"Permission denied\nnot sent\n[1-4]\n\Z")


def taken_again(step):
    """A restore revives what was taken away since, until it is taken away again from the front's log."""
    before = ASK + """one=$(token 1); two=$(token 2); three=$(token 3)
systemctl start vault-backup; copy=$(ls $copies/*.sound | tail -n 1); copy=${copy%.sound}
after=$(token 4)
for it in $one $two $after; do ask back POST tokens/$it/revoke; done; ask back DELETE tokens/$two
number $one $two
"""
    step("two are taken away after a copy", before, r"(.*true. 200\n){4}.*15. 410\n.*14. 410")
    log = """mkdir -p /var/log/vault; log() {
    printf '{"time":"%s","caller":"back","merchant":"shop1","token":"%s","asked":"%s","status":200}\\n' "$@"
}
now=$(date -u +%Y-%m-%dT%H:%M:%S+00:00)
{ log $now $two purge; log $now $after revoke; } > /var/log/vault/taken.log
{ log 2020-01-01T00:00:00+00:00 $three revoke; log $now $one revoke; log $now $two revoke; } |
    gzip > /var/log/vault/taken.log-1.gz
"""
    restore = """systemctl stop vault; rm $file $file-wal
asvault $lib/restore.sh $copy $file; systemctl start vault; number $one $two
"""
    step("a restore revives them", log + restore, r"^sound 1 [\s\S]*1111.. 200\n.*1111.. 200")
    unasked = "$lib/again.sh $copy || [ $? = 2 ] && number $one $two"
    wanted = r"^back at shop1: revoke 3 purge 1$[\s\S]*nothing was done[\s\S]*1111.. 200\n.*1111.. 200"
    step("without a word for it nothing is done", unasked, wanted)
    # what no front writes stands before the lines that one wrote, and after them
    forged = """cp /var/log/vault/taken.log /srv/taken
{ log foo $three revoke; log $now "[1000000000001111-1000000000003111]/revoke#" purge; cat /srv/taken
printf '\\033]0;pwn\\007\\n'; log 2026-02-30T00:00:00Z $three revoke; } > /var/log/vault/taken.log
"""
    again = "$lib/again.sh --yes $copy; number $one $two $three"
    taken = r"[\s\S]*15. 410\n.*14. 410\n.*1111.. 200"
    step("they are taken away again", forged + again, rf"^again 3 unknown 1 refused 4${taken}", well=False)
    clean = "cp /srv/taken /var/log/vault/taken.log\n"
    step("and once more changes nothing", clean + again, rf"^again 3 unknown 1 refused 0${taken}")
    nobody = "sed -i 's/\"back\"/\"till-1\"/' /var/log/vault/taken.log; $lib/again.sh --yes $copy"
    step("one that is refused is said", nobody, r"^till-1 at shop1: [\s\S]*refused 2$", well=False)
    fewer = "systemctl start vault-backup; systemctl is-failed vault-backup; cat $copies/*.sound | tail -n 1"
    step("the next copy may have fewer", fewer, "^sound 1 ", well=False)


def cut_off(step):
    """A restore that is killed at any of its steps leaves the file under one name, or under none."""
    steps = """mkdir -p /srv/cut
cat > /srv/cut/one <<'END'
#!/bin/sh
name=${0##*/}
echo "$name $*" >> /srv/cut/called
[ "$(wc -l < /srv/cut/called)" != "$(cat /srv/cut/at)" ] || kill -9 $PPID
PATH=${PATH#/srv/cut:} exec "$name" "$@"
END
chmod 755 /srv/cut/one; for name in cp ln mv rm sync vault; do ln -sf one /srv/cut/$name; done
install -d -o vault /srv/there; chmod 777 /srv/cut
for at in $(seq 12); do
    echo $at > /srv/cut/at; : > /srv/cut/called; chmod 666 /srv/cut/called; rm -f /srv/there/*
    PATH=/srv/cut:$PATH asvault $lib/restore.sh $copy /srv/there/vault.db > /dev/null 2>&1 || true
    [ ! -e /srv/there/vault.db ] || asvault vault check /srv/there/vault.db
    stat -c '%n %h' /srv/there/* 2> /dev/null | grep ' [2-9]$' || true
done
echo over
"""
    step("a restore that is cut off", steps, r"\A(sound 1 .*\n(vault: .*\n)?)+over\n\Z")
