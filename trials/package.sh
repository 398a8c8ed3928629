#!/bin/sh
# The package and the unit: built, looked at by lintian and systemd-analyze, and installed, run and removed
# where that is allowed. sh trials/package.sh [PROGRAM]
set -eu
. "$(dirname "$0")/shared/begin.sh"
. "$here/shared/steps.sh"

deploy=$here/../deploy
step "the package is built" "$(holds sh "$deploy/package.sh" "$program" .)" "$(cat said 2> /dev/null || :)"
package=$(echo vault_*_amd64.deb)
if need lintian lintian; then
    step "lintian finds no error" "$(holds lintian --fail-on error --allow-root "$package")" "$(cat said)"
else
    echo "lintian isn't there: that step is left out"
fi

# What is in it: what the pages and the package itself name.
dpkg-deb -c "$package" | awk '{ print $1, $6 }' > inside
step "its root is open" "$(holds grep -qx 'drwxr-xr-x ./' inside)" "$(head -n 1 inside)"
for name in OPERATING.md SCALE.md STANDBY.md API.md REFUSALS.md PROVED.md SECURITY.md CHANGELOG.md \
    openapi.yaml TRIALS.md; do
    step "$name is in it" "$(holds grep -q " ./usr/share/doc/vault/$name\$" inside)"
done
for name in examples/nginx.conf examples/certificates.sh examples/rebuild.sh examples/clients/till.py \
    examples/clients/back_office.py examples/clients/batch.py examples/haproxy.cfg examples/alerts.yaml \
    examples/logs/logrotate examples/logs/rsyslog.conf examples/logs/who.py \
    examples/standby/vault.res examples/standby/corosync.conf examples/standby/cluster.crm \
    examples/standby/standby.conf examples/standby/cable.network examples/standby/relay.cfg \
    office/index.html office/office.css office/office.js; do
    step "$name is in it" "$(holds grep -q " ./usr/share/vault/$name\$" inside)"
done
step "vault-look is in it" "$(holds grep -q ' ./usr/bin/vault-look$' inside)"
step "its words are completed" "$(holds grep -q ' ./usr/share/bash-completion/completions/vault-look$' inside)"
# The units that are in it.
mkdir units
step "the units are made" "$(holds sh "$deploy/units.sh" units)" "$(cat said)"
left=$(grep '%i\|^#one' units/vault.service units/vault-backup.service units/vault-backup.timer || :)
step "those for one vault name no instance" "$([ -z "$left" ] && echo yes || echo no)" "$left"
# What a unit or one of its scripts calls is in it, and isn't among the documents, which an image may leave
# out.
grep '^Exec' units/*.service | grep -o '/usr/\(bin\|lib/vault\)/[^ ]*' | grep vault > called
for script in $(sed -n 's#^/usr/lib/vault/##p' called | sort -u); do
    grep -o '/usr/lib/vault/[a-z.-]*\|\$lib/[a-z.-]*' "$deploy/$script" | sed 's#^\$lib#/usr/lib/vault#' || :
done >> called
for name in $(sort -u called); do
    step "$name is in it, which a unit calls" "$(holds grep -q " .$name\$" inside)"
done
documents=$(grep /usr/share/doc called || :)
step "no unit needs a document" "$([ -z "$documents" ] && echo yes || echo no)" "$documents"
dpkg-deb -f "$package" > control
step "its address can be written to" "$(if grep -qi noreply control; then echo no; else echo yes; fi)"

# The units, with programs that are there.
mkdir unit
for unit in units/*; do
    sed -e "s#/usr/bin/vault#$program#" -e "s#/usr/lib/vault/#$PWD/lib/#" "$unit" > "unit/${unit##*/}"
done
mkdir lib
for name in $(sed -n 's#^/usr/lib/vault/##p' called | sort -u); do cp "$deploy/$name" lib; done
if need systemd-analyze systemd; then
    step "the units are verified" "$(holds systemd-analyze verify --man=no unit/*)" "$(cat said)"
    step "nothing is said of them" "$([ -s said ] && echo no || echo yes)" "$(cat said)"
    systemd-analyze security --offline=yes unit/vault.service > said
    level=$(sed -n 's/.*exposure level.*: \([0-9.]*\) .*/\1/p' said)
    small=$(awk -v it="$level" 'BEGIN { print it != "" && it <= 1.5 ? "yes" : "no" }')
    step "its exposure is at most 1.5" "$small" "$level"
    # one of several vaults has the same rules but for its name and its port
    diff units/vault.service units/vault@.service | sed -n 's/^[<>] //p' | grep -v '^#' > differs || :
    own='Description|Environment|EnvironmentFile|ExecStart|ExecStartPre|SocketBindAllow'
    own="$own|StateDirectory|RuntimeDirectory|AssertPathExists|RequiresMountsFor"
    grep -Evx "($own)=.*" differs > others || :
    step "one of several vaults has the same rules" "$([ -s others ] && echo no || echo yes)" "$(cat others)"
    diff units/vault-backup.service units/vault-backup@.service | sed -n 's/^[<>] //p' |
        grep -Ev '^(#.*|(Description|Environment|ExecStopPost)=.*)$' > others || :
    step "so has a copy of one" "$([ -s others ] && echo no || echo yes)" "$(cat others)"
    systemd-analyze security --offline=yes unit/vault-backup.service > said
    level=$(sed -n 's/.*exposure level.*: \([0-9.]*\) .*/\1/p' said)
    small=$(awk -v it="$level" 'BEGIN { print it != "" && it <= 3.5 ? "yes" : "no" }')
    step "the exposure of a copy is at most 3.5" "$small" "$level"
else
    echo "systemd-analyze isn't there: those steps are left out"
fi

# The words of the completions are those of the help.
words=$("$program" help | sed -n 's/^  \([a-z]*\)  .*/\1/p' | tr '\n' ' ')
completed=$(sed -n 's/^    local commands="\(.*\)"$/\1/p' "$deploy/vault.bash-completion")
step "the commands are completed" "$([ "$words" = "$completed " ] && echo yes || echo no)" "$words"
for command in $completed; do
    [ "$command" != help ] || continue
    "$program" help "$command" | sed -n 's/^ *\(-h, \)\{0,1\}\(--[a-z-]*\).*/\2/p' | sort > options
    bash -c '. "$1"; COMP_WORDS=(vault "$2" -) COMP_CWORD=2; _vault; printf "%s\n" "${COMPREPLY[@]}"' \
        bash "$deploy/vault.bash-completion" "$command" | sort > offered
    step "the options of $command are completed" "$(holds diff options offered)" "$(cat said)"
done

# So are those of vault-look.
"$deploy/vault-look" help 2>&1 | sed -n 's/^vault-look \[--folder FOLDER\] \([a-z]*\).*/\1/p' | sort > words
bash -c '. "$1"; COMP_WORDS=(vault-look "") COMP_CWORD=1; _vault_look; printf "%s\n" "${COMPREPLY[@]}"' \
    bash "$deploy/vault.bash-completion" | grep -v '^--' | sort > offered
step "the words of vault-look are completed" "$(holds diff words offered)" "$(cat said)"

# Installed, run and removed, by root and where no vault is: nothing of one that is there is touched.
is_free() { [ ! -e /usr/bin/vault ] && [ ! -e /var/lib/vault ] && ! getent passwd vault > /dev/null; }
may_install() { [ "$(id -u)" = 0 ] && [ -w /usr/bin ] && [ -w /var/lib/dpkg ]; }
if may_install && [ "${TRY_INSTALL:-1}" = 1 ] && is_free; then
    step "it is installed" "$(holds apt-get install -y "./$package")" "$(tail -n 3 said)"
    step "its program runs" "$(holds /usr/bin/vault --version)" "$(cat said)"
    owner=$(stat -c '%U %a' /var/lib/vault)
    step "its folder is its user's" "$([ "$owner" = "vault 700" ] && echo yes || echo no)" "$owner"
    runuser -u vault -- vault merchant /var/lib/vault/trial.db shop1 60 0 > /dev/null
    step "it is removed" "$(holds apt-get purge -y vault)" "$(tail -n 3 said)"
    step "its program is gone" "$([ ! -e /usr/bin/vault ] && echo yes || echo no)"
    step "and a vault's file stays" "$([ -s /var/lib/vault/trial.db ] && echo yes || echo no)"
    rm -rf /var/lib/vault
    deluser --quiet vault > said 2>&1 || :
else
    echo "it isn't installed here: root does that too, where there is no vault and TRY_INSTALL isn't 0"
fi
counted
