#!/bin/sh
# The files of a standby, read by the programs that they are for: HAProxy's, DRBD's, pacemaker's and systemd's.
# Nothing is started, and `take-over` asks stand-ins. Where a program isn't there and can't be installed, its
# steps are left out.
# sh trials/clustered.sh [PROGRAM]
set -eu
. "$(dirname "$0")/shared/begin.sh"
. "$here/shared/steps.sh"
deploy=$(cd "$here/../deploy" && pwd)
standby=$deploy/standby

# The certificates of a front and of a relay, where a file of HAProxy's looks for them.
certified() {
    sh "$deploy/certificates.sh" authority callers
    sh "$deploy/certificates.sh" server callers front.example
    sh "$deploy/certificates.sh" authority machines
    sh "$deploy/certificates.sh" server machines 192.0.2.10
    sh "$deploy/certificates.sh" caller machines front
    mkdir vault
    cp callers/callers.pem callers/revoked.pem callers/server.pem machines/front.pem vault
    cp machines/callers.pem vault/machines.pem
    cp machines/server.pem vault/relay.pem
    cp callers/server.key vault/server.pem.key
    cp machines/front.key vault/front.pem.key
    cp machines/server.key vault/relay.pem.key
}

# Both files of HAProxy's: the relay's, and the front's for a vault on another machine.
fronts() {
    certified
    sed "s#/etc/vault/#$PWD/vault/#g" "$standby/relay.cfg" > relay.cfg
    step "haproxy takes the relay's file" "$(holds haproxy -c -f relay.cfg)" "$(cat said)"
    sh "$here/shared/elsewhere.sh" "$here/.." "$PWD/vault" > front.cfg
    step "haproxy takes the front's for a standby" "$(holds haproxy -c -f front.cfg)" "$(cat said)"
    step "its lines are turned on" "$(holds grep -q '^    option srvtcpka$' front.cfg)"
    step "none is left" "$(holds sh -c '! grep -q "#standby \|127.0.0.1:8087" front.cfg')"
}

# DRBD's file, read as each of both machines reads it. Debian's kernel has DRBD 8.4, whose own reader is asked
# where it is there.
volume() {
    reader=drbdadm
    for one in /lib/drbd/drbdadm-84 /usr/lib/drbd/drbdadm-84; do
        [ ! -x "$one" ] || reader=$one
    done
    printf 'global { usage-count no; }\ninclude "%s";\n' "$standby/vault.res" > drbd.conf
    for node in vault-a vault-b; do
        taken=$(holds env "__DRBD_NODE__=$node" "$reader" -c drbd.conf dump vault)
        step "$reader takes the volume on $node" "$taken" "$(cat said)"
        mv said dumped
        step "a write waits for both there" "$(holds grep -Eq 'protocol[[:space:]]+C;' dumped)" "$(cat dumped)"
    done
    typed
}

# The same file as the page changes it where no cluster runs: a machine that lost the other one writes nothing
# until `outdate` has ended.
typed() {
    turned=$(sed -n "s#^sed -i \(-e .*\) /etc/drbd.d/vault.res\$#\1#p" "$here/../docs/STANDBY.md")
    eval "sed $turned" < "$standby/vault.res" > typed.res
    sed -i 's#include .*#include "typed.res";#' drbd.conf
    taken=$(holds env __DRBD_NODE__=vault-a "$reader" -c drbd.conf dump vault)
    step "$reader takes the volume without a cluster" "$taken" "$(cat said)"
    mv said dumped
    for line in 'fence-peer +"/usr/lib/vault/outdate other";' 'fencing +resource-and-stonith;'; do
        step "it has $line" "$(holds grep -Eq "$line" dumped)" "$(cat dumped)"
    done
    step "and nothing of a cluster" "$(holds sh -c '! grep -q crm- dumped')" "$(cat dumped)"
}

# What `take-over` and `outdate` ask of DRBD, answered by stand-ins: the state is a line in a file.
stand_ins() {
    mkdir bin
    # shellcheck disable=SC2016
    printf '#!/bin/sh\ncase $1 in\nsh-minor) echo 0 ;;\ndump) cat dumped ;;\ndstate) cat disks ;;\n%s' \
        'primary) echo "$*" > primary ;; esac' > bin/drbdadm
    printf '#!/bin/sh\ncat shown\n' > bin/drbdsetup
    chmod 755 bin/drbdadm bin/drbdsetup
    for script in take-over outdate; do
        sed -e "s#/proc/drbd#$PWD/state#; s#/run/#$PWD/#; s#^ends 20 #ends 0 #" "$standby/$script" > "$script"
    done
    echo 'fence-peer "/usr/lib/vault/outdate other";' > dumped
    echo 'fencing resource-and-stonith;' > shown
}

# One takeover: its name, the status it has to end with, what it has to make primary, the connection and the
# disks, and the words after the first one.
took() {
    name=$1 wanted="$2 $3"
    printf ' 0: cs:%s ro:Secondary/Unknown ds:%s C r-----\n' "$4" "$5" > state
    shift 5
    rm -f primary
    status=0
    PATH=$PWD/bin:$PATH sh take-over --power-is-cut "$@" > said 2>&1 || status=$?
    found="$status $(cat primary 2> /dev/null || echo nothing)"
    told=$(cat said)
    step "$name" "$(holds [ "$found" = "$wanted" ])" "$found: $told"
}

# A typed takeover takes a disk that lacks nothing, and refuses each other one.
typed_takeover() {
    stand_ins
    took "a current disk is taken" 0 "primary vault" WFConnection UpToDate/DUnknown
    took "an outdated one isn't" 1 nothing WFConnection Outdated/DUnknown
    took "nor one that started alone" 1 nothing WFConnection Consistent/DUnknown
    took "nor half a copy" 1 nothing WFConnection Inconsistent/DUnknown
    took "nor half a copy by any word" 1 nothing WFConnection Inconsistent/DUnknown --lose-answers
    took "an outdated one is, by a word" 0 "primary --force vault" WFConnection Outdated/DUnknown --lose-answers
    took "nor if the other machine is there" 1 nothing Connected UpToDate/UpToDate
    echo 'fencing dont-care;' > shown
    took "nor if nothing was held back" 1 nothing WFConnection UpToDate/DUnknown
    for case in 0:Outdated/DUnknown 5:Inconsistent/DUnknown 1:UpToDate/UpToDate 1:Consistent/DUnknown; do
        echo "${case#*:}" > disks
        status=0
        PATH=$PWD/bin:$PATH sh outdate this || status=$?
        step "outdate: ${case%%:*} at ${case#*:}" "$(holds [ "$status" = "${case%%:*}" ])" "$status"
    done
}

# pacemaker's: crm reads the file into a cluster of two machines that see each other, and that doesn't run;
# crm_verify judges what came of it. Without its fencing it isn't taken.
cluster() {
    cibadmin --empty > cib.xml
    export CIB_file="$PWD/cib.xml"
    cibadmin --modify --xml-text '<cib have-quorum="1"/>'
    for node in 1:vault-a 2:vault-b; do
        is="id=\"${node%:*}\" uname=\"${node#*:}\""
        cibadmin --create --scope nodes --xml-text "<node $is/>"
        seen='in_ccm="true" crmd="online" join="member" expected="member"'
        cibadmin --create --scope status --xml-text "<node_state $is $seen/>"
    done
    # agents that aren't installed here are a warning of crm's
    crm -F configure load update "$standby/cluster.crm" > crm.said 2>&1 || :
    for name in $(sed -n 's/^\(primitive\|clone\|group\|location\|colocation\|order\) \([a-z-]*\) .*/\2/p' \
        "$standby/cluster.crm"); do
        step "the cluster has $name" "$(holds grep -q "id=\"$name\"" cib.xml)" "$(tail -n 3 crm.said)"
    done
    step "crm_verify takes the cluster" "$(holds crm_verify --xml-file cib.xml)" "$(cat said)"
    for what in '//rsc_location' '//primitive[@class="stonith"]'; do
        cibadmin --delete-all --force --xpath "$what"
    done
    step "and none without fencing" "$(holds sh -c 'crm_verify -V --xml-file cib.xml 2>&1 | grep -q "no STONITH"')"
}

# systemd's: the drop-in's line, of a folder that is a volume wherever this runs.
drop_in() {
    line=$(sed -n 's#^\(Assert.*\)=/var/lib/vault$#\1=/proc#p' "$standby/standby.conf")
    step "systemd knows the drop-in's line" "$(holds systemd-analyze condition "$line")" "$(cat said)"
}

if need haproxy haproxy && need openssl openssl; then fronts; else echo "haproxy's steps are left out"; fi
if need drbdadm drbd-utils; then volume; else echo "drbdadm's steps are left out"; fi
if [ "$(id -u)" = 0 ]; then typed_takeover; else echo "root's steps are left out"; fi
if need crm crmsh && need crm_verify pacemaker-cli-utils; then cluster; else echo "crm's steps are left out"; fi
if need systemd-analyze systemd; then drop_in; else echo "systemd-analyze's step is left out"; fi
counted
