#!/bin/sh
# certificates.sh authority FOLDER         makes an authority of callers, and an empty list of revoked ones
# certificates.sh server FOLDER HOST..     a key and a certificate for the front, under these names
# certificates.sh caller FOLDER NAME       a key and a certificate for the caller NAME
# certificates.sh sign FOLDER NAME REQUEST a certificate for NAME by its own request: its key never leaves it
# certificates.sh list FOLDER              what was signed: end, serial number, whether it is revoked, subject
# certificates.sh revoke FOLDER NAME [SERIAL]  takes back all certificates of NAME, or one, and renews the list
# certificates.sh publish FOLDER PLACE     brings the list, and the index, to where the front has its files
#
# It makes what `nginx.conf` names, with openssl alone. FOLDER has the authority's key. Whoever has that key
# can be any caller, so FOLDER lies on a machine of its own, or at least away from the front. Where PHRASE names
# a file, its first line is the pass phrase of the authority's key: at `authority` the key is made with it.
#
# | In FOLDER | What it is | Where it goes |
# |---|---|---|
# | authority.key, serial, crlnumber, issued/ | the authority's own | nowhere |
# | index | what it signed, with each end | the front, for the exporter, by `publish` |
# | callers.pem | the authority's certificate | the front; clients, to know the front by |
# | revoked.pem | the list of revoked certificates | the front, after each `revoke`, by `publish` |
# | server.key, server.pem | the front's | the front |
# | NAME.key, NAME.pem | a caller's | that caller alone; NAME.key is then destroyed here |
#
# A caller's certificate has the subject CN=NAME and nothing else; NAME is 1 to 16 of a to z, 0 to 9 and -, and
# doesn't begin with -.
# A name may have several certificates at once, so one is renewed before it ends. DAYS says how long a
# certificate lasts (397 if left out). The authority lasts ten years, and so does the list.
# PLACE/callers.pem may have several authorities, while one follows the other: `publish` puts the list of
# FOLDER's in place of its former one, leaves those of the others, and takes away what is of none of them.
set -eu
umask 077
export LC_ALL=C
usage() {
    sed -n '2,8s/^# //p' "$0" >&2
    exit 2
}
fail() {
    echo "certificates.sh: $1" >&2
    exit 1
}
[ $# -ge 2 ] || usage
step=$1
folder=$2
shift 2
lasting=3650
days=${DAYS:-397}
[ -z "${PHRASE:-}" ] || PHRASE=$(realpath "$PHRASE")

# What openssl is told of the authority. Nothing of a request is taken over but its key and its subject, which
# this script writes itself.
configure() {
    cat > authority.conf <<'END'
[ca]
default_ca = callers
[callers]
database = index
serial = serial
crlnumber = crlnumber
new_certs_dir = issued
certificate = callers.pem
private_key = authority.key
default_md = sha256
policy = subject
unique_subject = no
copy_extensions = none
[subject]
commonName = supplied
organizationName = optional
[authority]
basicConstraints = critical, CA:TRUE, pathlen:0
keyUsage = critical, keyCertSign, cRLSign
subjectKeyIdentifier = hash
[caller]
basicConstraints = critical, CA:FALSE
keyUsage = critical, digitalSignature
extendedKeyUsage = clientAuth
subjectKeyIdentifier = hash
authorityKeyIdentifier = keyid
[server]
basicConstraints = critical, CA:FALSE
keyUsage = critical, digitalSignature
extendedKeyUsage = serverAuth
subjectKeyIdentifier = hash
authorityKeyIdentifier = keyid
subjectAltName = $ENV::NAMES
END
}

# openssl, which says what it does only where it fails.
quiet() {
    NAMES=${NAMES:-DNS:localhost} openssl "$@" > said 2>&1 || {
        cat said >&2
        fail "openssl $1 failed"
    }
    rm -f said
}

# openssl ca, with the pass phrase of the authority's key where it has one; nobody sees it among the processes.
as_authority() {
    if [ -n "${PHRASE:-}" ]; then
        quiet ca -config authority.conf -passin "file:$PHRASE" "$@"
    else
        quiet ca -config authority.conf "$@"
    fi
}

# A key and a request to sign it: new_key FILE SUBJECT
new_key() {
    quiet req -config authority.conf -newkey ec -pkeyopt ec_paramgen_curve:P-256 -nodes \
        -keyout "$1.key" -out "$1.csr" -subj "$2"
}

# Its certificate: signed FILE SECTION [SUBJECT]
signed() {
    as_authority -batch -notext -days "$days" -extensions "$2" -in "$1.csr" -out "$1.pem" ${3:+-subj "$3"}
    rm -f "$1.csr"
    chmod 644 "$1.pem"
}

# The list of revoked certificates, anew.
renew_list() {
    as_authority -gencrl -crldays "$lasting" -out revoked.pem
    chmod 644 revoked.pem
}

# Certificates or lists of a file, each with the hash of its authority's name: hashes x509|crl FILE
hashes() {
    rm -f one.*
    [ ! -e "$2" ] || awk '/^-----BEGIN/ { many++ } many { print > ("one." many) }' "$2"
    for one in one.*; do
        [ ! -e "$one" ] || echo "$(openssl "$1" -noout -hash -in "$one") $one"
    done
}

# A name as a whole, its line ends too, which would be a part of a subject.
named() {
    case $1 in
    '' | -* | *[!a-z0-9-]* | ?????????????????*)
        fail "$1 is no caller's name: 1 to 16 of a to z, 0 to 9 and -, and no - at its beginning"
        ;;
    server | authority | callers | revoked) fail "$1 is a name of a file here" ;;
    esac
}

if [ "$step" = authority ]; then
    [ $# -eq 0 ] || usage
    [ ! -e "$folder/authority.key" ] || fail "$folder has an authority already"
    mkdir -p "$folder/issued"
    cd "$folder"
    configure
    : > index
    openssl rand -hex 16 > serial
    echo 01 > crlnumber
    # each authority has a name of its own, so the front can take two while one follows the other
    secret=-nodes
    [ -z "${PHRASE:-}" ] || secret="-passout file:$PHRASE"
    # shellcheck disable=SC2086
    quiet req -config authority.conf -x509 -newkey ec -pkeyopt ec_paramgen_curve:P-256 $secret \
        -days "$lasting" -extensions authority -keyout authority.key -out callers.pem \
        -subj "/O=Callers of a vault/CN=authority of $(date -u +%Y-%m-%d) $(openssl rand -hex 4)"
    chmod 644 callers.pem
    renew_list
    exit 0
fi
[ -f "$folder/authority.key" ] || fail "$folder has no authority: certificates.sh authority $folder"
case $step in
sign)
    [ $# -eq 2 ] || usage
    request=$(realpath "$2")
    ;;
publish)
    [ $# -eq 1 ] || usage
    place=$(realpath "$1")
    ;;
esac
cd "$folder"
case $step in
server)
    [ $# -ge 1 ] || usage
    NAMES=
    for host in "$@"; do
        case $host in
        '' | -* | *[!A-Za-z0-9._*-]*) fail "$host is no name of a machine" ;;
        *[!0-9.]*) kind=DNS ;;
        *) kind=IP ;;
        esac
        NAMES=${NAMES:+$NAMES,}$kind:$host
    done
    export NAMES
    new_key server "/O=Front of a vault/CN=$1"
    signed server server
    ;;
caller)
    [ $# -eq 1 ] || usage
    named "$1"
    [ ! -e "$1.key" ] || fail "$folder/$1.key is there still: hand it over and destroy it here first"
    new_key "$1" "/CN=$1"
    signed "$1" caller
    ;;
sign)
    named "$1"
    openssl req -in "$request" -noout -verify > said 2>&1 || fail "$2 is no request that was signed by its key"
    rm -f said
    cp "$request" "$1.csr"
    # its own words on its subject don't count
    signed "$1" caller "/CN=$1"
    ;;
list)
    [ $# -eq 0 ] || usage
    # a line of the index: V (valid), R or E; its end; when it was revoked; the serial number; the file; whose it is
    awk -F '\t' -v now="$(date -u +%Y%m%d%H%M%SZ)" '{
        end = (length($2) == 13 ? "20" : "") $2
        state = $1 == "R" ? "revoked" : end < now ? "ended" : "valid"
        day = substr(end, 1, 4) "-" substr(end, 5, 2) "-" substr(end, 7, 2)
        print day, $4, state, $6
    }' index | sort
    ;;
revoke)
    [ $# -eq 1 ] || [ $# -eq 2 ] || usage
    named "$1"
    serials=$(awk -F '\t' -v subject="/CN=$1" -v one="${2:-}" \
        '$1 == "V" && $6 == subject && (one == "" || $4 == one) { print $4 }' index)
    [ -n "$serials" ] || fail "$1 has no ${2:+such }certificate that isn't revoked"
    for serial in $serials; do
        as_authority -revoke "issued/$serial.pem"
    done
    renew_list
    echo "revoked $(echo "$serials" | wc -l)"
    ;;
publish)
    own=$(openssl x509 -noout -hash -in callers.pem)
    known=$(hashes x509 "$place/callers.pem" | cut -d ' ' -f 1)
    printf '%s\n' "$known" | grep -qx "$own" || fail "$place/callers.pem hasn't this authority"
    cp revoked.pem joined
    hashes crl "$place/revoked.pem" | while read -r hash one; do
        if [ "$hash" != "$own" ] && printf '%s\n' "$known" | grep -qx "$hash"; then cat "$one" >> joined; fi
    done
    install -m 644 joined "$place/revoked.pem.new"
    mv "$place/revoked.pem.new" "$place/revoked.pem"
    install -m 644 index "$place/callers-$own.index"
    for path in "$place"/callers-*.index; do
        hash=${path##*/callers-}
        printf '%s\n' "$known" | grep -qx "${hash%.index}" || rm "$path"
    done
    rm -f joined one.*
    ;;
*) usage ;;
esac
