#!/bin/sh
# package.sh PROGRAM FOLDER
#
# Builds a Debian package of the built program in FOLDER, for amd64 alone, as the program is: the program, its
# units with their scripts, its man page, completions for bash, the page for the back office, the pages for
# those who run it, and as examples both fronts, the files of a standby, other scripts of this folder and the
# clients. It prints the package's name. An image without /usr/share/doc lacks nothing but the pages.
#
# The package makes the user `vault` and the folder /var/lib/vault. It starts nothing, and its removal takes
# away neither the folder nor a vault's file.
set -eu
umask 022
[ $# -eq 2 ] || { echo "package.sh PROGRAM FOLDER" >&2; exit 2; }
program=$1
here=$(cd "$(dirname "$0")" && pwd)
top=$(cd "$here/.." && pwd)
folder=$(cd "$2" && pwd)
version=$("$program" --version | sed 's/^vault \([0-9.]*\), schema [0-9]*$/\1/')
root=$(mktemp -d)
trap 'rm -rf "$root"' EXIT
chmod 755 "$root"

place() { install -D -m "$1" "$2" "$root$3"; }
place 755 "$program" /usr/bin/vault
strip --strip-all "$root/usr/bin/vault"
mkdir -p "$root/lib/systemd/system"
sh "$here/units.sh" "$root/lib/systemd/system"
for step in pause check-lists list-faults check-port jumped room port port-holders listens answers watch thaw alarm \
    counted moments newest backup-now backup.sh restore.sh again.sh exporter.py; do
    place 755 "$here/$step" "/usr/lib/vault/$step"
done
place 644 "$here/front_log.py" /usr/lib/vault/front_log.py
place 755 "$here/vault-look" /usr/bin/vault-look
place 755 "$here/reload" /usr/lib/vault/reload
place 644 "$here/vault.1" /usr/share/man/man1/vault.1
gzip -9n "$root/usr/share/man/man1/vault.1"
place 644 "$here/vault.bash-completion" /usr/share/bash-completion/completions/vault
ln -s vault "$root/usr/share/bash-completion/completions/vault-look"
doc=/usr/share/doc/vault
examples=/usr/share/vault/examples
for page in OPERATING.md SCALE.md STANDBY.md API.md REFUSALS.md PROVED.md MODEL.md TRIALS.md \
    LIMITS.md DECISIONS.md openapi.yaml; do
    place 644 "$top/docs/$page" "$doc/$page"
done
for picture in "$top"/docs/office-*.png; do
    place 644 "$picture" "$doc/${picture##*/}"
done
for picture in "$top"/docs/pictures/*.svg; do
    place 644 "$picture" "$doc/pictures/${picture##*/}"
done
place 644 "$top/SECURITY.md" "$doc/SECURITY.md"
place 644 "$top/CHANGELOG.md" "$doc/CHANGELOG.md"
for file in nginx.conf haproxy.cfg alerts.yaml; do
    place 644 "$here/$file" "$examples/$file"
done
for file in logrotate rsyslog.conf; do
    place 644 "$here/logs/$file" "$examples/logs/$file"
done
place 755 "$here/logs/who.py" "$examples/logs/who.py"
for file in vault.res corosync.conf cluster.crm standby.conf cable.network relay.cfg; do
    place 644 "$here/standby/$file" "$examples/standby/$file"
done
for step in take-over outdate; do place 755 "$here/standby/$step" "/usr/lib/vault/$step"; done
for file in index.html office.css office.js; do
    place 644 "$here/office/$file" "/usr/share/vault/office/$file"
done
place 755 "$top/examples/rebuild.sh" "$examples/rebuild.sh"
place 755 "$here/certificates.sh" "$examples/certificates.sh"
for client in till.py back_office.py batch.py; do
    place 755 "$top/examples/clients/$client" "$examples/clients/$client"
done
for client in till.go Till.java till.js; do
    place 644 "$top/examples/clients/$client" "$examples/clients/$client"
done
place 644 "$here/debian/copyright" "$doc/copyright"
maintainer="Montxugel maintainers <vault@montxugel.example>"
date=$(LC_ALL=C date -R)
printf 'vault (%s) stable; urgency=medium\n\n  * %s\n\n -- %s  %s\n' \
    "$version" "What changed stands in $doc/CHANGELOG.md." "$maintainer" "$date" |
    gzip -9n > "$root$doc/changelog.gz"

mkdir "$root/DEBIAN"
cat > "$root/DEBIAN/control" <<END
Package: vault
Version: $version
Section: database
Priority: optional
Architecture: amd64
Maintainer: $maintainer
Installed-Size: $(du -sk "$root" | cut -f1)
Depends: adduser, libc6 (>= 2.34), libjemalloc2
Suggests: nginx | haproxy, openssl, sqlite3, python3, python3-prometheus-client
Description: keeps card numbers, and gives tokens for them
 A service keeps card numbers in one file. Tills and back offices get tokens
 in their place, and the few that are entitled bring a token back.
 .
 Faults are told on the issues page of the repository that this comes from;
 $doc/SECURITY.md says how a weakness is.
END
for script in preinst postinst prerm postrm; do
    # what two of them ask stands in a file of its own
    sed -e "/^#clustered\$/{r $here/debian/clustered" -e 'd}' "$here/debian/$script" > "$root/DEBIAN/$script"
    chmod 755 "$root/DEBIAN/$script"
done
dpkg-deb --root-owner-group --build "$root" "$folder/vault_${version}_amd64.deb" > /dev/null
echo "$folder/vault_${version}_amd64.deb"
