#!/bin/sh
# elsewhere.sh REPOSITORY FOLDER
#
# The front's file for a vault on another machine, on standard output: deploy/haproxy.cfg, changed by the line
# that docs/STANDBY.md has for it, with its certificates in FOLDER.
set -eu
repository=$1
folder=$2
turned=$(sed -n "s#^sed -i \(-e .*\) /etc/haproxy/haproxy.cfg\$#\1#p" "$repository/docs/STANDBY.md")
[ -n "$turned" ] || { echo "STANDBY.md hasn't the line that turns haproxy.cfg" >&2; exit 1; }
eval "sed $turned" < "$repository/deploy/haproxy.cfg" |
    sed -e "s#/etc/vault/#$folder/#g" -e "s#/usr/share/vault/office#$repository/deploy/office#"
