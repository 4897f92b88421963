#!/bin/sh
# Writes the units of one of several tables into a folder: its sockets are in /run/auditor/NAME, its files in
# /var/lib/auditor/NAME, auditor-public/NAME and auditor-door/NAME. The door's own unit is written beside them with that one
# table; for a door over several add a --table, a state directory and the sockets of each.
#
#   front/units/for_table.sh NAME FOLDER
set -eu
[ $# = 2 ] || { echo "usage: for_table.sh NAME FOLDER" >&2; exit 2; }
case $1 in
*[!A-Za-z0-9_.-]* | '' | [.-]*) echo "for_table.sh: $1 can't name a table" >&2; exit 2 ;;
esac
[ -d "$2" ] || { echo "for_table.sh: there is no folder $2" >&2; exit 2; }
units=$(cd "$(dirname "$0")" && pwd)
for unit in auditor-serve.socket auditor-serve@.service auditor-audit.socket auditor-audit@.service auditor-explain.socket \
    auditor-explain@.service; do
    sed -e "s|/run/auditor/|/run/auditor/$1/|" -e "s|/var/lib/auditor\$|/var/lib/auditor/$1|" \
        "$units/$unit" >"$2/$(echo "$unit" | sed "s/^auditor/auditor-$1/")"
done
sed -e "s#auditor-\(serve\|audit\|explain\)\.socket#auditor-$1-\1.socket#g" \
    -e "s|^StateDirectory=.*|& auditor-door/$1|" \
    -e "s|--serve /run/auditor/|--table $1 --serve /run/auditor/{table}/|" \
    -e "s|--audit /run/auditor/|--audit /run/auditor/{table}/|" \
    -e "s|--explain /run/auditor/|--explain /run/auditor/{table}/|" \
    -e "s|--public /var/lib/auditor-public|--public /var/lib/auditor-public/{table}|" \
    -e "s|--keep /var/lib/auditor-door|--keep /var/lib/auditor-door/{table}|" \
    "$units/auditor-door.service" >"$2/auditor-door.service"
