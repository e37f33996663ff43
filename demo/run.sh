#!/bin/sh
# Shows cdb at work on a small alias map: each command as it is typed, then what it writes.
#
#     demo/run.sh PROGRAM
set -eu
here=$(cd "$(dirname "$0")" && pwd)
folder=$(mktemp -d)
trap 'rm -rf "$folder"' EXIT

# The program is found under the name that it is installed by.
mkdir "$folder/bin" "$folder/demo"
cp "$1" "$folder/bin/cdb"
PATH=$folder/bin:$PATH
cp "$here/aliases.txt" "$folder/demo"
cd "$folder/demo"

# Shows a command and runs it.
show() {
    printf '$ %s\n' "$1"
    sh -c "$1"
}

# Shows a command that is to end with a status.
show_status() {
    status=0
    show "$2" 2>&1 || status=$?
    printf '$ echo $?\n%s\n' "$status"
    [ "$status" -eq "$1" ]
}

printf '\nMail aliases, a line each: a map.\n\n'
show 'cat aliases.txt'

printf '\nThe database of the map, and a query.\n\n'
show 'cdb -c -m aliases.cdb aliases.txt'
show 'cdb -q -m aliases.cdb abuse'

printf '\nA key that is not there: the status is 100.\n\n'
show_status 100 'cdb -q aliases.cdb sales'

printf '\nA change: a second file, whose records replace those of their keys.\n\n'
show "printf 'abuse security@example.invalid\\nsales sam@example.invalid\\n' > changes.txt"
show 'cdb -c -m -r aliases.cdb aliases.txt changes.txt'
show 'cdb -q -m aliases.cdb abuse'
show 'cdb -q -m aliases.cdb sales'

printf '\nA change of the finished database alone, as a text: one key removed, one record put.\n\n'
show "printf '%s\\n' '-5:sales' '+5,3:hosts->jim' '' > amend.txt"
show 'cdb -c -b aliases.cdb aliases.cdb amend.txt'
show 'cdb -d -m aliases.cdb | tail -n 1'

printf '\nA key that appears twice, under -e: the old database stays.\n\n'
show_status 111 'cdb -c -m -e aliases.cdb aliases.txt changes.txt'
show 'cdb -q -m aliases.cdb abuse'

printf '\nIts keys, and whether it is sound.\n\n'
show 'cdb -l -m aliases.cdb'
show 'cdb -k aliases.cdb && echo sound'

printf '\nIts text, and the database of that text, which is the same.\n\n'
show 'cdb -d aliases.cdb | cdb -c copy.cdb'
show 'cmp aliases.cdb copy.cdb && echo the same bytes'

printf '\nWhat changed since the map was made, as a text that amends the database of the map.\n\n'
show 'cdb -c -m map.cdb aliases.txt'
show 'cdb -D map.cdb aliases.cdb'

printf '\nA database that was cut: the check says where, and the dump has every record before the cut.\n\n'
show 'head -c 2150 aliases.cdb > cut.cdb'
show_status 100 'cdb -k cut.cdb'
show_status 111 'cdb -d -m cut.cdb'
