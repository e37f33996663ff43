#!/bin/sh
# Keeps a list of the files that were installed, by which they are removed again.
#
#     tools/installed.sh note ROOT LIST FILE..   adds files to a list, each with the sum of its bytes
#     tools/installed.sh remove ROOT LIST..      removes the files of lists, and the lists
#
# ROOT is the folder under which the names of the list lie, or an empty word. A file of the list that has
# other bytes by now is another's: it stays, and a line says so.
set -eu
umask 022

# The sum of a file's bytes, or where a link leads.
sum_of() {
    if [ -L "$1" ]; then
        echo "link:$(readlink "$1")"
    else
        sum=$(sha256sum < "$1")
        echo "${sum%% *}"
    fi
}

# Adds files to a list: what it said of them before goes.
note() {
    root=$1 list=$1$2
    shift 2
    mkdir -p "$(dirname "$list")"
    touch "$list"
    for name in "$@"; do
        sum=$(sum_of "$root$name")
        {
            awk -v name="$name" 'substr($0, index($0, "  ") + 2) != name' "$list"
            echo "$sum  $name"
        } > "$list.new"
        mv "$list.new" "$list"
    done
    chmod 644 "$list"
}

# Removes the files of a list that are as they were, and the list.
remove() {
    while read -r sum name; do
        if [ ! -e "$1$name" ] && [ ! -L "$1$name" ]; then
            continue
        elif [ "$(sum_of "$1$name")" = "$sum" ]; then
            rm -f "$1$name"
        else
            echo "$1$name is another's by now: it stays"
        fi
    done < "$2"
    rm -f "$2"
}

case "${1:-} $#" in
"note "[4-9]* | "note "[1-3][0-9])
    shift
    note "$@"
    ;;
"remove "[3-9]*)
    root=$2 found=
    shift 2
    for list in "$@"; do
        if [ -f "$root$list" ]; then
            remove "$root" "$root$list"
            found=yes
        fi
    done
    [ "$found" ] || echo "Nothing is removed: there is no list $root$1, nor another"
    ;;
*)
    sed -n '4,5s/^# *//p' "$0"
    exit 1
    ;;
esac
