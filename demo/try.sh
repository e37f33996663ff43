#!/bin/sh
# Compiles cdb without proving it, makes a database of the demo's aliases and of two more records,
# and queries it. Run at the top; the checker is the command in RT, else `rt`.
set -eu
rt=${RT:-rt}
command -v "$rt" > /dev/null || { echo "cdb cannot be compiled: the Rattle toolchain is not there: no command $rt"; exit 1; }
mkdir -p bin
top=$PWD
new=$top/bin/try.cdb
log=$top/bin/try.log

# Runs cdb with these words, unproved. What the checker says goes to the log, shown if cdb fails.
try() {
    (cd crates/cdb && "$rt" try "$@" 2> "$log") || { cat "$log" >&2; exit 1; }
}

echo 'Compiles cdb and makes bin/try.cdb of demo/aliases.txt and two more records.'
{ cat demo/aliases.txt; printf 'one Hello\ntwo Goodbye\n'; } | try -- -c -m - > "$new.new"
mv "$new.new" "$new"
echo '$ cdb -q -m bin/try.cdb abuse'
try --data "try.cdb=$new" -- -q -m try.cdb abuse
echo 'Nothing was proved. make proves the program and builds bin/cdb.'
