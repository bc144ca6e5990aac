#!/bin/sh
# Runs a program with the words that are given: tools/start.sh PROGRAM WORD.. Where ./build hasn't made the proved program yet, an unproved
# trial build answers, which tools/trial.py makes, and which is kept until a source changes.
program=$1
shift
here=$(dirname "$0")/..
built=$here/crates/$program/out/$program
trial=$here/out/trial/$program
# The crates below the program, by crates.txt.
below=$(awk -F: -v program="$program" '
  !/^#/ { stands_on[$1] = $2 }
  function visit(crate, deps, count, at) {
    if (crate in seen || !(crate in stands_on)) return
    seen[crate] = 1
    print crate
    count = split(stands_on[crate], deps, " ")
    for (at = 1; at <= count; at++) visit(deps[at])
  }
  END { visit(program) }' "$here/crates.txt")

# Finds the first source that is newer than this file, also among the definitions if asked: newer FILE [specs]
newer() {
  for crate in $below; do
    for source in "$here"/crates/"$crate"/src/*.rt "$here"/crates/"$crate"/src/*/*.rt ${2:+"$here"/crates/"$crate"/$2/*.antt}; do
      [ "$source" -nt "$1" ] && return
    done
  done
  source=$here/crates.txt
  [ "$source" -nt "$1" ]
}

if [ -x "$built" ]; then
  if newer "$built" specs; then
    echo "$program: the program is older than its sources (${source#"$here"/}); ./build makes it anew" >&2
  fi
  exec "$built" "$@"
fi
if [ ! -x "$trial" ] || newer "$trial"; then
  now=" that is made now, in one to three minutes, and kept"
fi
checks="it has run-time checks, and ends at a wrong index or sum"
echo "$program: this answer is UNPROVED: it comes from a trial build$now; $checks. ./build makes the proved program" >&2
[ -z "$now" ] || "$here/tools/trial.py" "$program" </dev/null >&2 || exit 70
exec "$trial" "$@"
