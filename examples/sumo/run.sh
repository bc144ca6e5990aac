#!/bin/sh
# Shows trains in SUMO that block one another, and the same trains under the dispatcher: all come home, and the journal verifies.
#
#   examples/sumo/run.sh                         with ./dispatch and ./ats of this repository
#   examples/sumo/run.sh COMMAND..               with another dispatcher; VERIFY is the checker of journals (./ats verify)
#
# It needs Debian's packages sumo and sumo-tools. It ends with 0 if everything was so.
set -u
here=$(cd "$(dirname "$0")" && pwd)
top=$here/../..
export SUMO_HOME="${SUMO_HOME:-/usr/share/sumo}"
[ $# -gt 0 ] || set -- "$top/dispatch"
verify=${VERIFY:-$top/ats verify}
work=$(mktemp -d) || exit 2
trap 'rm -rf "$work"' EXIT
bad=0

fail() {
  echo "  FAILED: $1"
  bad=1
}

# build NAME KIND: the network of an example, with nodes of this kind: rail_signal, or priority for tracks without signals.
build() {
  sed "s/\"rail_signal\"/\"$2\"/" "$here/$1.nod.xml" > "$work/nod.xml"
  netconvert -n "$work/nod.xml" -e "$here/$1.edg.xml" -x "$here/$1.con.xml" -o "$work/$2.net.xml" > "$work/log" 2>&1 || {
    cat "$work/log"
    exit 2
  }
}

# scene NAME KIND WORDS.. -- COMMAND..: one run under the dispatcher.
scene() {
  name=$1 kind=$2 words=
  shift 2
  while [ "$1" != -- ]; do words="$words $1"; shift; done
  shift
  rm -f "$work/journal" "$work/journal.document-sha256"
  # shellcheck disable=SC2086
  "$here/drive.py" --net "$work/$kind.net.xml" --routes "$here/$name.rou.xml" --document "$here/$name.json" $words \
    "$top/tools/keep.py" --journal "$work/journal" --document "$here/$name.json" --reports "$@" || fail "not all trains came home"
  verdict=$( (cat "$here/$name.json"; echo; echo journal; cat "$work/journal") | $verify 2>&1) || fail "the journal isn't right"
  echo "  the journal: $verdict"
}

for name in line metro; do
  build $name rail_signal
  build $name priority
  echo "$name, by SUMO's own signals:"
  "$here/drive.py" --net "$work/rail_signal.net.xml" --routes "$here/$name.rou.xml" --alone && fail "the trains don't block one another"
  echo "$name, under the dispatcher:"
  scene $name rail_signal -- "$@"
  echo "$name, under the dispatcher, on tracks without signals, with a crash after each 7 grants:"
  scene $name priority --kill 7 -- "$@"
done
[ $bad -eq 0 ] && echo "all as it should be"
exit $bad
