#!/bin/sh
# tools/show.sh FILE [OUT]: plays a script, and writes each event with its answer beside it, to OUT, or to standard
# output where it isn't given or is empty.
set -u
export LC_ALL=C
. "$(dirname "$0")/common.sh"
[ $# -eq 1 ] || [ $# -eq 2 ] || refuse "expected the path of a script, and possibly that of a file to write"
expect_script "$1"
out=${2:-}
expect_out "$out" "$1"
program=$("$(dirname "$0")/program.sh") || exit 1
[ -z "$out" ] || exec > "$out" || exit 2
room=$(mktemp -d)
trap 'rm -rf "$room"' EXIT
"$program" script < "$1" > "$room/answers" 2> "$room/told"
status=$?

# The events: what stands behind the line `events` that is in no section, without blank lines and
# comments.
awk '
    begun { if (NF && $1 !~ /^#/) { gsub(/\t/, " "); print } next }
    inside { if ($0 == "end") inside = 0; next }
    $1 == "master" || $1 == "map" { inside = 1 }
    $1 == "events" { begun = 1 }
' < "$1" > "$room/events"

# Events behind a fault have no answer.
paste "$room/events" "$room/answers" | head -n "$(wc -l < "$room/answers")" \
    | awk -F '\t' '{ printf "%-40s %s\n", $1, $2 }'
tell_fault "$room/told" "$1"
exit "$status"
