#!/bin/sh
# tools/run.sh COMMAND FILE [OUT]: has the program play a script by a command, script, trace, world or draw, or a scene
# by explore, and writes to OUT, or to standard output where it isn't given or is empty.
set -eu
. "$(dirname "$0")/common.sh"
[ $# -eq 2 ] || [ $# -eq 3 ] || refuse "expected a command, the path of a script, and possibly that of a file to write"
case $1 in
    script | trace | world | draw | explore) ;;
    *) refuse "expected script, trace, world, draw or explore, and this is none: $1" ;;
esac
expect_script "$2"
out=${3:-}
expect_out "$out" "$2"
program=$("$(dirname "$0")/program.sh")
[ -z "$out" ] || exec > "$out"
told=$(mktemp)
trap 'rm -f "$told"' EXIT
trap 'exit 130' INT
trap 'exit 143' TERM
status=0
"$program" "$1" < "$2" 2> "$told" || status=$?
[ "$1" != explore ] || { lines_in=Scenes faults_in="Faults of a scene"; }
tell_fault "$told" "$2"
exit "$status"
