#!/bin/sh
# tools/examples.sh: plays each script of `examples`, and compares its answers, its trace, its picture and
# its world with those beside it; reads each trace back; has a parser of XML read each picture, and findmnt
# each namespace of each world. Of the scripts of `tests` it compares the traces that stand beside them. The
# last line counts them.
set -u
export LC_ALL=C
. "$(dirname "$0")/common.sh"
expect_nothing "$@"
cd "$(dirname "$0")/.."
program=$(tools/program.sh) || exit 1
room=$(mktemp -d)
trap 'rm -rf "$room"' EXIT
passed=0
failed=0

# Says whether a file is as expected.
expect() {
    if [ ! -s "$room/said" ] && cmp -s "$2" "$3"; then
        echo "$1: as expected"
        passed=$((passed + 1))
    else
        echo "$1: not as expected"
        cat "$room/said"
        diff "$2" "$3"
        failed=$((failed + 1))
    fi
}

# Plays a script by a command, into a file of its name.
play() {
    "$program" "$1" < "$2" > "$room/$1" 2> "$room/said"
}

# The script that a trace says: the head of the script that was played, and the events of the trace.
read_back() {
    awk '
        { print }
        inside { if ($0 == "end") inside = 0; next }
        $1 == "master" || $1 == "map" { inside = 1 }
        $1 == "events" { exit }
    ' < "$1"
    sed -n 's/^[0-9][0-9]*: //p' "$room/trace"
}

# What is played from a trace has the answers that stand in it.
expect_read_back() {
    read_back "$2" > "$room/back"
    sed -n 's/^= \(.*\) : [0-9]*$/\1/p' "$room/trace" > "$room/answers"
    play script "$room/back"
    expect "$1, its trace read back" "$room/script" "$room/answers"
}

# The events that a picture shows, a line for each, as a parser of XML reads them: they stand at the left.
shown_in() {
    python3 -c '
import sys, xml.etree.ElementTree as tree
for text in tree.parse(sys.argv[1]).iter("{http://www.w3.org/2000/svg}text"):
    if text.get("class") == "m" and text.get("x") == "46":
        sys.stdout.buffer.write((text.text + "\n").encode())
' "$1"
}

# The picture of a script is the expected one, and shows the events of the trace that was played last.
expect_picture() {
    play draw "$2"
    expect "$1, its picture" "$room/draw" "$3"
    shown_in "$room/draw" > "$room/shown" 2> "$room/said"
    sed -n 's/^[0-9][0-9]*: //p' "$room/trace" > "$room/events"
    expect "$1, its picture read as XML" "$room/shown" "$room/events"
}

# The states of the mounts of one namespace as findmnt reads them, of mounts with one path that of the last.
found_states() {
    findmnt --tab-file "$room/mounts" --raw --noheadings -o TARGET,PROPAGATION 2> "$room/said" | awk '
        !($1 in state) { order[++count] = $1 }
        { state[$1] = $2 }
        END { for (at = 1; at <= count; at++) print order[at], state[order[at]] }
    ' | sed -e 's/ shared,slave$/ shared-slave/' -e 's/ private,slave$/ slave/' \
        -e 's/ private,unbindable$/ unbindable/'
}

# The states of the same mounts, as a script that asks for them behind its events is answered.
asked_states() {
    cut -d ' ' -f 1 "$room/found" > "$room/paths"
    { cat "$1"; sed "s|^|kind $2 |" "$room/paths"; } > "$room/asking"
    play script "$room/asking"
    tail -n "$(wc -l < "$room/paths")" "$room/script" | sed 's/^kind //' | paste -d ' ' "$room/paths" -
}

# What findmnt reads of each namespace is what the script answers of its mounts.
expect_found() {
    for ns in $(sed -n 's/^# namespace //p' "$room/world"); do
        "$program" world --namespace "$ns" < "$2" > "$room/mounts"
        found_states > "$room/found"
        asked_states "$2" "$ns" > "$room/states"
        expect "$1, namespace $ns read by findmnt" "$room/found" "$room/states"
    done
}

command -v findmnt > /dev/null || echo "findmnt isn't there: no world is read by it"

for script in examples/*.script; do
    name=$(basename "$script" .script)
    play script "$script"
    expect "example $name" "$room/script" "examples/$name.out"
    play trace "$script"
    expect "example $name, its trace" "$room/trace" "examples/$name.trace"
    expect_read_back "example $name" "$script"
    expect_picture "example $name" "$script" "examples/$name.svg"
    play world "$script"
    expect "example $name, its world" "$room/world" "examples/$name.world"
    ! command -v findmnt > /dev/null || expect_found "example $name" "$script"
done

for trace in tests/*.trace; do
    name=$(basename "$trace" .trace)
    play trace "tests/$name.script"
    expect "script $name, its trace" "$room/trace" "$trace"
done

# More mounts that are copied from one namespace to another.
for name in private_autofs_in_another_namespace bind_of_an_autofs_is_late propagation_by_slaves mounts_of_a_reduced_copy; do
    command -v findmnt > /dev/null || break
    script=tests/$name.script
    play world "$script"
    expect_found "script $name" "$script"
done

# Names of 255 bytes, with a backslash and quotes, and with bytes that aren't UTF-8.
long=$(printf '%0255d' 0)
{
    echo events
    echo "mount 0 /$long"
    echo "mount 0 /<&>\"'"
    printf 'mount 0 /\377\200\001\n'
    printf 'mount 0 /a\\040b\n'
} > "$room/hostile.script"
play trace "$room/hostile.script"
expect_read_back "hostile names" "$room/hostile.script"
play draw "$room/hostile.script"
shown_in "$room/draw" > "$room/shown" 2>> "$room/said"
cat > "$room/expected" << 'END'
mount 0 /00000000...00000000000000000
mount 0 /<&>"'
mount 0 /\xff\x80\x01
mount 0 /a\x5c040b
END
expect "hostile names, their picture" "$room/shown" "$room/expected"

echo "$passed passed, $failed failed"
[ "$failed" -eq 0 ]
