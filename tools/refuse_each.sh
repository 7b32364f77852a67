#!/bin/sh
# tools/refuse_each.sh CRATE TEST: runs a test of a crate with each of its allocations refused in turn, on
# the program that `rt test CRATE` or the gate has built.
# tools/refuse_each.sh SCRIPT: so plays a script of tests, by tools/scripts.py and the proved program.
set -u
. "$(dirname "$0")/common.sh"
[ $# -eq 1 ] || [ $# -eq 2 ] || refuse "expected two words, a crate and the whole path of a test, or the name of a script"
cd "$(dirname "$0")/.."
[ $# -eq 2 ] || exec tools/scripts.py --refuse "$1"
[ -d "crates/$1/src" ] || refuse "expected a crate, and there is none named $1"
program=$PWD/crates/$1/out/$1_tests
word=$2
[ -x "$program" ] || refuse "expected tests that are built: rt test in crates/$1"
rt=$(command -v rt) || refuse "expected a machine with the toolchain, and there is no rt"
tools=$(dirname "$(dirname "$(readlink -f "$rt")")")/toolchain/bin
room=$(mktemp -d)
trap 'rm -rf "$room"' EXIT
"$tools/clang" --target=x86_64-unknown-linux-gnu --ld-path="$tools/ld.lld" -shared -fPIC -nostdlib -O1 \
    -o "$room/refuse.so" tools/refuse.c || exit 2
count=0
failed=0
while :; do
    next=$((count + 1))
    REFUSE=$next LD_PRELOAD="$room/refuse.so" "$program" "$word" > "$room/said" 2>&1
    status=$?
    grep -q '^calls=.* refused=1$' "$room/said" || break
    count=$next
    if [ "$status" -ne 0 ]; then
        failed=$((failed + 1))
        echo "allocation $count refused: status $status"
        grep -v '^calls=' "$room/said"
    fi
done
echo "$*: $count allocations refused in turn, $failed failed"
# A test takes memory; where nothing was refused there is no test of this name.
[ "$count" -gt 0 ] || refuse "expected the whole path of a test, and there is none at $word"
[ "$failed" -eq 0 ]
