#!/bin/sh
# Builds the program where it isn't built or is older than its sources, and then measures it.
# bench/run.sh [RUNS [KEYS..]]: the words are numbers, and are passed on.
# With BENCH_PROGRAM, the path of a program that is built, that one is measured as it is.
set -eu
refuse() {
    echo "bench: $1" >&2
    exit 2
}
bench=$(cd "$(dirname "$0")" && pwd)
for word in "$@"; do
    case $word in
        '' | 0* | *[!0-9]*) refuse "expected numbers from 1 on, as in bench/run.sh [RUNS [KEYS..]]" ;;
    esac
done
if [ -n "${BENCH_PROGRAM:-}" ]; then
    [ -f "$BENCH_PROGRAM" ] && [ -x "$BENCH_PROGRAM" ] \
        || refuse "expected a program in BENCH_PROGRAM, and this is none: $BENCH_PROGRAM"
    exec python3 -B "$bench/measure.py" "$(realpath "$BENCH_PROGRAM")" "$@"
fi
cd "$bench/../crates/automount_cli"
program=out/automount_cli
newer() {
    find .. ../../crates.txt -name out -prune -o -type f -newer "$program" -print
}
if [ ! -x "$program" ] || [ -n "$(newer)" ]; then
    echo "bench: the program is proved and built first, which takes some 65 minutes of a processor" >&2
    rt run -- script < /dev/null >&2
fi
exec python3 -B "$bench/measure.py" "$PWD/$program" "$@"
