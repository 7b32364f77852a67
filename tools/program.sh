#!/bin/sh
# tools/program.sh: prints the path of a program that plays scripts and is newer than its sources: the
# proved one, or else one that is built without proof and kept for later runs.
set -eu
. "$(dirname "$0")/common.sh"
expect_nothing "$@"
cd "$(dirname "$0")/../crates/automount_cli"
proved=$PWD/out/automount_cli
quick=$PWD/out/quick_automount_cli

# The crates of which the program is made, a line each.
crates() {
    awk -F : '
        !/^#/ && NF == 2 { split($1, head, " "); below[head[1]] = $2 }
        function visit(crate, count, at, names) {
            if (!(crate in below) || seen[crate]++) return
            print crate
            count = split(below[crate], names, " ")
            for (at = 1; at <= count; at++) visit(names[at])
        }
        END { visit("automount_cli") }
    ' ../../crates.txt
}

# Whether a program stands built, and these folders of its crates are older.
is_up_to_date() {
    newest=$1
    shift
    [ -x "$newest" ] && [ -z "$(newer "$@")" ]
}

newer() {
    find ../../crates.txt -newer "$newest"
    for crate in $(crates); do
        for folder in "$@"; do
            [ ! -d "../$crate/$folder" ] || find "../$crate/$folder" -newer "$newest"
        done
    done
}

# A script that is played for a second or so.
long_script() {
    echo events
    yes die | head -n 30000
}

# `rt try` builds a program, runs it, and removes it: this keeps it while it runs.
keep() {
    for found in "$room"/*/*/program; do
        if [ -x "$found" ]; then
            ln -f "$found" "$room/program" 2> /dev/null || true
        fi
    done
}

leave() {
    kill "$try" 2> /dev/null || true
    wait "$try" 2> /dev/null || true
    rm -rf "$room"
}

build() {
    echo "program: no program is built from these sources: one is built without proof, in some minutes" >&2
    mkdir -p out
    room=$(mktemp -d "$PWD/out/quick.XXXXXX")
    touch "$room/begun"
    long_script > "$room/script"
    TMPDIR=$room rt try -- script < "$room/script" > "$room/wrote" 2> "$room/said" &
    try=$!
    trap leave EXIT
    trap 'exit 130' INT
    trap 'exit 143' TERM
    while kill -0 "$try" 2> /dev/null; do
        keep
        sleep 0.05
    done
    if ! wait "$try" || [ ! -x "$room/program" ]; then
        cat "$room/said" >&2
        echo "program: the program can't be built" >&2
        exit 1
    fi
    trap 'rm -rf "$room"' EXIT
    # A source that is edited while it is built is newer than the program.
    touch -r "$room/begun" "$room/program"
    mv -f "$room/program" "$quick"
}

if is_up_to_date "$proved" src specs proofs; then
    echo "$proved"
    exit
fi
is_up_to_date "$quick" src || build
echo "program: this one is built without proof (make build proves it)" >&2
echo "$quick"
