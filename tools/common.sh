# What the scripts of this folder share; they read it, and nobody runs it.

# Says in one line what was expected, and ends with status 2.
refuse() {
    echo "$(basename "$0" .sh): $1" >&2
    exit 2
}

# The word is the path of a script that can be read.
expect_script() {
    [ -n "$1" ] || refuse "expected the path of a script"
    [ -e "$1" ] || refuse "expected the path of a script, and there is no file $1"
    [ -f "$1" ] || refuse "expected the path of a script, and this is no file: $1"
    [ -r "$1" ] || refuse "expected the path of a script, and this can't be read: $1"
}

# The word is empty, for standard output, or the path of a file that can be written and isn't the script.
expect_out() {
    [ -n "$1" ] || return 0
    [ ! -d "$1" ] || refuse "expected the path of a file to write, and this is a folder: $1"
    if [ -e "$1" ]; then
        [ -w "$1" ] || refuse "expected the path of a file to write, and this can't be written: $1"
        [ ! "$1" -ef "$2" ] || refuse "expected the path of a file to write, and this is the script: $1"
    else
        [ -w "$(dirname -- "$1")" ] || refuse "expected the path of a file to write, and its folder can't be written: $1"
    fi
}

# Writes what the program told, and behind a fault the line of the script at which it is, unless that was told.
tell_fault() {
    cat "$1" >&2
    line=$(sed -n 's/^fault: line \([0-9]*\): .*/\1/p' "$1")
    word=$(sed -n 's/^fault: line [0-9]*: //p' "$1")
    [ -n "$line" ] || return 0
    if [ "$(wc -l < "$1")" -le 1 ]; then
        text=$(sed -n "${line}{p;q}" "$2" | LC_ALL=C cut -b 1-200 | cat -v)
        echo "$(basename "$0" .sh): line $line of $2 is: ${text:-blank, or behind its end}" >&2
    fi
    parts="what a line may be (${lines_in:-Scripts}), and what $word means (${faults_in:-Faults})"
    echo "$(basename "$0" .sh): docs/FORMATS.md has $parts" >&2
}

# No word is expected.
expect_nothing() {
    [ $# -eq 0 ] || refuse "expected no words"
}
