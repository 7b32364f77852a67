#!/bin/sh
# tools/install.sh PREFIX: copies the program, its manual page, its completion for bash, zsh and fish and, where it is
# built from these sources, the library for C with its header and its Python module below a folder, and says what it has
# copied. It proves nothing: the program is the one that tools/program.sh prints, the proved one where it is up to date,
# and make library proves and builds the library.
# tools/install.sh --remove PREFIX: removes these files, and says which were there.
# With DESTDIR in the environment all stands below that folder, as DESTDIR/PREFIX.
set -eu
. "$(dirname "$0")/common.sh"

# The files, as paths below the folder; those of the library stand behind.
pages="share/man/man1/automount_cli.1
share/bash-completion/completions/automount_cli
share/zsh/site-functions/_automount_cli
share/fish/vendor_completions.d/automount_cli.fish"
library="lib/libdalvicna.a
lib/libdalvicna.so
lib/libdalvicna.so.1
lib/dalvicna.py
lib/pkgconfig/dalvicna.pc
include/dalvicna.h"

# The page that is copied to a path.
source_of() {
    case $1 in
        */man1/*) echo docs/automount_cli.1 ;;
        */bash-completion/*) echo docs/automount_cli.bash ;;
        */zsh/*) echo docs/automount_cli.zsh ;;
        */fish/*) echo docs/automount_cli.fish ;;
    esac
}

remove_all() {
    [ -d "$prefix" ] || refuse "expected the folder that was installed into, and there is none: $prefix"
    removed=0
    for path in bin/automount_cli $pages $library; do
        [ -e "$prefix/$path" ] || [ -L "$prefix/$path" ] || continue
        rm -f -- "$prefix/$path" 2> /dev/null || refuse "expected files that can be removed below $prefix"
        echo "install: removed $prefix/$path"
        removed=$((removed + 1))
    done
    [ "$removed" -gt 0 ] || echo "install: nothing of it is below $prefix"
}

install_all() {
    [ ! -e "$prefix" ] || [ -d "$prefix" ] || refuse "expected a folder to install into, and this is none: $prefix"
    for path in bin/automount_cli $pages; do
        folder=$(dirname -- "$prefix/$path")
        mkdir -p -- "$folder" 2> /dev/null && [ -w "$folder" ] \
            || refuse "expected a folder that can be written: $prefix"
    done
    prefix=$(cd -- "$prefix" && pwd)
    cd "$(dirname "$0")/.."
    program=$(tools/program.sh)
    case $program in
        */quick_*) how="built without proof: some 500 times slower than the proved one, which make build makes" ;;
        *) how="proved" ;;
    esac
    install -m 755 "$program" "$prefix/bin/automount_cli"
    echo "install: $prefix/bin/automount_cli, $how"
    for path in $pages; do
        install -m 644 "$(source_of "$path")" "$prefix/$path"
        echo "install: $prefix/$path"
    done
    if tools/library.py ready; then
        tools/library.py install "$prefix"
        for path in $library; do
            echo "install: $prefix/$path"
        done
    else
        echo "install: no library for C and no header: the library isn't built from these sources," \
            "and make library proves and builds it"
    fi
}

case $#-${1:-} in
    2---remove) action=remove_all && shift ;;
    1-[!-]*) action=install_all ;;
    *) refuse "expected the folder to install into, or --remove and the folder that was installed into" ;;
esac
[ -n "$1" ] || refuse "expected a folder, and this word is empty"
if [ -n "${DESTDIR:-}" ]; then
    prefix=${DESTDIR%/}/${1#/}
else
    prefix=$1
fi
"$action"
