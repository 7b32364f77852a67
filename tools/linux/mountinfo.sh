#!/bin/sh
# tools/linux/mountinfo.sh PID..: the mountinfo of the mount namespaces of these processes, each namespace once, after a
# line that names the process, as `automount_cli import` reads it. The first is the first namespace of the script.
set -eu
[ $# -gt 0 ] || { echo "usage: tools/linux/mountinfo.sh PID.." >&2; exit 2; }
for pid; do
    [ -r "/proc/$pid/mountinfo" ] || { echo "mountinfo: expected the number of a process, not $pid" >&2; exit 2; }
done
seen=
for pid; do
    namespace=$(readlink "/proc/$pid/ns/mnt") || exit 1
    case " $seen " in
        *" $namespace "*) continue ;;
    esac
    seen="$seen $namespace"
    echo "# namespace of $pid"
    cat "/proc/$pid/mountinfo"
done
