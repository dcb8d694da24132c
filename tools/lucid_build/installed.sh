#!/bin/sh -
# Runs the installed program on the given words, in the caller's folder. tools/install has put this file here.
#
# `--version` says `proved` only if the program still is the one that was installed, by the sum in its record.
CDPATH=
at=$(readlink -f -- "$0" && echo .)
at=${at%/*}

write_fault() {
    echo 'write fault' >&2
    exit 10
}

version() {
    sum=$(sha256sum <"$at/lucid_main")
    cat "$at/version" && grep '^sources ' "$at/record" || return
    if [ -e "$at/unproved" ]; then
        echo 'program not proved'
    elif grep -q -x "program ${sum%% *}" "$at/record"; then
        echo 'program proved'
    else
        echo "not proved: $at/lucid_main is not the program that was installed"
    fi
}

if [ $# -eq 1 ]; then
    case $1 in
        --help)
            cat "$at/help" 2>/dev/null || write_fault
            exit
            ;;
        --version)
            text=$(version) || exit 70
            printf '%s\n' "$text" 2>/dev/null || write_fault
            exit
            ;;
        --program)
            printf '%s\n' "$at/lucid_main" 2>/dev/null || write_fault
            exit
            ;;
    esac
fi
[ ! -e "$at/unproved" ] || echo 'lucid: unproved: this answer comes from a build whose proofs were not checked' >&2

# The program needs 288 KiB of stack beside its words and environment; a small stack is raised.
ulimit -S -s unlimited 2>/dev/null || ulimit -S -s "$(ulimit -H -s)" 2>/dev/null
exec "$at/lucid_main" "$@"
