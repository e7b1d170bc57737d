#!/usr/bin/env bash
# Runs a program of this repository on a file, or on standard input: tools/program.sh NAME [FILE].
# The program is proved and built first where that has not been done since its sources changed.
set -eu
root=$(cd "$(dirname "$0")/.." && pwd)
name=$1
program=$root/crates/$name/out/$name
if [ ! -x "$program" ] || [ -n "$(find "$root/crates" "$root/crates.txt" -name out -prune -o -type f -newer "$program" -print -quit)" ]; then
    echo "$name: proving and building the program, which takes some minutes" >&2
    log=$(mktemp)
    (cd "$root/crates/$name" && rt run </dev/null) >"$log" 2>&1 || { tail -n 20 "$log" >&2; exit 1; }
    rm "$log"
    touch "$program"
fi
exec "$program" <"${2:-/dev/stdin}"
