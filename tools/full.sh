#!/usr/bin/env bash
# Runs each program that `rt ci` has built with an output that takes nothing: it must end with status 1. Says so only where one does not.
set -eu
cd "$(dirname "$0")/../crates"
bad=0
for wanted in */stdout; do
    name=${wanted%/stdout}
    top=$PWD/$name data=$PWD/$name args=() input=/dev/null status=0
    [ ! -d "$top/data" ] || data=$top/data
    [ ! -f "$top/args" ] || mapfile -t args <"$top/args"
    [ ! -f "$top/stdin" ] || input=$top/stdin
    (cd "$data" && exec "$top/out/$name" "${args[@]}" <"$input" >/dev/full 2>/dev/null) || status=$?
    if [ $status != 1 ]; then
        echo "$name: ends with $status where its output takes nothing" >&2
        bad=1
    fi
done
exit $bad
