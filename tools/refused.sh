#!/usr/bin/env bash
# Tries each crates/NAME/refused/*.edit on a copy of the repository: types or borrows must refuse it, with the error that
# its first line names. (rt tries the edits of must-fail/, which reach the prover; these do not get so far.)
set -eu
cd "$(dirname "$0")/.."
copy=$(mktemp -d)
trap 'rm -rf "$copy"' EXIT

field() { sed -n "s/^$1: //p" "$2"; }

# The file with the old text, which must stand in it once, replaced by the new.
edited() { # EDIT FILE
    OLD=$(field old "$1") NEW=$(field new "$1") awk '
        { text = text $0 "\n" }
        END {
            old = ENVIRON["OLD"]
            at = index(text, old)
            rest = substr(text, at + length(old))
            if (!at || index(rest, old)) exit 3
            printf "%s%s%s", substr(text, 1, at - 1), ENVIRON["NEW"], rest
        }' "$2"
}

tar --exclude=out -c crates crates.txt | tar -x -C "$copy"
bad=0
for edit in crates/*/refused/*.edit; do
    crate=${edit#crates/} crate=${crate%%/*}
    error=$(field error "$edit") file=crates/$crate/$(field file "$edit")
    edited "$edit" "$file" >"$copy/$file" || { echo "$edit: the old text must stand once"; bad=1; }
    # It reads the crate and proves nothing of it: the error shows before any proof.
    if (cd "$copy/crates/$crate" && rt check --only "") 2>&1 | grep -q "error\[$error\]"; then
        echo "$edit: refused: $error"
    else
        echo "$edit: NOT refused by $error"
        bad=1
    fi
    cp "$file" "$copy/$file"
done
exit $bad
