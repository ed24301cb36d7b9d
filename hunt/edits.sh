#!/bin/sh
# Tries the must-fail edits that the gate leaves out for their time: `hunt/edits.sh CRATE ..`, or all without a name. Each has to be
# refused. It stands in for the gate where a crate of edits/ has changed, and takes the check of that crate from nothing and a minute an edit.
cd "$(dirname "$0")/.." || exit 1
placed=
trap 'test -z "$placed" || rm -r "$placed"' EXIT
trap 'exit 130' INT TERM
status=0
test $# -gt 0 || set -- hunt/edits/*/
for folder; do
    crate=$(basename "$folder")
    test -d "hunt/edits/$crate" || { echo "edits.sh: no edits of $crate" >&2; exit 2; }
    placed=crates/$crate/must-fail
    cp -r "hunt/edits/$crate" "$placed" || exit
    (cd "crates/$crate" && rt must-fail) || status=1
    rm -r "$placed"
    placed=
done
exit "$status"
