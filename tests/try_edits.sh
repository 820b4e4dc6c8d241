#!/bin/sh
# tests/try_edits.sh [CRATE ..]: whether the prover refuses every edit of a crate, those too that the gate leaves out: an edit
# that is named NAME.edit.md is copied to NAME.edit while it is tried. Without names each crate is tried, one after another,
# in some hours; over a crate that `rt check` has proved here an edit takes 10 to 40 seconds.
cd "$(dirname "$0")/.." || exit 2
top=$(pwd)
put_back() {
    for edit in "$top"/crates/*/must-fail/*.edit.md; do rm -f "${edit%.md}"; done
}
trap put_back EXIT
trap 'exit 130' HUP INT TERM
[ $# -gt 0 ] || set -- $(cd crates && ls -d ./*/must-fail | cut -d/ -f2)
failed=
for crate; do
    for edit in "crates/$crate"/must-fail/*.edit.md; do
        [ ! -f "$edit" ] || cp "$edit" "${edit%.md}"
    done
    rt must-fail "$crate" || failed="$failed $crate"
    put_back
done
[ -z "$failed" ] || { echo "FAILED:$failed"; exit 1; }
