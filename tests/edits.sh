#!/usr/bin/env bash
# Tries the wrong bodies for which the gate has no time: the prover of its crate has to refuse each. They are written as
# those of crates/CRATE/must-fail are, and stand in tests/edits/CRATE.
# usage: tests/edits.sh [CRATE..]      (all of tests/edits; some minutes a crate)
set -u
cd "$(dirname "$0")/.." || exit 1
command -v rt >/dev/null || { echo "edits: skipped, there is no rt"; exit 0; }
copy=$(mktemp -d) || exit 1
trap 'rm -rf "$copy"' EXIT
tar -cf - --exclude=out crates crates.txt HANDLES | tar -xf - -C "$copy" || exit 1
[ $# -gt 0 ] || set -- $(ls tests/edits)
failed=0
for crate in "$@"; do
    rm -rf "$copy/crates/$crate/must-fail"
    cp -r "tests/edits/$crate" "$copy/crates/$crate/must-fail" || exit 1
    if (cd "$copy" && rt must-fail "$crate") >"$copy/log" 2>&1 && ! grep -qE 'NOT REFUSED|BAD EDIT' "$copy/log"; then
        echo "edits: $crate: $(ls "tests/edits/$crate" | wc -l) refused"
    else
        grep -E 'NOT REFUSED|BAD EDIT|error' "$copy/log"
        echo "edits: $crate: failed"
        failed=1
    fi
done
exit $failed
