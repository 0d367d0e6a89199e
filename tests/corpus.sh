#!/usr/bin/env bash
# Dumps each file of a corpus that GNU dbm made, and compares the data lines with the dump beside it.
# usage: tests/corpus.sh PROGRAM CORPUS      (skipped, with status 0, where either is missing)
set -u
program=${1:-bin/gdbm_dump}
corpus=${2:-${GDBM_CORPUS:-}}
[ -x "$program" ] && [ -d "$corpus" ] || { echo "corpus: skipped"; exit 0; }
lines() { sed -n '/^# End of header$/,$p' "$1"; }
failed=0 passed=0
for file in "$corpus"/*.gdbm; do
    if "$program" "$file" >/tmp/corpus.$$ 2>&1 && cmp -s <(lines /tmp/corpus.$$) <(lines "${file%.gdbm}.txt"); then
        passed=$((passed + 1))
    else
        echo "corpus: $file differs"
        failed=$((failed + 1))
    fi
done
rm -f /tmp/corpus.$$
echo "corpus: $passed passed, $failed failed"
[ "$failed" = 0 ]
