#!/usr/bin/env bash
# Runs the built gdbmtool over random commands, and compares all that it prints and says with a sorted map's answers; reads
# each file that it left with our gdbm_dump, and with GNU's tools where they are installed; fills a file twice.
# usage: tests/session.sh BIN_DIR       (skipped, with status 0, where python3 is missing)
set -u
bin=$(cd "${1:?usage: tests/session.sh BIN_DIR}" && pwd) || exit 2
here=$(cd "$(dirname "$0")" && pwd) || exit 2
tool=$bin/gdbmtool dump=$bin/gdbm_dump
[ -x "$tool" ] && [ -x "$dump" ] || { echo "session: $bin lacks a program"; exit 2; }
command -v python3 >/dev/null 2>&1 || { echo "session: skipped: python3 is missing"; exit 0; }
work=$(mktemp -d) || exit 2
trap 'rm -rf "$work"' EXIT
cd "$work" || exit 2
passed=0 failed=0

passes() { passed=$((passed + 1)); }
fails() { echo "session: failed: $*"; failed=$((failed + 1)); }
same() { if cmp -s "$2" "$3"; then passes; else fails "$1: $(diff "$2" "$3" | head -n 3 | head -c 300)"; fi; }

# A tool of GNU dbm 1.23, or nothing.
gnu() {
    local found
    found=$(PATH=${GNU_PATH:-/usr/local/bin:/usr/bin:/bin} command -v "$1") || return 1
    "$found" --version 2>/dev/null | head -n 1 | grep -q '1\.23' && echo "$found"
}
gnu_dump=$(gnu gdbm_dump) || gnu_dump=
gnu_tool=$(gnu gdbmtool) || gnu_tool=
[ -n "$gnu_dump" ] && [ -n "$gnu_tool" ] || echo "session: skipped: GNU's tools 1.23 are missing, so they read no file"

# reads WHAT FILE RECORDS: each dumper gives the records, and GNU's tool counts them.
reads() {
    local each
    for each in "$dump" $gnu_dump; do
        "$each" "$2" >dumped 2>said
        python3 "$here/session.py" records dumped >found || fails "$1: no dump of $each"
        same "$1: records by $each" "$3" found
    done
    if [ -n "$gnu_tool" ]; then
        if [ "$("$gnu_tool" -N -r "$2" count </dev/null 2>&1 | tr -dc 0-9)" = "$(wc -l <"$3")" ]; then passes; else fails "$1: GNU's count"; fi
    fi
}

# asks SEED OPTION..: 2,000 random commands on a new file
asks() {
    local seed=$1
    shift
    rm -rf wanted && mkdir wanted
    python3 "$here/session.py" script wanted "$seed" 2000 || { fails "no script $seed"; return; }
    "$tool" "$@" "r$seed.gdbm" <wanted/script >out 2>err
    [ $? = 2 ] && passes || fails "commands $seed: the status"
    same "commands $seed: output" wanted/out out
    same "commands $seed: errors" wanted/err err
    reads "commands $seed" "r$seed.gdbm" wanted/records
}
asks 1
asks 2 -b 512
asks 3 -x -b 512
asks 4 -b 8192 -c 1

# --- a file of records made from a number, twice

for turn in 1 2; do
    printf 'fill 7 20000\ncount\n' | "$tool" -n fill$turn.gdbm >filled$turn 2>err
    [ $? = 0 ] && [ ! -s err ] && passes || fails "fill $turn: status or errors"
done
same "two fills" filled1 filled2
same "two files" fill1.gdbm fill2.gdbm
new=$(sed -n '1s/^fill 20000 new \([0-9]*\) replaced [0-9]* bytes [0-9]*$/\1/p' filled1)
[ -n "$new" ] && [ "$(sed -n 2p filled1)" = "$new" ] && passes || fails "fill: $(head -n 2 filled1)"
printf 'list\n' | "$tool" -r fill1.gdbm >listed 2>err
[ "$(wc -l <listed)" = "$new" ] && passes || fails "the list of a filled file"
# its records, from the list: neither has a blank in it
python3 - listed >records <<'END'
import sys
for line in sorted(" ".join(part.encode().hex() for part in line.split()) for line in open(sys.argv[1])):
    print(line)
END
reads "fill" fill1.gdbm records

echo "session: $passed passed, $failed failed"
[ "$failed" = 0 ]
