#!/usr/bin/env bash
# Tries our programs beside those of GNU dbm 1.23: files that one side made by random commands are read, changed and read again
# by the other side; the files of a corpus are changed by both; dumps go both ways; Python's dbm.gnu opens our files; and what
# docs/DIFFERENCES.md says of both sides is tried.
# usage: tests/gnu.sh BIN_DIR [CORPUS [ROUNDS]]    (skipped, with status 0, where GNU's programs or python3 are missing)
set -u
bin=$(cd "${1:?usage: tests/gnu.sh BIN_DIR [CORPUS [ROUNDS]]}" && pwd) || exit 2
here=$(cd "$(dirname "$0")" && pwd) || exit 2
corpus=${2:-} rounds=${3:-24}
[ ! -d "$corpus" ] || corpus=$(cd "$corpus" && pwd)
tool=$bin/gdbmtool dump=$bin/gdbm_dump load=$bin/gdbm_load
[ -x "$tool" ] && [ -x "$dump" ] || { echo "gnu: $bin lacks a program"; exit 2; }
has() { command -v "$1" >/dev/null 2>&1; }
has python3 || { echo "gnu: skipped: python3 is missing"; exit 0; }

# A tool of GNU dbm 1.23, or nothing.
gnu() {
    local found
    found=$(PATH=${GNU_PATH:-/usr/local/bin:/usr/bin:/bin} command -v "$1") || return 1
    "$found" --version 2>/dev/null | head -n 1 | grep -q '1\.23' && echo "$found"
}
gnu_dump=$(gnu gdbm_dump) && gnu_tool=$(gnu gdbmtool) && gnu_load=$(gnu gdbm_load) || {
    echo "gnu: skipped: GNU's programs 1.23 are missing"
    exit 0
}
work=$(mktemp -d) || exit 2
trap 'rm -rf "$work"' EXIT
cd "$work" || exit 2
passed=0 failed=0

passes() { passed=$((passed + 1)); }
fails() { echo "gnu: failed: $*"; failed=$((failed + 1)); }
same() { if cmp -s "$2" "$3"; then passes; else fails "$1: $(diff "$2" "$3" | head -n 3 | head -c 300)"; fi; }
is() { if [ "$2" = "$3" ]; then passes; else fails "$1: '$(head -c 200 <<<"$3")' in place of '$(head -c 200 <<<"$2")'"; fi; }
data_of() { sed -n '/^# End of header$/,$p' "$1"; }

# reads WHAT FILE RECORDS: both sides give the same data in the same order, which are the records, and count them; ours opens it to write
reads() {
    "$dump" "$2" >ours.txt 2>err || fails "$1: our dump: $(cat err)"
    "$gnu_dump" "$2" >gnus.txt 2>err || fails "$1: GNU's dump: $(cat err)"
    same "$1: the data of both dumps" <(data_of ours.txt) <(data_of gnus.txt)
    python3 "$here/session.py" records ours.txt >found || fails "$1: no dump"
    same "$1: records" "$3" found
    is "$1: our count" "$(wc -l <"$3")" "$(echo count | "$tool" "$2" 2>&1)"
    is "$1: GNU's count" "$(wc -l <"$3")" "$("$gnu_tool" -N -q -r "$2" count </dev/null 2>&1 | tr -dc 0-9)"
}

# changes SIDE FILE SEED COUNT OPTION..: random changes of a file by ours or by gnus, and of the file `records`; `full` ones are
# GNU's without empty data
changes() {
    local side=$1 file=$2 seed=$3 count=$4
    shift 4
    python3 "$here/gnu.py" changes records "$seed" "$count" "$side" >script || fails "no script $seed"
    if [ "$side" = ours ]; then
        "$tool" "$@" "$file" <script >out 2>err
    else
        "$gnu_tool" -N -q "$@" "$file" <script >out 2>err
    fi
    is "$file by $side: status and errors" "0 " "$? $(cat out err)"
}

# --- files of random commands, begun by either side

sizes=(512 1024 4096 8192 16384 65536)
for ((round = 0; round < rounds; round++)); do
    options="-b ${sizes[$((round / 2 % 6))]}"
    [ $((round / 12 % 2)) = 0 ] || options="$options -x"
    first=ours second=gnus
    [ $((round % 2)) = 0 ] || first=gnus second=ours
    : >records
    rm -f a.gdbm
    # shellcheck disable=SC2086
    changes $first a.gdbm $((round * 3 + 1)) 500 $options
    reads "round $round, made by $first with $options" a.gdbm records
    changes $second a.gdbm $((round * 3 + 2)) 300
    changes $first a.gdbm $((round * 3 + 3)) 300
    reads "round $round, changed by both" a.gdbm records
done

# --- the files of a corpus

if [ -d "$corpus" ]; then
    seed=1000
    for file in "$corpus"/*.gdbm; do
        cp "$file" a.gdbm
        chmod u+w a.gdbm
        "$gnu_dump" a.gdbm gnus.txt
        python3 "$here/session.py" records gnus.txt >records
        reads "$(basename "$file")" a.gdbm records
        for side in ours gnus ours; do
            changes $side a.gdbm $((seed += 1)) 200
        done
        reads "$(basename "$file"), changed by both" a.gdbm records
    done
else
    echo "gnu: skipped: there is no corpus"
fi

# --- dumps: each side loads those of the other, without empty data, which GNU's gdbm_load refuses

for seed in 1 2 3; do
    : >records
    rm -f a.gdbm b.gdbm c.gdbm
    changes full a.gdbm $seed 400
    "$dump" a.gdbm >ours.txt
    "$gnu_load" ours.txt b.gdbm >out 2>err || fails "GNU's gdbm_load of our dump: $(cat err)"
    reads "our dump, loaded by GNU" b.gdbm records
    if [ -x "$load" ]; then
        "$gnu_dump" a.gdbm gnus.txt
        "$load" gnus.txt c.gdbm >out 2>err || fails "our gdbm_load of GNU's dump: $(cat err)"
        reads "GNU's dump, loaded by ours" c.gdbm records
    fi
done

# --- Python's dbm.gnu

python=
for each in python3 /usr/bin/python3; do
    if "$each" -c 'import dbm.gnu' 2>/dev/null; then python=$each; fi
done
if [ -n "$python" ]; then
    for seed in 1 2 3; do
        : >records
        rm -f a.gdbm
        changes ours a.gdbm $seed 600 -b 512
        "$python" "$here/gnu.py" python a.gdbm records $seed 400 2>err || fails "dbm.gnu: $(tail -n 1 err)"
        reads "changed by dbm.gnu" a.gdbm records
        changes ours a.gdbm $((seed + 10)) 200
        "$python" "$here/gnu.py" python a.gdbm records $seed 0 2>err && passes || fails "dbm.gnu: $(tail -n 1 err)"
    done
else
    echo "gnu: skipped: no python3 has dbm.gnu"
fi

echo "gnu: $passed passed, $failed failed"
[ "$failed" = 0 ]
