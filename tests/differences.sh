#!/usr/bin/env bash
# Tries what docs/DIFFERENCES.md says of GNU's programs and of ours, on both.
# usage: tests/differences.sh BIN_DIR       (skipped, with status 0, where GNU's programs 1.23 are missing)
set -u
bin=$(cd "${1:?usage: tests/differences.sh BIN_DIR}" && pwd) || exit 2
for program in gdbm_dump gdbm_load gdbmtool; do
    [ -x "$bin/$program" ] || { echo "differences: $bin lacks $program"; exit 2; }
done

# A tool of GNU dbm 1.23, or nothing.
gnu() {
    local found
    found=$(PATH=${GNU_PATH:-/usr/local/bin:/usr/bin:/bin} command -v "$1") || return 1
    "$found" --version 2>/dev/null | head -n 1 | grep -q '1\.23' && echo "$found"
}
gnu_dump=$(gnu gdbm_dump) && gnu_tool=$(gnu gdbmtool) && gnu_load=$(gnu gdbm_load) || {
    echo "differences: skipped: GNU's programs 1.23 are missing"
    exit 0
}
work=$(mktemp -d) || exit 2
trap 'rm -rf "$work"' EXIT
export HOME=$work LC_ALL=C
cd "$work" || exit 2
passed=0 failed=0

passes() { passed=$((passed + 1)); }
fails() { echo "differences: failed: $*"; failed=$((failed + 1)); }
is() { if [ "$2" = "$3" ]; then passes; else fails "$1: '${3:0:300}' in place of '${2:0:300}'"; fi; }

# told INPUT PROGRAM WORD..: the status of a run, then its output, then what it said, each behind a bar
told() {
    local input=$1 got
    shift
    printf "$input" | timeout 10 "$@" >out 2>err
    got="$?|$(tr '\n' '|' <out)$(tr '\n' '|' <err)"
    echo "${got%|}"
}
# gnus WHAT INPUT WANTED WORD.. and ours: a run of gdbmtool on a file with the records k v and q w
gnus() {
    local what=$1 input=$2 wanted=$3
    shift 3
    cp sound t.gdbm
    is "$what, GNU" "$wanted" "$(told "$input" "$gnu_tool" "$@" t.gdbm)"
}
ours() {
    local what=$1 input=$2 wanted=$3
    shift 3
    cp sound t.gdbm
    is "$what, ours" "$wanted" "$(told "$input" "$bin/gdbmtool" "$@" t.gdbm)"
}
printf 'store k v\nstore q w\n' | "$bin/gdbmtool" -b 512 sound || fails "no database"

# --- all programs

mkfifo lines
"$gnu_tool" -N -q held.gdbm <lines >held 2>&1 &
holder=$!
exec 5>lines
printf 'store a 1\n' >&5
for _ in 1 2 3 4 5 6 7 8 9 10; do [ -s held.gdbm ] || sleep 0.2; done
is "a locked file, GNU" "0|gdbmtool: stdin:1.1-6: cannot open database held.gdbm: Can't be writer" "$(told 'count\n' "$gnu_tool" -N -q held.gdbm)"
is "a locked file, ours" 0 "$("$bin/gdbmtool" held.gdbm </dev/null >out 2>&1; echo $?)"
is "a locked file, opened by ours" 0 "$(told 'count\n' "$bin/gdbmtool" held.gdbm | cut -d'|' -f1)"
exec 5>&-
wait $holder

cp sound damaged
printf '\x18' | dd of=damaged bs=1 seek=1304 conv=notrunc 2>/dev/null
is "a damaged file, GNU" "0|2 items|" "$(told 'count\n' "$gnu_tool" -N -q damaged | sed 's/There are \(.*\) in the database./\1|/')"
is "a damaged file, ours" "2|gdbmtool: 1: error 11 BadHashEntry 1024 7" "$(told 'count\n' "$bin/gdbmtool" damaged)"
is "a dump of a damaged file, GNU: its status" 1 "$("$gnu_dump" damaged >out 2>err; echo $?)"
is "a dump of a damaged file, GNU: its end" '# End of data' "$(tail -n 1 out)"
is "a dump of a damaged file, ours" "1|gdbm_dump: error 11 BadHashEntry 1024 7" "$(told '' "$bin/gdbm_dump" damaged)"

if [ -c /dev/full ]; then
    is "a full device, GNU" 0 "$("$gnu_dump" sound >/dev/full 2>err; echo $?)"
    is "a full device, ours" "1 gdbm_dump: output fault" "$("$bin/gdbm_dump" sound 2>err >/dev/full; echo "$? $(cat err)")"
fi
for option in -h --help --usage -V --version; do
    is "gdbmtool $option, GNU" 0 "$("$gnu_tool" $option >out 2>&1; echo $?)"
    is "gdbmtool $option, ours" "3|gdbmtool: usage error" "$(told '' "$bin/gdbmtool" $option)"
    is "gdbm_dump $option, ours" "3|gdbm_dump: usage error" "$(told '' "$bin/gdbm_dump" $option)"
done
for words in '-b abc' '-n -n' '-n -r'; do
    # shellcheck disable=SC2086
    is "$words, GNU" 0 "$(told 'version\n' "$gnu_tool" -N -q $words t.gdbm | cut -d'|' -f1)"
    # shellcheck disable=SC2086
    is "$words, ours" "3|gdbmtool: usage error" "$(told 'version\n' "$bin/gdbmtool" $words t.gdbm)"
done
cp sound t.mode
is "t.mode, GNU" "0|w" "$(told 'fetch q\n' "$gnu_tool" -N -q t.mode)"
is "t.mode, ours" "3|gdbmtool: usage error" "$(told 'fetch q\n' "$bin/gdbmtool" t.mode)"
cp sound "$(printf '\377')"
is "a name that is no text, GNU" "0|w" "$(told 'fetch q\n' "$gnu_tool" -N -q "$(printf '\377')")"
is "a name that is no text, ours" "3|gdbmtool: usage error" "$(told 'fetch q\n' "$bin/gdbmtool" "$(printf '\377')")"
(umask 0 && echo 'store k v' | "$gnu_tool" -N -q gnus.gdbm && echo 'store k v' | "$bin/gdbmtool" ours.gdbm)
is "permissions of a new file, GNU" -rw-r--r-- "$(ls -l gnus.gdbm | cut -c 1-10)"
is "permissions of a new file, ours" -rw-rw-rw- "$(ls -l ours.gdbm | cut -c 1-10)"
is "the length of a new file, GNU" 16384 "$(echo 'count' | "$gnu_tool" -N -q -n -b 4096 n.gdbm >out; wc -c <n.gdbm)"
is "the length of a new file, ours" 12288 "$(echo 'count' | "$bin/gdbmtool" -n -b 4096 n.gdbm >out; wc -c <n.gdbm)"
is "GNU reads it" "0|v" "$(told 'store k v\nfetch k\n' "$gnu_tool" -N -q n.gdbm)"
for limit in 1 8; do
    rm -f small.gdbm
    (ulimit -f $limit && trap '' XFSZ && echo 'fill 1 10000' | "$bin/gdbmtool" small.gdbm >out 2>err)
    is "a full disk after $limit KiB, ours" "gdbmtool: 1: error 27 VaultFault" "$(cat err)"
    is "a half-made file of $limit KiB, ours" 2 "$(told 'count\n' "$bin/gdbmtool" small.gdbm | grep -o '^2|gdbmtool: 1: error [78] Bad' | cut -c 1)"
done
rm -f small.gdbm
is "the signal, ours" 153 "$( (ulimit -f 1 && echo 'store k v' | bash -c '"$0" small.gdbm; exit $?' "$bin/gdbmtool") >out 2>&1; echo $?)"
rm -f small.gdbm
is "the signal, GNU" 153 "$( (ulimit -f 1 && echo 'store k v' | bash -c '"$0" -N -q small.gdbm; exit $?' "$gnu_tool") >out 2>&1; echo $?)"
if [ "$(id -u)" = 0 ] && command -v setpriv >/dev/null 2>&1; then
    chmod 755 .
    cp sound fixed.gdbm
    cp "$bin/gdbmtool" gdbmtool
    chmod 444 fixed.gdbm
    chmod 755 gdbmtool
    user=(setpriv --reuid=65534 --regid=65534 --clear-groups)
    is "a file without leave to write, GNU" "0|gdbmtool: stdin:1.1-6: cannot open database fixed.gdbm: File open error: Permission denied" \
        "$(told 'count\n' "${user[@]}" "$gnu_tool" -N -q fixed.gdbm)"
    is "a file without leave to write, ours" "1|v|gdbmtool: 2: error 27 VaultFault|gdbmtool: 3: error 13 NeedRecovery" \
        "$(told 'fetch k\nstore k w\nfetch k\n' "${user[@]}" ./gdbmtool fixed.gdbm)"
    if cmp -s sound fixed.gdbm; then passes; else fails "a file without leave to write is changed"; fi
else
    echo "differences: skipped: no user without leave can run a program here"
fi

# --- gdbmtool

echo version >.gdbmtoolrc
is "a startup file, GNU" "0|GDBM version 1.23. 04/02/2022|w" "$(told 'fetch q\n' "$gnu_tool" -q sound)"
is "a startup file, ours" "0|w" "$(told 'fetch q\n' "$bin/gdbmtool" sound)"
rm .gdbmtoolrc
is "a command as a word, GNU" "0|w" "$(told '' "$gnu_tool" -N -q sound fetch q)"
is "a command as a word, ours" "3|gdbmtool: usage error" "$(told '' "$bin/gdbmtool" sound fetch q)"
for option in '-f lines' '-d 0' -l -m -s -t -T; do
    # shellcheck disable=SC2086
    is "gdbmtool $option, ours" "3|gdbmtool: usage error" "$(told '' "$bin/gdbmtool" $option sound)"
done
gnus "a refused command" 'fetch x\nfetch q\n' '0|w|gdbmtool: stdin:1.1-8: No such item found' -N -q
ours "a refused command" 'fetch x\nfetch q\n' '2|w|gdbmtool: 1: error 15 ItemNotFound'
gnus "an unknown command" 'bake\nfetch q\n' '1|gdbmtool: stdin:1.1-4: Unknown command' -N -q
ours "an unknown command" 'bake\nfetch q\n' '2|w|gdbmtool: 1: UnknownCommand'
gnus "a line that isn't ended" 'fetch q' "1|gdbmtool: stdin:1.1-7: syntax error, unexpected \$end, expecting '\\n' or ';'" -N -q
ours "a line that isn't ended" 'fetch q' '0|w'
gnus "a semicolon" 'fetch q;fetch k\n' '0|w|v' -N -q
ours "a semicolon" 'store a;b c\nfetch a;b\n' '0|c'
gnus "a comment behind a command" 'count # how many\n' '0|gdbmtool: stdin:1.1-17: count: too many arguments' -N -q
ours "a comment behind a command" 'count # how many\n' '0|2'
gnus "an escape" 'fetch "\\q"\nstore n "\\101"\nfetch n\n' '0|w|101' -N -q
ours "an escape" 'fetch "\\q"\nstore n "\\101"\nfetch n\n' '2|A|gdbmtool: 1: Escape'
gnus "a carriage return" 'fetch q\r\n' '0|gdbmtool: stdin:1.1-9: No such item found' -N -q
ours "a carriage return" 'fetch q\r\n' '0|w'
gnus "printed bytes" 'store n "a\\n\\"\\\\"\nfetch n\n' '0|a\n"\' -N -q
ours "printed bytes" 'store n "a\\n\\"\\\\"\nfetch n\n' '0|a\012\"\\'
gnus "count" 'count\n' '0|There are 2 items in the database.' -N -q
ours "count" 'count\n' '0|2'
gnus "first and next" 'first\nnext\n' '0|k|v|q|w' -N -q
ours "first and next" 'first\nnext\n' '0|k v|q w'
gnus "version" 'version\n' '0|GDBM version 1.23. 04/02/2022' -N -q
ours "version" 'version\n' '0|GDBM version 1.23'
gnus "a refused open" 'count\nopen none/x\nfetch q\n' \
    '0|There are 2 items in the database.|w|gdbmtool: stdin:2.1-12: cannot open database none/x: File open error: No such file or directory' -N -q
ours "a refused open" 'count\nopen none/x\nfetch q\n' '1|2|gdbmtool: 2: error 27 VaultFault|gdbmtool: 3: error 26 NotOpen'
gnus "close" 'fetch q\nclose\nfetch q\n' '0|w|w' -N -q
ours "close" 'fetch q\nclose\nfetch q\n' '2|w|gdbmtool: 3: error 26 NotOpen'
gnus "two variables" 'set cachesize=3 blocksize=512\nset nosync\n' 0 -N -q
ours "two variables" 'set cachesize=3 blocksize=512\nset nosync\n' '2|gdbmtool: 1: Arguments|gdbmtool: 2: Arguments'
gnus "insert" 'insert a b\n' "1|gdbmtool: stdin:1.1-6: Unknown command|gdbmtool: stdin:1.1-8: syntax error, unexpected identifier, expecting '\\n' or ';'" -N -q
ours "insert" 'insert a b\ninsert a c\nfetch a\n' '2|b|gdbmtool: 2: error 16 CannotReplace'
for command in avail bucket define dir downgrade export hash header import recover reorganize snapshot status sync upgrade; do
    ours "$command" "$command\n" '2|gdbmtool: 1: Unbuilt'
done
for command in cache current debug help history perror shell sibling source unset; do
    ours "$command" "$command\n" '2|gdbmtool: 1: UnknownCommand'
done
ours "the block size" 'set\n' '0|blocksize=0|cachesize=100|delim1=,|format=standard|open=wrcreat'

# --- gdbm_dump, and what GNU's gdbm_load makes of dumps

"$gnu_dump" sound >gnus.txt
"$bin/gdbm_dump" sound >ours.txt
is "the head, GNU" "# GDBM dump file created by GDBM version 1.23. 04/02/2022 on DATE|#:version=1.1|#:file=sound|#:uid=.." \
    "$(head -n 4 gnus.txt | sed 's/ on .*/ on DATE/; s/uid=.*/uid=../' | tr '\n' '|' | sed 's/|$//')"
is "the head, ours" "# GDBM dump file created by gdbm_dump|#:version=1.1|#:file=sound|#:format=standard" "$(head -n 4 ours.txt | tr '\n' '|' | sed 's/|$//')"
cp sound 'a,b'
is "a name with a comma, GNU" '#:file=a,b' "$("$gnu_dump" a,b | sed -n 3p)"
"$gnu_dump" a,b >comma.txt
is "it is refused by GNU" "1|gdbm_load: comma.txt:3: Malformed data" "$(told '' "$gnu_load" comma.txt l.gdbm)"
is "a name with a comma, ours" '#:format=standard' "$("$bin/gdbm_dump" a,b | sed -n 3p)"
printf 'store k v\n' | "$bin/gdbmtool" -n pair
is "the record of a binary dump, GNU" 00000001000000006b000000010000000076 "$("$gnu_dump" -H binary pair | tail -c 18 | od -An -v -tx1 | tr -d ' \n')"
is "the record of a binary dump, ours" 000000016b0000000176 "$("$bin/gdbm_dump" -H binary pair | tail -c 10 | od -An -v -tx1 | tr -d ' \n')"
is "the size of a binary dump, ours" 87 "$("$bin/gdbm_dump" --format=binary pair | wc -c)"
is "gdbm_dump of two words, ours" "3|gdbm_dump: usage error" "$(told '' "$bin/gdbm_dump" sound other.txt)"
cp sound itself
"$gnu_dump" itself itself >out 2>&1
is "a dump into the database itself, GNU" 0 "$(wc -c <itself)"

cp sound longer
printf '\x00\x04' | dd of=longer bs=1 seek=32 conv=notrunc 2>/dev/null
is "a file that is longer than it says, GNU" "0|gdbmtool: stdin:1.1-8: Can't fetch data: Database needs recovery" "$(told 'fetch q\n' "$gnu_tool" -N -q longer)"
is "a file that is longer than it says, ours" "2|gdbmtool: 1: error 13 NeedRecovery" "$(told 'fetch q\n' "$bin/gdbmtool" longer)"
is "the same, to read" "0|w" "$(told 'fetch q\n' "$bin/gdbmtool" -r longer)"
cp sound empty
is "an empty value" 0 "$(told 'store e ""\n' "$gnu_tool" -N -q empty)"
is "dumps of an empty value" "$("$gnu_dump" empty | sed -n '/^# End of header/,$p')" "$("$bin/gdbm_dump" empty | sed -n '/^# End of header/,$p')"
"$gnu_dump" empty >empty.txt
is "it is refused by GNU" 1 "$("$gnu_load" empty.txt l.gdbm >out 2>&1; echo $?)"

# --- gdbm_load

# both WHAT GNUS OURS WORD..: the status of a run over a database with the record `q`, and how many records it has then
both() {
    local what=$1 gnus=$2 ours=$3 load got
    shift 3
    for load in "$gnu_load" "$bin/gdbm_load"; do
        printf 'store q w\n' | "$bin/gdbmtool" -n t.gdbm
        timeout 10 "$load" "$@" >out 2>err </dev/null
        got="$? $(echo count | "$bin/gdbmtool" -r t.gdbm)"
        if [ "$load" = "$gnu_load" ]; then is "$what, GNU" "$gnus" "$got"; else is "$what, ours" "$ours" "$got"; fi
    done
}
printf 'store k v\n' | "$bin/gdbmtool" -n one
"$bin/gdbm_dump" one >one.txt
both "a file that is there" '0 1' '0 1' one.txt t.gdbm
both "an update" '3 1' '0 2' -U one.txt t.gdbm
sed 's/count=1/count=2/' one.txt >two.txt
both "a wrong count" '0 1' '1 1' two.txt t.gdbm
sed '/count/,$d' one.txt >endless.txt
both "no end" '0 1' '1 0' endless.txt t.gdbm
head -c 50 one.txt >front.txt
both "a front of a head" '0 0' '1 1' front.txt t.gdbm
both "an empty value" '1 0' '0 3' empty.txt t.gdbm
cp one.txt itself.txt
"$gnu_load" itself.txt itself.txt >out 2>&1
is "the database itself, GNU" 1 "$(if cmp -s one.txt itself.txt; then echo 0; else echo 1; fi)"
cp one.txt itself.txt
is "the database itself, ours" '1|gdbm_load: error 21 InUse' "$(told '' "$bin/gdbm_load" itself.txt itself.txt)"
is "the database itself is kept, ours" 0 "$(if cmp -s one.txt itself.txt; then echo 0; else echo 1; fi)"
sed 's/^#:version=1.1/&\n#:mode=640/' one.txt >mode.txt
for row in "$gnu_load|one.txt|600" "$gnu_load|mode.txt|640" "$bin/gdbm_load|one.txt|644" "$bin/gdbm_load|mode.txt|644"; do
    IFS='|' read -r load text wanted <<<"$row"
    rm -f m.gdbm
    (umask 022 && "$load" "$text" m.gdbm)
    is "the permissions of $text by $load" "$wanted" "$(stat -c %a m.gdbm)"
done
for option in '-M' '-m 600' '-u root'; do
    # shellcheck disable=SC2086
    is "$option, ours" '3|gdbm_load: usage error' "$(told '' "$bin/gdbm_load" $option one.txt t.gdbm)"
done
rm -f one
is "what is said of a new file, GNU" '0|gdbm_load: created one' "$(told '' "$gnu_load" one.txt)"
is "what is said of a new file, ours" 0 "$(told '' "$bin/gdbm_load" one.txt)"
"$gnu_dump" -H binary one one.bin
both "GNU's binary dump" '0 1' '1 0' one.bin t.gdbm

echo "differences: $passed passed, $failed failed"
[ "$failed" = 0 ]
