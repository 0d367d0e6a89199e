#!/usr/bin/env bash
# Runs the built programs over streams, names and files of the host of every kind: closed descriptors, pipes, folders, links,
# files without leave, full devices, closed pipes, and a file that is cut while it is dumped.
# usage: tests/host.sh BIN_DIR        (builds nothing; a check whose tool is missing says so and is skipped)
set -u
bin=$(cd "${1:?usage: tests/host.sh BIN_DIR}" && pwd) || exit 2
dump=$bin/gdbm_dump tool=$bin/gdbmtool
data=$(cd "$(dirname "$0")/../crates/gdbm_dump" && pwd) || exit 2
for program in "$dump" "$tool"; do
    [ -x "$program" ] || { echo "host: $program is no program"; exit 2; }
done
work=$(mktemp -d) || exit 2
trap 'chmod -R u+rwx "$work"; rm -rf "$work"' EXIT
cd "$work" || exit 2
passed=0 failed=0

OUTPUT='gdbm_dump: output fault'
FAULT='gdbm_dump: error 27 VaultFault'
ABSENT='gdbm_dump: error 1 Absent'
DAMAGED='gdbm_dump: error 11 BadHashEntry 1024 7'

passes() { passed=$((passed + 1)); }
fails() { echo "host: failed: $*"; failed=$((failed + 1)); }
skips() { echo "host: skipped: $*"; }
has() { command -v "$1" >/dev/null 2>&1; }

# wants WHAT STATUS OUT ERR: the last run, whose status is in `status`, and whose output in the files `out` and `err`, went so.
# OUT is the name of a file that is wanted as the output.
wants() {
    if [ "$status" != "$2" ]; then
        fails "$1: status $status in place of $2 ($(head -c 200 err))"
    elif ! cmp -s "$3" out; then
        fails "$1: another output"
    elif [ "$(cat err)" != "$4" ]; then
        fails "$1: standard error is '$(head -c 200 err)' in place of '$4'"
    else
        passes
    fi
}

# runs NAME: dumps it; a run that doesn't end within five seconds has status 124.
runs() {
    timeout 5 "$dump" "$@" >out 2>err </dev/null
    status=$?
}

keeps() {
    if cmp -s "$2" "$3"; then passes; else fails "$1: $2 has other bytes"; fi
}

fresh() {
    rm -rf a.gdbm b.gdbm
    cp sound a.gdbm
    cp damaged b.gdbm
}

cp "$data/data/a.gdbm" sound
head -c 1537 sound >damaged
cp "$data/stdout" whole
: >nothing
fresh

# --- standard streams that are closed, each choice of them: the file keeps its bytes, and what can't be written is told

# closed CHOICE NAME: dumps a file with the streams of the choice closed.
closed() {
    : >out
    : >err
    (
        exec >out 2>err </dev/null
        case $1 in *0*) exec <&- ;; esac
        case $1 in *1*) exec >&- ;; esac
        case $1 in *2*) exec 2>&- ;; esac
        exec "$dump" "$2"
    )
    status=$?
}

for choice in none 0 1 2 01 02 12 012; do
    fresh
    said=$OUTPUT dumped=nothing wanted=1
    case $choice in *1*) ;; *) said='' dumped=whole wanted=0 ;; esac
    refused=$DAMAGED
    case $choice in *2*) said='' refused='' ;; esac
    closed "$choice" a.gdbm
    wants "closed streams $choice, a sound file" "$wanted" "$dumped" "$said"
    keeps "closed streams $choice" a.gdbm sound
    closed "$choice" b.gdbm
    wants "closed streams $choice, a damaged file" 1 nothing "$refused"
    keeps "closed streams $choice" b.gdbm damaged
done
closed 2 ''
wants "no name, and standard error closed" 3 nothing ''

# --- outputs that fail

if [ -c /dev/full ]; then
    : >out
    "$dump" a.gdbm 2>err >/dev/full
    status=$?
    wants "a full device as output" 1 nothing "$OUTPUT"
    "$dump" b.gdbm >out 2>/dev/full
    status=$?
    : >err
    wants "a full device as standard error" 1 nothing ''
else
    skips "no /dev/full"
fi

: >out
{ sleep 0.3; "$dump" a.gdbm 2>err; echo $? >status; } | true
status=$(cat status)
wants "a closed pipe as output" 1 nothing "$OUTPUT"

# --- what is no regular file, as a name and as a companion: nothing hangs, and all stays as it is

mkdir folder
printf 'notes of the user\n' >notes
kinds="folder /dev/null"
if has mkfifo; then
    mkfifo pipe
    kinds="$kinds pipe"
else
    skips "mkfifo is missing, so no pipe is tried"
fi
for kind in $kinds; do
    runs "$kind"
    wants "$kind as a name" 1 nothing "$FAULT"
done
for kind in $kinds notes; do
    ln -s "$(realpath "$kind")" a.gdbm.mode
    runs a.gdbm
    wants "$kind as a companion" 0 whole ''
    keeps "$kind as a companion" a.gdbm sound
    [ -L a.gdbm.mode ] || fails "$kind as a companion is gone"
    rm -f a.gdbm.mode
done
[ "$(cat notes)" = 'notes of the user' ] || fails "notes beside a file are changed"

# --- names that are links, and names of nothing

mkdir linked
ln -s ../a.gdbm linked/a.gdbm
runs linked/a.gdbm
wants "a link to a file" 0 whole ''
ln a.gdbm linked/hard.gdbm
runs linked/hard.gdbm
sed 's/^#:file=.*/#:file=hard.gdbm/' whole >hard
wants "another name of a file" 0 hard ''
ln -s nowhere dangling
ln -s loop loop
ln -s folder to_folder
for link in dangling loop to_folder; do
    runs "$link"
    wants "the link $link" 1 nothing "$FAULT"
done
long=$(printf '%0300d' 0)
for name in absent.gdbm none/a.gdbm a.gdbm/x a.gdbm/ "$long" "$long/a.gdbm"; do
    runs "$name"
    wants "the name ${name:0:40}" 1 nothing "$ABSENT"
done

# --- leave of the host, seen by a user who is not root

if [ "$(id -u)" != 0 ]; then
    as_user() { "$@"; }
elif has setpriv; then
    as_user() { setpriv --reuid=65534 --regid=65534 --clear-groups "$@"; }
else
    as_user() { return 125; }
fi
chmod 755 .
mkdir shut search
for folder in shut search; do cp sound $folder/a.gdbm; done
cp sound secret.gdbm
cp sound fixed.gdbm
chmod 000 shut secret.gdbm
chmod 711 search
chmod 444 fixed.gdbm
asks() {
    as_user timeout 5 "$dump" "$1" >out 2>err </dev/null
    status=$?
}
if as_user test -x "$dump" && as_user test -r a.gdbm; then
    asks shut/a.gdbm
    wants "a folder without leave to search" 1 nothing "$FAULT"
    asks secret.gdbm
    wants "a file without leave to read" 1 nothing "$FAULT"
    asks search/a.gdbm
    wants "a folder without leave to read" 0 whole ''
    asks fixed.gdbm
    sed 's/^#:file=.*/#:file=fixed.gdbm/' whole >fixed
    wants "a file without leave to write" 0 fixed ''
else
    skips "no user without leave can run the program here"
fi
chmod 755 shut

# --- a file that is cut while it is dumped

# The four bytes of a number, the least first.
le32() {
    printf '%b' "$(printf '\\x%02x\\x%02x\\x%02x\\x%02x' \
        $(($1 & 255)) $(($1 >> 8 & 255)) $(($1 >> 16 & 255)) $(($1 >> 24 & 255)))"
}
# patch FILE PLACE NUMBER..
patch() {
    local file=$1 place=$2
    shift 2
    for number in "$@"; do le32 "$number"; done | dd of="$file" bs=1 seek="$place" conv=notrunc 2>/dev/null
}
# slot FILE NUMBER HASH KEY_START ADDRESS KEY_SIZE VALUE_SIZE
slot() {
    patch "$1" $((1136 + 24 * $2)) "$3" "$4" "$5" 0 "$6" "$7"
}
# Three records of 200,000 bytes each, in the slots 7, 9 and 14 of the only bucket.
large() {
    cp sound "$1"
    patch "$1" 1132 3
    slot "$1" 7 453608215 107 1536 1 200000
    slot "$1" 9 12345 0 201537 0 200000
    slot "$1" 14 973047518 128 401537 1 200000
    {
        head -c 1537 "$1"
        head -c 400000 /dev/zero
        printf '\x80'
        head -c 200000 /dev/zero
    } >large.new
    mv large.new "$1"
}
large large.gdbm
runs large.gdbm
if [ "$status" = 0 ] && [ "$(tail -n 2 out | head -n 1)" = '#:count=3' ] && [ "$(wc -c <out)" -gt 800000 ]; then
    passes
    mv out large.txt
else
    fails "a file of three large records: status $status"
    : >large.txt
fi
if has mkfifo && has truncate; then
    mkfifo slow
    timeout 20 "$dump" large.gdbm >slow 2>err </dev/null &
    exec 3<slow
    head -c 1000 <&3 >out
    sleep 0.5
    truncate -s 1600 large.gdbm
    cat <&3 >>out
    exec 3<&-
    wait $!
    status=$?
    if [ "$status" != 1 ] || ! grep -Eqx 'gdbm_dump: error ([2-9]|1[0-2]|27) [A-Za-z]+( [0-9]+)*' err; then
        fails "a file that is cut while it is dumped: status $status, $(head -c 200 err)"
    elif ! cmp -s <(head -c "$(wc -c <out)" large.txt) out || [ "$(wc -c <out)" -ge "$(wc -c <large.txt)" ]; then
        fails "a file that is cut while it is dumped: what was printed is no front of the dump"
    else
        passes
    fi
else
    skips "mkfifo or truncate is missing, so no file is cut while it is dumped"
fi

# --- gdbmtool: words that are no text, streams that are closed, outputs that fail, names of every kind

# works COMMANDS WORD..: answers the commands; a run that doesn't end within five seconds has status 124.
works() {
    local commands=$1
    shift
    printf "$commands" | timeout 5 "$tool" "$@" >out 2>err
    status=$?
}

mkdir tool
cd tool || exit 2
cp ../sound .
cp ../damaged .
: >nothing
printf 'v\n' >value
printf 'k v\n' >pair

for program in "$dump" "$tool"; do
    timeout 5 "$program" "$(printf '\377')" >out 2>err </dev/null
    status=$?
    wants "a word that is no text" 3 nothing "$(basename "$program"): usage error"
done
for words in '-r -n' '-b 1048577' '-c 0' '-z' '-b' 'a b' '-n -n' '--format=standard'; do
    # shellcheck disable=SC2086
    works 'store k v\n' $words
    wants "the words $words" 3 nothing 'gdbmtool: usage error'
done
works 'store k v\n' ''
wants "an empty word" 3 nothing 'gdbmtool: usage error'
[ "$(echo *)" = 'damaged err nothing out pair sound value' ] && passes || fails "refused words left a file: $(echo *)"
works 'store k v\nfetch k\n'
wants "no name" 0 value ''
works 'first\n' -r
wants "the file of no name" 0 pair ''
works 'fetch k' sound
wants "a file, and a line that isn't ended" 0 value ''

# shut CHOICE WORD..: answers `fetch k` with the streams of the choice closed.
shut() {
    local choice=$1
    shift
    : >out
    : >err
    printf 'fetch k\n' >lines
    (
        exec >out 2>err <lines
        case $choice in *0*) exec <&- ;; esac
        case $choice in *1*) exec >&- ;; esac
        case $choice in *2*) exec 2>&- ;; esac
        exec "$tool" "$@"
    )
    status=$?
}
for choice in none 0 1 2 01 02 12 012; do
    cp sound a.gdbm
    said='' got=value wanted=0
    case $choice in
        *0*) said='gdbmtool: input fault' got=nothing wanted=1 ;;
        *1*) said='gdbmtool: output fault' got=nothing wanted=1 ;;
    esac
    case $choice in *2*) said='' ;; esac
    shut "$choice" a.gdbm
    wants "gdbmtool with closed streams $choice" "$wanted" "$got" "$said"
    keeps "gdbmtool with closed streams $choice" a.gdbm sound
    cp damaged a.gdbm
    said='gdbmtool: 1: error 11 BadHashEntry 1024 7' wanted=2
    case $choice in *0*) said='gdbmtool: input fault' wanted=1 ;; esac
    case $choice in *2*) said='' wanted=1 ;; esac
    shut "$choice" a.gdbm
    wants "gdbmtool on a damaged file with closed streams $choice" "$wanted" nothing "$said"
    keeps "gdbmtool on a damaged file with closed streams $choice" a.gdbm damaged
done

cp sound a.gdbm
if [ -c /dev/full ]; then
    : >out
    printf 'store k w\nfetch k\nstore k x\n' | "$tool" a.gdbm 2>err >/dev/full
    status=$?
    wants "gdbmtool, and a full device as output" 1 nothing 'gdbmtool: output fault'
    printf 'w\n' >other
    works 'fetch k\n' a.gdbm
    wants "what was stored before it" 0 other ''
    printf 'fetch absent\nfetch k\n' | "$tool" a.gdbm >out 2>/dev/full
    status=$?
    : >err
    wants "gdbmtool, and a full device as standard error" 1 nothing ''
    works '' /dev/full
    wants "gdbmtool, a device as a name, and no commands" 0 nothing ''
else
    skips "no /dev/full"
fi
: >out
{ sleep 0.3; printf 'fetch k\n' | "$tool" a.gdbm 2>err; echo $? >status; } | true
status=$(cat status)
wants "gdbmtool, and a closed pipe as output" 1 nothing 'gdbmtool: output fault'

mkdir folder
ln -s nowhere dangling
for name in folder dangling /dev/null; do
    works 'count\n' -r "$name"
    wants "gdbmtool on $name" 1 nothing 'gdbmtool: 1: error 27 VaultFault'
done
works 'count\n' -r absent.gdbm
wants "gdbmtool on an absent file" 2 nothing 'gdbmtool: 1: error 1 Absent'
works 'store k v\n' -r a.gdbm
wants "a store into a file that is opened to read" 2 nothing 'gdbmtool: 1: error 14 ReaderCant'
cd .. || exit 2

echo "host: $passed passed, $failed failed"
[ "$failed" = 0 ]
