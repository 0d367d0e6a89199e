#!/usr/bin/env bash
# Runs gdbm_load over dumps, names, streams and files of the host of every kind, and beside GNU's programs where these are installed.
# usage: tests/load.sh BIN_DIR [CORPUS]      (builds nothing; a check whose tool is missing says so and is skipped)
set -u
bin=$(cd "${1:?usage: tests/load.sh BIN_DIR [CORPUS]}" && pwd) || exit 2
corpus=${2:-}
[ ! -d "$corpus" ] || corpus=$(cd "$corpus" && pwd)
dump=$bin/gdbm_dump load=$bin/gdbm_load tool=$bin/gdbmtool
data=$(cd "$(dirname "$0")/../crates/gdbm_dump" && pwd) || exit 2
for program in "$dump" "$load" "$tool"; do
    [ -x "$program" ] || { echo "load: $program is no program"; exit 2; }
done
work=$(mktemp -d) || exit 2
trap 'chmod -R u+rwx "$work"; rm -rf "$work"' EXIT
cd "$work" || exit 2
passed=0 failed=0

FAULT='gdbm_load: error 27 VaultFault'
USAGE='gdbm_load: usage error'

passes() { passed=$((passed + 1)); }
fails() { echo "load: failed: $*"; failed=$((failed + 1)); }
skips() { echo "load: skipped: $*"; }
has() { command -v "$1" >/dev/null 2>&1; }
same() { local other; if other=$(diff "$2" "$3"); then passes; else fails "$1: $(head -n 3 <<<"$other" | head -c 300)"; fi; }
is() { if [ "$2" = "$3" ]; then passes; else fails "$1: '${3:0:300}' in place of '${2:0:300}'"; fi; }

# loads WHAT STATUS SAID WORD..: a run with the input that is given ends with this status, says this, and prints nothing; one that
# doesn't end within a minute has status 124
loads() {
    local what=$1 wanted=$2 said=$3
    shift 3
    timeout 60 "$load" "$@" >out 2>err
    is "$what" "$wanted|$said|" "$?|$(cat err)|$(cat out)"
}
# records DB: its records as lines, sorted
records() { echo list | "$tool" -r "$1" 2>&1 | sort; }
absent() { if [ -e "$2" ]; then fails "$1: $2 is there"; else passes; fi; }

cp "$data/data/a.gdbm" a.gdbm
cp "$data/stdout" a.txt
{ head -n 5 a.txt | sed '/^#:file/d'; tail -n +6 a.txt; } >unnamed.txt

# --- a dump from each side

loads "standard input" 0 '' - b.gdbm <a.txt
is "its records" 'k v' "$(records b.gdbm)"
loads "a file" 0 '' a.txt c.gdbm </dev/null
"$dump" c.gdbm >c.txt
same "dumped again" <(sed 's/file=a/file=c/' a.txt) c.txt
rm -f a.gdbm
loads "a name from the head" 0 '' - <a.txt
is "the name from the head" 'k v' "$(records a.gdbm)"
loads "no name" 1 "gdbm_load: dump error Parameter at $(head -n 4 unnamed.txt | wc -c)" - <unnamed.txt
loads "an absent file" 1 'gdbm_load: error 1 Absent' nothing.txt d.gdbm
absent "an absent file" d.gdbm
mkfifo piped 2>/dev/null && { cat a.txt >piped & } && loads "a pipe" 0 '' - d.gdbm <piped
loads "a slow pipe" 0 '' - d.gdbm < <(while IFS= read -r line; do sleep 0.02; printf '%s\n' "$line"; done <a.txt)
is "a slow pipe, its records" 'k v' "$(records d.gdbm)"

# --- what is in the way

loads "the database itself" 1 'gdbm_load: error 21 InUse' -U a.txt a.txt
same "the database itself is kept" a.txt "$data/stdout"
ln a.txt linked.gdbm && loads "a link to the dump" 1 'gdbm_load: error 21 InUse' a.txt linked.gdbm
same "a link to the dump is kept" a.txt "$data/stdout"
rm -f linked.gdbm
loads "a pair that is there" 1 'gdbm_load: error 16 CannotReplace' -U - b.gdbm <a.txt
loads "a pair that is replaced" 0 '' -r -U - b.gdbm <a.txt
printf 'store q w\n' | "$tool" b.gdbm
loads "an update" 0 '' -r --update - b.gdbm <a.txt
is "an update keeps" "$(printf 'k v\nq w')" "$(records b.gdbm)"
loads "no update" 0 '' - b.gdbm <a.txt
is "no update keeps nothing" 'k v' "$(records b.gdbm)"
head -c 1530 b.gdbm >damaged
cp damaged e.gdbm
loads "an update of a damaged file" 1 'gdbm_load: error 7 BadHeader' -U - e.gdbm <a.txt
same "a damaged file is kept" damaged e.gdbm
loads "a damaged file is made anew" 0 '' - e.gdbm <a.txt
is "a file that was made anew" 'k v' "$(records e.gdbm)"

# --- heads that are refused change nothing, and fronts of a dump leave what was stored

cp b.gdbm kept
for n in 0 1 40 50 65 80; do
    head -c "$n" a.txt | timeout 60 "$load" - b.gdbm 2>err >out
    is "a front of $n bytes" 1 "$?"
    same "a front of $n bytes changes nothing" kept b.gdbm
done
head -c 99 a.txt | timeout 60 "$load" - f.gdbm 2>err
is "a front with the head" '1|gdbm_load: dump error Truncated at 99|' "$?|$(cat err)|$(records f.gdbm)"
sed 's/count=1/count=2/' a.txt >wrong.txt
loads "a wrong count" 1 'gdbm_load: dump error Count at 126' wrong.txt f.gdbm
is "a wrong count, its records" 'k v' "$(records f.gdbm)"

# --- words

for words in '' '- b.gdbm more' '-x - b.gdbm' '-b 1048577 - b.gdbm' '-b x - b.gdbm' '-c 0 - b.gdbm' '-c 4097 - b.gdbm' '-r -r - b.gdbm' \
    '-u a - b.gdbm' '-m 600 - b.gdbm' '-M - b.gdbm' '-h' '--help' '-V' '--version' '- b.gdbm.mode' 'b.gdbm-scratch'; do
    # shellcheck disable=SC2086
    loads "words: $words" 3 "$USAGE" $words <a.txt
done
loads "a word that is no text" 3 "$USAGE" - $'\xff.gdbm' <a.txt
loads "options" 0 '' -b 512 --cache-size=1 -n -r - g.gdbm <a.txt
is "the block size" 1538 "$(wc -c <g.gdbm)"
loads "words behind two dashes" 0 '' -- - -n.gdbm <a.txt
is "a name with a dash" 'k v' "$(cp -- -n.gdbm n.gdbm && records n.gdbm)"
mkdir "odd names"
for name in 'a b.gdbm' 'ä.gdbm' $'line\nfeed.gdbm' '*.gdbm' "'.gdbm"; do
    loads "the name '$name'" 0 '' - "odd names/$name" <a.txt
    is "the records of '$name'" 'k v' "$(cp "odd names/$name" copy.gdbm && records copy.gdbm)"
done

# --- names of no file, and streams that are closed

mkdir folder
for name in folder nowhere/b.gdbm /dev/null; do
    loads "the database $name" 1 "$FAULT" - "$name" <a.txt
    [ "$name" = nowhere/b.gdbm ] || loads "the dump $name" 1 "$FAULT" "$name" h.gdbm
done
absent "dumps of no file" h.gdbm
if [ "$(id -u)" != 0 ]; then
    cp a.txt secret.txt
    chmod 0 secret.txt
    loads "a dump without leave" 1 "$FAULT" secret.txt h.gdbm
else
    skips "root may read everything"
fi
for choice in none 0 1 2 01 02 12 012; do
    cp a.txt held.txt
    rm -f i.gdbm
    : >out
    : >err
    (
        exec >out 2>err <held.txt
        case $choice in *0*) exec <&- ;; esac
        case $choice in *1*) exec >&- ;; esac
        case $choice in *2*) exec 2>&- ;; esac
        exec timeout 60 "$load" held.txt i.gdbm
    )
    is "closed streams $choice" '0||k v' "$?|$(cat err)|$(records i.gdbm)"
    (
        exec >out 2>err <held.txt
        case $choice in *0*) exec <&- ;; esac
        case $choice in *1*) exec >&- ;; esac
        case $choice in *2*) exec 2>&- ;; esac
        exec timeout 60 "$load" absent.txt i.gdbm
    )
    is "closed streams $choice, refused" 1 "$?"
    same "closed streams $choice, the dump" a.txt held.txt
    is "closed streams $choice, the database" 'k v' "$(records i.gdbm)"
done
if [ -c /dev/full ]; then
    timeout 60 "$load" absent.txt i.gdbm 2>/dev/full
    is "a full device as standard error" 1 "$?"
    timeout 60 "$load" -x 2>/dev/full
    is "a full device as standard error, refused words" 3 "$?"
else
    skips "no /dev/full"
fi
timeout 60 "$load" - j.gdbm 2>err <folder
is "a folder as input" '1|gdbm_load: input fault' "$?|$(cat err)"

# --- many records: a table of mail aliases is loaded over an older one

for i in $(seq -w 300); do printf 'store user%s user%s@example.org\n' "$i" "$i"; done | "$tool" -n new.gdbm
{
    for i in $(seq -w 290); do printf 'store user%s user%s@old.example.org\n' "$i" "$i"; done
    echo 'store postmaster root@example.org'
} | "$tool" -n aliases.gdbm
cp aliases.gdbm old.gdbm
"$dump" new.gdbm >aliases.txt
loads "aliases" 0 '' -r -U aliases.txt aliases.gdbm
is "the number of aliases" 301 "$(echo count | "$tool" -r aliases.gdbm)"
same "the aliases" <({ records new.gdbm; echo 'postmaster root@example.org'; } | sort) <(records aliases.gdbm)
loads "aliases without leave to replace" 1 'gdbm_load: error 16 CannotReplace' -U aliases.txt old.gdbm

# --- beside GNU's programs

gnu() {
    local found
    found=$(PATH=${GNU_PATH:-/usr/local/bin:/usr/bin:/bin} command -v "$1") || return 1
    "$found" --version 2>/dev/null | head -n 1 | grep -q '1\.23' && echo "$found"
}
data_of() { sed -n '/^# End of header$/,$p'; }
if gnu_dump=$(gnu gdbm_dump) && gnu_load=$(gnu gdbm_load); then
    "$gnu_load" aliases.txt theirs.gdbm 2>err || fails "GNU's gdbm_load of our dump: $(cat err)"
    loads "ours of the same dump" 0 '' aliases.txt ours.gdbm
    same "both loads" <(records theirs.gdbm) <(records ours.gdbm)
    "$gnu_dump" ours.gdbm theirs.txt 2>err || fails "GNU's gdbm_dump of our load: $(cat err)"
    same "both dumps of our load" <(data_of <theirs.txt) <("$dump" ours.gdbm | data_of)
    loads "GNU's dump" 0 '' theirs.txt again.gdbm
    same "GNU's dump, loaded by ours" <(records ours.gdbm) <(records again.gdbm)
    "$gnu_dump" -H binary ours.gdbm theirs.bin 2>err
    timeout 60 "$load" theirs.bin bad.gdbm 2>err
    is "GNU's binary dump, which has lengths of eight bytes" 1 "$?"
else
    skips "GNU's programs 1.23 are missing"
fi
if [ -d "$corpus" ]; then
    for text in "$corpus"/*.txt; do
        name=$(basename "$text" .txt)
        [ -f "$corpus/$name.gdbm" ] || continue
        loads "GNU's dump $name" 0 '' "$text" corpus.gdbm
        same "the records of GNU's dump $name" <(records "$corpus/$name.gdbm") <(records corpus.gdbm)
        loads "our dump of $name" 0 '' - again.gdbm < <("$dump" corpus.gdbm)
        same "our dump of $name, loaded again" <(records corpus.gdbm) <(records again.gdbm)
    done
else
    skips "there is no corpus"
fi

echo "load: $passed passed, $failed failed"
[ "$failed" = 0 ]
