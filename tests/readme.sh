#!/usr/bin/env bash
# Runs the commands of README.md with the built programs, in an empty folder, and compares what they print. A command is a
# line behind `$ ` in a block of the kind `console`, and what it prints stands in the lines up to the next one.
# usage: tests/readme.sh BIN_DIR     (builds nothing; a block that wants a program which is not there is skipped)
set -u
bin=$(cd "${1:?usage: tests/readme.sh BIN_DIR}" && pwd) || exit 2
top=$(cd "$(dirname "$0")/.." && pwd) || exit 2
work=$(mktemp -d) || exit 2
trap 'rm -rf "$work"' EXIT
cd "$work" || exit 2
passed=0 failed=0 block='' number=0

fails() { echo "readme: failed: $*"; failed=$((failed + 1)); }

# lacks BLOCK: the first program that the block names and that is not there
lacks() {
    local program
    for program in gdbm_dump gdbm_load gdbmtool; do
        if grep -qw "$program" <<<"$1" && [ ! -x "$bin/$program" ]; then
            echo "$program"
            return 0
        fi
    done
    return 1
}

# tries LINE COMMAND WANTED
tries() {
    local got
    got=$(PATH=$bin:$PATH LC_ALL=C timeout 20 bash -c "$2" 2>&1 </dev/null)
    if [ "$got" = "$3" ]; then
        passed=$((passed + 1))
    else
        fails "line $1: $2"$'\n'"$(diff <(echo "$3") <(echo "$got"))"
    fi
}

# plays LINE BLOCK: each command of a block that begins behind that line
plays() {
    local at=$1 command='' wanted='' begun='' line missing
    if missing=$(lacks "$2"); then
        echo "readme: skipped: line $1: there is no $missing"
        return
    fi
    while IFS= read -r line; do
        at=$((at + 1))
        case $line in
            '$ '*)
                [ -z "$command" ] || tries "$begun" "$command" "${wanted%$'\n'}"
                command=${line#'$ '} wanted='' begun=$at
                ;;
            *) wanted+=$line$'\n' ;;
        esac
    done <<<"${2%$'\n'}"
    [ -z "$command" ] || tries "$begun" "$command" "${wanted%$'\n'}"
}

inside=
while IFS= read -r line; do
    number=$((number + 1))
    case $inside$line in
        '```console') inside=y block='' start=$number ;;
        'y```') inside='' && plays "$start" "$block" ;;
        y*) block+=$line$'\n' ;;
    esac
done <"$top/README.md"
[ "$((passed + failed))" -gt 0 ] || fails "README.md has no command"

# A crate without a line is no fault of a command, so it is only said.
for crate in $(sed 's/#.*//; s/:.*//' "$top/crates.txt"); do
    grep -Eq "^\| (.*, )?$crate(, .*)? \|" "$top/README.md" || echo "readme: note: the table of crates has no $crate"
done

echo "readme: $passed passed, $failed failed"
[ "$failed" = 0 ]
