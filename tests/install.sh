#!/usr/bin/env bash
# Installs the built programs into a folder of its own by `make install-files`, renders the pages, completes words by the
# completions of each shell, tries each option that page or completion names on the program, and removes all again.
# usage: tests/install.sh BIN_DIR     (builds nothing; a check whose tool is missing says so and is skipped)
set -u
bin=$(cd "${1:?usage: tests/install.sh BIN_DIR}" && pwd) || exit 2
here=$(cd "$(dirname "$0")" && pwd) || exit 2
top=$(dirname "$here")
command -v make >/dev/null 2>&1 || { echo "install: skipped: make is missing"; exit 0; }
programs=
for program in $(sed -n 's/^PROGRAMS = //p' "$top/Makefile"); do
    if [ -x "$bin/$program" ]; then
        programs="$programs $program"
    else
        echo "install: skipped: $bin has no $program"
    fi
done
[ -n "$programs" ] || exit 0
work=$(mktemp -d) || exit 2
trap 'rm -rf "$work"' EXIT
cd "$work" || exit 2
passed=0 failed=0

passes() { passed=$((passed + 1)); }
fails() { echo "install: failed: $*"; failed=$((failed + 1)); }
skips() { echo "install: skipped: $*"; }
has() { command -v "$1" >/dev/null 2>&1; }
# same WHAT WANTED GOT
same() { if [ "$2" = "$3" ]; then passes; else fails "$1: '${3:0:200}' in place of '${2:0:200}'"; fi; }

root="$work/place with a blank"
# makes TARGET: into the folder, or out of it
makes() {
    make -s -C "$top" "$1" BIN="$bin" DESTDIR="$root" PREFIX=/usr PROGRAMS="${programs# }" >made 2>&1 ||
        fails "make $1: $(head -c 300 made)"
}

makes install-files
wanted=
for program in $programs; do
    wanted="$wanted usr/bin/$program usr/share/man/man1/$program.1 usr/share/bash-completion/completions/$program"
    wanted="$wanted usr/share/zsh/site-functions/_$program usr/share/fish/vendor_completions.d/$program.fish"
done
same "what is installed" "$(printf '%s\n' $wanted | sort)" "$(cd "$root" && find . -type f | sed 's,^\./,,' | sort)"

# --- the programs

for program in $programs; do
    if cmp -s "$root/usr/bin/$program" "$bin/$program" && [ -x "$root/usr/bin/$program" ]; then passes; else fails "$program is another"; fi
done

# --- the pages

for program in $programs; do
    page=$root/usr/share/man/man1/$program.1
    if has mandoc; then
        # which other pages a machine has is not the page's fault
        same "mandoc on $program.1" '' "$(mandoc -T lint "$page" 2>&1 | grep -v 'mandoc\.db\|referenced manual not found')"
        if mandoc -T ascii "$page" | col -b | grep -q "^ *$program "; then passes; else fails "mandoc shows no $program"; fi
    else
        skips "mandoc is missing"
    fi
    if has groff; then
        same "groff on $program.1" '' "$(groff -mdoc -ww -z "$page" 2>&1)"
    else
        skips "groff is missing"
    fi
done

# --- each option that a page or a completion names is one of the program, and both name the same

# takes PROGRAM OPTION: does the program take the option, with a value where it wants one?
takes() {
    local value
    for value in '' =512 =ascii; do
        rm -f t.gdbm
        "$bin/$1" "$2$value" - t.gdbm </dev/null >out 2>err
        [ $? != 3 ] && return 0
        "$bin/$1" "$2$value" t.gdbm </dev/null >out 2>err
        [ $? != 3 ] && return 0
    done
    return 1
}
for program in $programs; do
    of_page=$(grep -o 'Fl -[a-z-]*[a-z]' "$root/usr/share/man/man1/$program.1" | sed 's/^Fl /-/' | sort -u)
    of_fish=$(grep -o -e '-l [a-z-]*' "$root/usr/share/fish/vendor_completions.d/$program.fish" | sed 's/^-l /--/' | sort -u)
    of_bash=$(grep -o -e '--[a-z-]*[a-z]=\? \?' "$root/usr/share/bash-completion/completions/$program" | tr -d '= ' | sort -u)
    of_zsh=$(grep -o -e '{-[a-zA-Z]+\?,--[a-z-]*' "$root/usr/share/zsh/site-functions/_$program" | sed 's/.*,//' | sort -u)
    same "options of $program for fish" "$of_page" "$of_fish"
    same "options of $program for bash" "$of_page" "$of_bash"
    same "options of $program for zsh" "$of_page" "$of_zsh"
    for option in $of_page; do
        if takes "$program" "$option"; then passes; else fails "$program does not take $option"; fi
    done
    if takes "$program" --absent; then fails "$program takes any option"; else passes; fi
done

# --- the completions

: >"a file.gdbm"
for program in $programs; do
    file=$root/usr/share/bash-completion/completions/$program
    same "bash on the completion of $program" "$program" "$(bash -c 'source "$1" && complete -p "$2"' - "$file" "$program" 2>&1 | sed 's/.* //')"
    file=$root/usr/share/zsh/site-functions/_$program
    if has zsh; then
        same "zsh on the completion of $program" "_$program" "$(zsh -f -c 'fpath=(${1:h} $fpath); zsh -n $1 && autoload -Uz compinit && compinit -u -D && print $_comps[$2]' - "$file" "$program" 2>&1)"
    else
        skips "zsh is missing"
    fi
    file=$root/usr/share/fish/vendor_completions.d/$program.fish
    if has fish; then
        same "fish on the completion of $program" "a file.gdbm" "$(HOME=$work fish --no-config -c 'source $argv[1]; complete -C "$argv[2] a\ f"' "$file" "$program" 2>&1 | sed 's/\\//g')"
    else
        skips "fish is missing"
    fi
done
# completes WORD..: what bash completes the last word to
completes() {
    bash -c 'compopt() { :; }; source "$0"; COMP_WORDS=("$@"); COMP_CWORD=$(($# - 1)); '"_$1"'; echo "${COMPREPLY[*]}"' \
        "$root/usr/share/bash-completion/completions/$1" "$@"
}
same "gdbm_dump --" '--format=' "$(completes gdbm_dump --)"
same "gdbm_dump -H" 'ascii binary' "$(completes gdbm_dump -H '')"
same "gdbm_dump --format=b" 'binary' "$(completes gdbm_dump --format = b)"
same "gdbm_dump a" 'a file.gdbm' "$(completes gdbm_dump a)"
same "gdbmtool --b" '--block-size=' "$(completes gdbmtool --b)"
same "gdbmtool -b" '' "$(completes gdbmtool -b '')"
same "gdbmtool a" 'a file.gdbm' "$(completes gdbmtool a)"

# --- nothing is left, and nothing else is gone

echo theirs >"$root/usr/bin/another"
makes uninstall
same "what is left" ./usr/bin/another "$(cd "$root" && find . -type f)"

echo "install: $passed passed, $failed failed"
[ "$failed" = 0 ]
