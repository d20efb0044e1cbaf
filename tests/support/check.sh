# The counting of rows, for the checks in tests/ that are shell scripts; check.py is the same for Python. A check reads this
# file with its own words, begins in the folder $room, which is removed at the end, and closes with `end`. With `-k WORD` it
# only has the rows whose name has the word in it. A check has a quick form, which `./test` runs, and with `--all` its whole
# form, which `./test --all` runs: it calls `whole` for the rows that only the whole form has. With `--release` it has the form of a
# release, which repeats more: it calls `release` for these rows.

top=$(dirname -- "$(dirname -- "$(readlink -f -- "$0")")")
room=$(mktemp -d) || exit 1
trap 'rm -rf "$room"' EXIT
cd "$room" || exit 1
passed=0
failed=0
skipped=0
word=
all=
release=
while [ $# -gt 0 ]; do
    case $1 in
    --all) all=yes ;;
    --release) all=yes release=yes ;;
    -k) [ $# -gt 1 ] && word=$2 && shift ;;
    *) false ;;
    esac || {
        echo "Usage: $(basename -- "$0") [--all | --release] [-k WORD]" >&2
        exit 2
    }
    shift
done

# wants NAME: a row of this name is wanted.
wants() {
    case $1 in
    *"$word"*) return 0 ;;
    *) return 1 ;;
    esac
}

# whole NAME: this is the whole form. If not, it says that these rows are left to it; `./test` lists them.
whole() { [ -n "$all" ] || leave all "$1"; }

# release NAME: the same of the form of a release.
release() { [ -n "$release" ] || leave release "$1"; }

# leave FORM NAME: says that these rows are left to a form. It fails.
leave() {
    if wants "$2"; then
        skipped=$((skipped + 1))
        echo "left to --$1: $2"
    fi
    return 1
}

# judge NAME STATUS EXPECTED GOT: a row that holds if the status is 0; otherwise it prints what was expected and what came.
judge() {
    wants "$1" || return 0
    if [ "$2" -eq 0 ]; then
        passed=$((passed + 1))
    else
        failed=$((failed + 1))
        printf 'FAILED %s\n  expected: %.600s\n  got: %.600s\n' "$1" "$3" "$4"
    fi
}

# equal NAME EXPECTED GOT: a row: what came is what was expected.
equal() {
    if [ "$2" = "$3" ]; then judge "$1" 0; else judge "$1" 1 "$2" "$3"; fi
}

# first NAME COMMAND..: a row: the command succeeds. It is run whichever rows are wanted, since others need it.
first() {
    name=$1
    shift
    if "$@" >"$room/log" 2>&1; then
        judge "$name" 0
    else
        judge "$name" 1 'status 0' "status $? of: $*
$(tail -n 20 "$room/log")"
    fi
}

# holds NAME COMMAND..: a row: the command succeeds.
holds() {
    if wants "$1"; then first "$@"; fi
}

# tally NAME FILE: the rows that a program counted itself, in a text whose last line is `N passed, M failed`.
tally() {
    wants "$1" || return 0
    sum=$(tail -n 1 "$2" | sed -n 's/^\([0-9][0-9]*\) passed, \([0-9][0-9]*\) failed$/\1 \2/p')
    if [ -z "$sum" ] || [ "${sum#* }" != 0 ]; then
        printf 'FAILED %s\n%s\n' "$1" "$(head -n 20 "$2")"
    fi
    [ -n "$sum" ] || sum='0 1'
    passed=$((passed + ${sum% *}))
    failed=$((failed + ${sum#* }))
}

# counts NAME COMMAND..: the rows that a program counts itself, as for `tally`.
counts() {
    wants "$1" || return 0
    name=$1
    shift
    "$@" >"$room/log" 2>&1
    tally "$name" "$room/log"
}

# skip NAME WHY: rows that cannot be run here. `./test` lists them at its end.
skip() {
    wants "$1" || return 0
    skipped=$((skipped + 1))
    echo "skipped: $1: $2"
}

# has_command NAME: the command is installed.
has_command() { [ -n "$(command -v "$1")" ]; }

# needing COMMAND PACKAGE NAME WORD..: a row that needs a command, which a Debian package has.
needing() { if has_command "$1"; then shift 2; holds "$@"; else skip "$3" "no $1 here (Debian package $2)"; fi; }

# Runs make at the top with these targets and settings, without those of a make that runs the check.
run_make() { env -u MAKEFLAGS -u MAKELEVEL -u PREFIX -u DESTDIR make -s -C "$top" "$@"; }

# Prints the last line, and ends.
end() {
    if [ $((passed + failed + skipped)) -eq 0 ]; then echo "no row has '$word' in its name"; fi
    echo "$passed passed, $failed failed"
    [ "$failed" -eq 0 ] && [ $((passed + skipped)) -gt 0 ]
    exit
}
