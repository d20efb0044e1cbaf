#!/bin/sh
# Runs each file of examples/ and compares what is written with the file beside it: a script with its report, a transcript
# with its verdict and its record, captured frames with what they show. The exit status is 1 if that file reports a fault,
# otherwise 0. The last line is `N passed, M failed`.

. "$(dirname -- "$(readlink -f -- "$0")")/support/check.sh"
cd "$top" || exit 1

# check TOOL FILE EXPECTED: compares what a tool writes for a file with what it should write.
check() {
    wants "$2" || return 0
    "${FIO2070_PROGRAM:-./fio2070}" "$1" <"$2" >"$room/written"
    status=$?
    if grep -Eq '^line |^[0-9]+ refused ' "$3"; then expected=1; else expected=0; fi
    echo "status $status" | cat "$room/written" - >"$room/got"
    echo "status $expected" | cat "$3" - | cmp -s - "$room/got"
    judge "$2" $? "$(cat "$3"; echo "status $expected")" "$(cat "$room/got")"
}

if [ -z "${FIO2070_PROGRAM:-}" ] && packaging/program --proved >"$room/program"; then
    for file in examples/*.script; do check simulate "$file" "${file%.script}.report"; done
else
    skip 'scripts' 'this program has no simulate'
fi
for file in examples/*.transcript; do check check "$file" "${file%.transcript}.verdict"; done
for file in examples/*.record; do check record "${file%.record}.transcript" "$file"; done
for file in examples/*.frames; do check show "$file" "${file%.frames}.shown"; done

end
