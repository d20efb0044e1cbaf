#!/bin/sh
# Runs the built program as a user does: its exit statuses, what it writes if its words, its input or its output are at
# fault, and where it is called from. The last line is `N passed, M failed`.

. "$(dirname -- "$(readlink -f -- "$0")")/support/check.sh"
cd / || exit 1
input=$room/input

# ends NAME STATUS TEXT EXPECTED_STATUS EXPECTED_TEXT: a row: how the program ended. The expected text may be a pattern.
ends() {
    case $3 in
    $5) differs=0 ;;
    *) differs=1 ;;
    esac
    [ "$2" -eq "$4" ] || differs=1
    judge "$1" "$differs" "status $4, $5" "status $2, $3"
}

# given NAME INPUT EXPECTED_STATUS EXPECTED_TEXT WORD..: runs the program with these words on this input.
given() {
    wants "$1" || return 0
    name=$1 expected_status=$3 expected_text=$4
    printf "$2" >"$input"
    shift 4
    text=$("$top/fio2070" "$@" <"$input")
    ends "$name" "$?" "$text" "$expected_status" "$expected_text"
}

given 'a good line' '3605\n' 0 'poll block 5' show
given 'no line feed at the end' '3605' 0 'poll block 5' show
given 'a bad line' 'zz\n' 1 'line 1: bad line' show
given 'no input' '' 0 '' show
given 'no subcommand' '3605' 2 'fio2070: no subcommand'
given 'another word' '3605' 2 "error: unrecognized subcommand 'other'*" other
given 'a word with a capital' '3605' 2 "error: unrecognized subcommand 'Show'*" Show
for letters in 1000 4000 16000; do
    long=$(printf "%0${letters}d" 0)
    given "a word of $letters letters" '3605' 2 "error: unrecognized subcommand '$long'*" "$long"
    given "a word of $letters letters too many" '3605' 2 "error: unexpected argument '$long'*Usage: fio2070 show < FILE*" show "$long"
done
given 'another option' '3605' 2 "error: unexpected argument '-x'*" -x
given 'one word too many' '3605' 2 "error: unexpected argument 'x'*Usage: fio2070 show < FILE*" show x
given 'help as a word' '3605' 2 "error: unrecognized subcommand 'help'*" help
given 'a word that is no UTF-8' '3605' 2 "error: unrecognized subcommand '�a�'*" "$(printf '\377a\300')"
given 'a word of control characters' '3605' 2 "error: unexpected argument 'x�[[]31m�y�'*" show "$(printf 'x\033[31m\302\233y\001')"
given 'a word in another script' '3605' 2 "error: unrecognized subcommand 'módulo'*" 'módulo'
given 'help' '3605' 0 'Reads the messages*Usage: fio2070 COMMAND < FILE*Commands:
  show      Reports what the frames on standard input say*
  simulate  Runs a script of events on both ends*
  check     Reports whether a transcript on standard input keeps*
  record    Reports what the CPU of a transcript on standard input recorded*Options:*Exit status:*' --help
given 'help on show' '3605' 0 'Reports what the frames on standard input say*Usage: fio2070 show < FILE*
Reads:   frames, one a line*In a block:*| fio2070 show
  poll block 5' show --help
given 'help on simulate' '3605' 0 'Runs a script of events on both ends*Usage: fio2070 simulate < FILE*
Reads:   a script. *LINESYNC goes from 0 to 1*| fio2070 simulate
*  record 0' simulate --help
given 'help on check' '3605' 0 'Reports whether a transcript on standard input keeps*Usage: fio2070 check < FILE*
Reads:   a transcript*breaks RULE*first rule that it breaks*| fio2070 check
  line 3 breaks advance' check --help
given 'help on record' '3605' 0 'Reports what the CPU of a transcript*Usage: fio2070 record < FILE*
Reads:   a transcript*| fio2070 record
  record 1
  input 12 state 1 stamp 999 wide 999' record --help
for tool in show simulate check record; do
    equal "-h of $tool" "$("$top/fio2070" "$tool" --help)" "$("$top/fio2070" "$tool" -h)"
done
given 'a file as an argument' '3605' 2 "error: unexpected argument*Usage: fio2070 check < FILE*" check examples/good.transcript
given 'the version' '3605' 0 'fio2070 [0-9]*' --version

# If standard error is a terminal, a line there says below `good` what `check` does not judge, and what reads a file or a log.
note='fio2070: check judges the order of messages; fio2070 record judges what their entries say'
of_show='fio2070: show reads frames, a line of hexadecimal digits each; fiolog reads logs of other tools'
of_file='fio2070: give a file as standard input, as in: fio2070 show < FILE; fiolog reads logs of other tools'
said() {
    python3 -B -c 'import os, pty, subprocess, sys
ours, theirs = pty.openpty()
subprocess.run(sys.argv[2:], stdin=open(sys.argv[1]), stdout=subprocess.DEVNULL, stderr=theirs)
os.write(theirs, b"\n")
print(os.read(ours, 999).decode().strip())' "$@"
}
equal 'the note of check on a terminal' "$note" "$(said "$top/examples/doubled-entry.transcript" "$top/fio2070" check)"
equal 'no note below a breach' '' "$(said "$top/examples/given-up-block.transcript" "$top/fio2070" check)"
equal 'no note of another tool' '' "$(said "$top/examples/doubled-entry.transcript" "$top/fio2070" record)"
equal 'the note of show on a terminal' "$of_show" "$(said "$top/examples/captures/serial-log.txt" "$top/fio2070" show)"
equal 'no note of show below frames' '' "$(said "$top/examples/lost-answer.frames" "$top/fio2070" show)"
for words in log.txt 'show log.txt' 'show one.txt two.txt'; do
    # shellcheck disable=SC2086
    equal "the note of a file on a terminal: $words" "$of_file" "$(said "$input" "$top/fio2070" $words)"
done
for words in --no-such-option 'show --no-such-option' 'show --help' ''; do
    # shellcheck disable=SC2086
    equal "no note without a file: $words" '' "$(said "$input" "$top/fio2070" $words)"
done
equal 'no note in a pipe' 'good 8 frames' "$("$top/fio2070" check <"$top/examples/doubled-entry.transcript" 2>&1)"

# A folder can be opened and not read.
for tool in show simulate check record; do
    text=$("$top/fio2070" "$tool" </)
    ends "a failing read of $tool" "$?" "$text" 3 'fio2070: read fault'
done

if [ -c /dev/full ]; then
    printf '3605\n' >"$input"
    "$top/fio2070" show <"$input" >/dev/full
    ends 'a failing write' "$?" '' 3 ''
else
    skip 'a failing write' 'no /dev/full here'
fi

end
