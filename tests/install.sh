#!/bin/sh
# Installs with `make install` into a new folder, runs what is installed, looks for its manual pages and its completions, and
# removes it with `make uninstall`. Also from a tree whose name has a blank, that can only be read and that only its owner can
# read, and with two makes at once; and what is compiled is hardened. The program is not installed where no proved one runs. The
# last line is `N passed, M failed`.

. "$(dirname -- "$(readlink -f -- "$0")")/support/check.sh"

# says TEXT COMMAND..: the command prints exactly this text.
says() {
    text=$1
    shift
    [ "$("$@")" = "$text" ]
}

# shows FOLDER: the program that was put into this folder runs.
shows() { echo 3605 | says 'poll block 5' "$1/bin/fio2070" show; }

# formats FILE WORD: the manual page is set without a warning, and has this word.
formats() {
    groff -man -Tascii -ww "$1" >page 2>warnings || return 1
    cat warnings
    [ ! -s warnings ] && grep -q "$2" page
}

# completes WORDS WORD..: bash proposes these words for the last of the others.
completes() {
    expected=$1
    shift
    says "$expected" bash -c '
        . "$0" || exit 1
        COMP_WORDS=("$@") COMP_CWORD=$(($# - 1))
        _fio2070
        echo "${COMPREPLY[*]}"' "$completions" "$@"
}

# is_empty_of FOLDER NAME..: no file below it has one of these names.
is_empty_of() {
    folder=$1
    shift
    for unwanted in "$@"; do
        [ -z "$(find "$folder" -name "$unwanted" | tee found)" ] || { cat found; return 1; }
    done
}

# is_gone FOLDER: it is not there; if it is, says what is in it.
is_gone() {
    [ ! -e "$1" ] || { find "$1"; return 1; }
}

# says_ldconfig WORD..: installing the library with these words of make asks to run ldconfig. The loader reads the
# libraries of $room/loader/lib.
says_ldconfig() {
    printf '#!/bin/sh\necho "%s: (from /etc/ld.so.conf.d/local.conf:1)"\n' "$room/loader/lib" >ldconfig && chmod +x ldconfig &&
        run_make install-library LDCONFIG="$room/ldconfig" "$@" >said && grep -q 'once you have run ldconfig' said
}

# says_nothing WORD..: it does not say so.
says_nothing() { ! says_ldconfig "$@"; }

# keeps_others: files and folders that others have put into the prefix stay.
keeps_others() {
    mkdir -p "$room/shared/share/man/man7" "$room/shared/share/fio2070-other" && echo other >"$room/shared/share/man/man7/other.7" &&
        run_make install PREFIX="$room/shared" >said && run_make uninstall PREFIX="$room/shared" >said || return 1
    [ "$(cd "$room/shared" && find . | sort | tr '\n' ' ')" = '. ./share ./share/fio2070-other ./share/man ./share/man/man7 ./share/man/man7/other.7 ' ] ||
        { find "$room/shared"; return 1; }
}

# has_pages PREFIX: each command has a manual page, or is one of fio2070-tools.1, and each page belongs to a command.
has_pages() {
    pages=$1/share/man/man1
    for file in "$1"/bin/*; do
        found=$(basename "$file")
        [ -f "$pages/$found.1" ] || tr -d '\\' <"$pages/fio2070-tools.1" | grep -qx "\.B $found" || { echo "no page has $found"; return 1; }
    done
    for file in "$pages"/*; do
        found=$(basename "$file" .1)
        [ "$found" = fio2070-tools ] || [ -e "$1/bin/$found" ] || { echo "no command has the page $found"; return 1; }
    done
}

# has_calls PREFIX: each call of the header and each of its groups has a page that describes it, and each page is set without a
# warning.
has_calls() {
    pages=$1/share/man/man3
    sed -n 's|^/\*\* @defgroup \([a-z]*\).*|fio2070_\1|p' "$top/include/fio2070.h" >called
    grep -v '^#\|^ \*' "$top/include/fio2070.h" | grep '^[^ ]' | grep -o 'fio2070_[a-z0-9_]*(' | tr -d '(' |
        grep -v 'fio2070_\(ring_of\|processor_fits\)' >>called
    while read -r call; do
        described=$(sed -n '1s|^\.so |../|p' "$pages/$call.3")
        grep -q "^\.B .*\<$call\>\|^\.TH $(echo "$call" | tr a-z A-Z) 3 " "$pages/${described:-$call.3}" || { echo "no page has $call"; return 1; }
    done <called
    grep -L '^\.so ' "$pages"/* | while read -r described; do formats "$described" fio2070 || exit 1; done
}

# runs_alone PREFIX COMMAND..: an installed command runs, and says what it is, without the checkout's settings.
runs_alone() {
    folder=$1
    shift
    env -i PATH="$folder/bin:/usr/bin:/bin" "$@" --help
}

# is_whole FOLDER: no link of the folder dangles.
is_whole() {
    find "$1" -type l ! -exec test -e '{}' ';' -print | grep . && return 1
    return 0
}

# without_library: if there is no shared library, `make install` installs no fiolog, and says so.
without_library() {
    run_make install-tools shared= PREFIX="$room/bare" >said && [ ! -e "$room/bare/bin/fiolog" ] &&
        [ ! -e "$room/bare/share/man/man1/fiolog.1" ] && grep -q 'fiolog is not installed' said
}

# list_again FOLDER: SHA256SUMS there has the new list of sources, if there is one.
list_again() {
    [ ! -e "$1/SHA256SUMS" ] ||
        sed -i "s/^[0-9a-f]*\(  fio2070-x86_64-linux-gnu\.sources\)\$/$(sha256sum <listed | cut -d ' ' -f 1)\1/" "$1/SHA256SUMS"
}

# copy_tree FOLDER: copies the sources, as a user has them whose files nobody else can read. The program of dist/ runs there: whether
# it is of the present sources is asked by tests/release-files.sh.
copy_tree() {
    mkdir -p "$1" && (cd "$top" && tar -c --exclude=./.git --exclude=out --exclude='./libfio2070*' --exclude=./release .) | tar -x -C "$1" &&
        "$1/packaging/program" --sources >listed && cp listed "$1/dist/fio2070-x86_64-linux-gnu.sources" && list_again "$1/dist" && chmod -R go-rwx "$1"
}

# as_nobody COMMAND..: runs a command as nobody if this runs as root, who can write everywhere.
as_nobody() {
    if [ "$(id -u)" -ne 0 ]; then "$@"; else setpriv --reuid=65534 --regid=65534 --clear-groups "$@"; fi
}

# make_in FOLDER WORD..: runs make there, with the library that is compiled from dist/, by a user whose files nobody else can read.
make_in() {
    folder=$1
    shift
    # shellcheck disable=SC2016
    as_nobody env -u MAKEFLAGS -u MAKELEVEL sh -c 'umask 077; folder=$1; shift; make -s -C "$folder" kit= CFLAGS=-O1 "$@"' sh "$folder" "$@"
}

# installs_from_reading: from a tree that can only be read, and whose name has a blank. Nothing is made in it.
installs_from_reading() {
    copy_tree "$room/a tree" && mkdir -m 777 "$room/others" && chmod 755 "$room" && find "$room/a tree" | sort >before || return 1
    [ "$(id -u)" -ne 0 ] || chown -R 65534:65534 "$room/a tree"
    chmod -R a-w "$room/a tree"
    make_in "$room/a tree" install OUT="$room/others/out" PREFIX="$room/others/installed" || return 1
    find "$room/a tree" | sort | diff before -
}

# is_for_all FOLDER: everyone can read all files of a folder, enter its folders, and run its programs.
is_for_all() {
    [ -d "$1" ] || return 1
    find "$1" -type d ! -perm -005 -print -o -type f ! -perm -004 -print -o -type f -perm -100 ! -perm -001 -print >found
    cat found
    [ ! -s found ]
}

# at_once: two makes in one tree both make the library, here without the reader of logs, of which a program is linked.
at_once() {
    for number in 1 2; do
        (make_in "$room/a tree" library OUT="$room/others/twice" CFLAGS='-O0 -DFIO2070_NO_LOG' >"$room/at.$number" 2>&1; echo $? >>"$room/at.$number") &
    done
    wait
    cat at.1 at.2
    [ "$(cat at.1 at.2)" = "0
0" ] && is_tidy "$room/others/twice" && printf '%s\n' '#include <fio2070.h>' \
        'int main(void) { return fio2070_version() != FIO2070_VERSION; }' >linked.c &&
        cc -I "$top/dist" linked.c "$room/others/twice/libfio2070.a" -o linked && ./linked
}

# is_tidy FOLDER: no temporary file is left in it.
is_tidy() { ! find "$1" -name 'make.*' | grep .; }

# is_hardened FILE: it has what packaging/hardening asks of the compiler here.
is_hardened() {
    flags="$("$top/packaging/hardening" cc -O1) $("$top/packaging/hardening" --link cc)"
    readelf -W -d -l --dyn-syms "$1" >headers || return 1
    for pair in stack-protector:__stack_chk_fail FORTIFY:_chk@ relro:GNU_RELRO now:NOW; do
        case $flags in *"${pair%:*}"*) grep -q "${pair#*:}" headers || { echo "no ${pair#*:} in $1"; return 1; } ;; esac
    done
}

# For a folder whose name has a blank, with PREFIX alone.
prefix="$room/a folder"
first 'make install' run_make install PREFIX="$prefix"
cp "$room/log" "$room/installing"
# escapes_blank: pkg-config gives the folder of the header as one word.
escapes_blank() {
    said=$(PKG_CONFIG_PATH=$prefix/lib/pkgconfig pkg-config --cflags fio2070) && eval "set -- $said" && [ "$1" = "-I$prefix/include" ]
}
if has_command pkg-config && [ -e "$prefix/lib/pkgconfig/fio2070.pc" ]; then
    holds 'a blank in PREFIX, by pkg-config' escapes_blank
fi
# refuses_blank: a blank in OUT ends make in a line.
refuses_blank() { ! run_make -s library OUT="$room/a folder" >said 2>&1 && grep -q 'OUT cannot have a blank' said; }
holds 'a blank in OUT is refused' refuses_blank
page=$top/man/fio2070.1
tools=$prefix/share/fio2070/tools
if "$top/packaging/program" --proved >"$room/program"; then
    page=$prefix/share/man/man1/fio2070.1
    holds 'the installed program' shows "$prefix"
    holds 'the manual page' cmp "$page" "$top/man/fio2070.1"
    holds 'an installed tool' says 'good 2 frames' sh -c '
        "$1/bin/fiolog" convert -q --to transcript | "$1/bin/fio2070" check' sh "$prefix" <<'end'
07:15:02.100 TX 36 05
07:15:02.108 RX B6 05 00 00 00 00 03 E8
end
    completions=$prefix/share/bash-completion/completions/fio2070
    if has_command bash; then
        holds 'first words' completes 'show simulate check record -h --help -V --version' fio2070 ''
        holds 'a beginning' completes 'show simulate' fio2070 s
        holds 'words of a subcommand' completes '-h --help' fio2070 check ''
        holds 'no words after another' completes '' fio2070 other ''
    else
        skip 'words that bash completes' 'no bash here'
    fi
else
    holds 'no program' [ ! -e "$prefix/bin/fio2070" ]
fi
needing groff groff 'the manual page is set' formats "$page" LINESYNC
needing man man-db 'man shows the page' sh -c 'man -l "$1" | grep -q simulate' sh "$page"
for name in show simulate check record; do
    holds "the page says what $name does" grep -q "^\.SS $name\$" "$page"
done

holds 'a page for each command, and a command for each page' has_pages "$prefix"
needing groff groff 'a page for each call of the library' has_calls "$prefix"
holds 'no link hangs' is_whole "$prefix"
holds 'no generator of the repository' is_empty_of "$prefix" 'generate-*' translate join sources.py draw-pictures stack-use
for file in lossy-script transcript wireshark/fio2070.lua conformance/conformance.h; do
    holds "the tool $file" cmp "$top/tools/$file" "$tools/$file"
done
for name in fiolog fio2070-test fio2070-transcript fio2070-lossy-script; do
    holds "the installed $name" runs_alone "$prefix" "$prefix/bin/$name"
done
holds 'without the shared library' without_library
holds 'the page names the tools' sh -c 'cd "$1" && for file in lossy-script transcript */[a-z]*2pcap */*.lua; do
    grep -q "^\.I $file\$" "$2" || exit 1; done' sh "$tools" "$page"
holds 'installing says how Wireshark finds the dissector' sh -c 'grep -q "ln -sf .*/fio2070.lua" "$1"' sh "$room/installing"

first 'make uninstall' run_make uninstall PREFIX="$prefix"
holds 'nothing is left' is_gone "$prefix"
first 'make uninstall where nothing is' run_make uninstall PREFIX="$prefix"
holds 'what others installed is left' keeps_others

if [ "$(id -u)" = 0 ]; then
    holds 'root is asked to run ldconfig' says_ldconfig PREFIX="$room/loader"
    holds 'not of another folder' says_nothing PREFIX="$room/other"
    holds 'not for a package' says_nothing PREFIX="$room/loader" DESTDIR="$room/below"
else
    skip 'root is asked to run ldconfig' 'the check is not run by root'
fi

# For a package, whose files are put below DESTDIR.
first 'make install for a package' run_make install DESTDIR="$room/package" PREFIX=/usr
holds 'fiolog of the package' runs_alone "$room/package/usr" "$room/package/usr/bin/fiolog"
first 'make uninstall of a package' run_make uninstall DESTDIR="$room/package" PREFIX=/usr
holds 'nothing of the package is left' is_gone "$room/package/usr"

# From another user's tree.
if ! has_command cc || { [ "$(id -u)" -eq 0 ] && ! as_nobody true 2>"$room/log"; }; then
    skip 'a tree that can only be read' 'no cc here, or nothing can be run as nobody'
else
    first 'make install from a tree with a blank that can only be read' installs_from_reading
    holds 'everyone can read what is installed' is_for_all "$room/others/installed"
    holds 'fiolog of that tree' runs_alone "$room/others/installed" "$room/others/installed/bin/fiolog"
    [ ! -e "$room/others/installed/bin/fio2070" ] || holds 'the program of that tree' shows "$room/others/installed"
    holds 'two makes at once' at_once
    for file in libfio2070.so.1 fio2070-test; do needing readelf binutils "$file is hardened" is_hardened "$room/others/out/$file"; done
fi

end
