#!/bin/sh
# Builds the library for C, runs the rows of tests/rows.json over it, and builds by a compiler, with --all by each that is installed,
# what the header defines and the programs of examples/c, and compares what they write; the tests of the wrappers. With --all also
# under sanitizers, with random octets under valgrind, and the layouts of other processors. The last line is `N passed, M failed`.

. "$(dirname -- "$(readlink -f -- "$0")")/support/check.sh"
archive=$room/libfio2070.a
strict='-Wall -Wextra -pedantic -Werror'

# builds FOLDER COMPILER OPTION..: builds the programs into the folder.
builds() {
    folder=$1
    compiler=$2
    shift 2
    case $compiler in
        *++) language="-x c++ $*" ;;
        *) language="-x c -D_DEFAULT_SOURCE $*" ;;
    esac
    mkdir -p "$folder"
    for source in support/c/module ../examples/c/decode ../examples/c/poller; do
        # shellcheck disable=SC2086
        "$compiler" $language $strict -I "$top/include" -I "$room" "$top/tests/$source.c" -x none "$archive" \
            -o "$folder/$(basename "$source")" || return 1
    done
}

# watched: each call with random octets, into memory that nothing has written before and that ends where it says.
watched() {
    gcc -std=c99 -O0 -DFRESH -I "$top/include" "$top"/tests/support/c/calls/*.c "$archive" -o "$room/gcc/calls" &&
        valgrind -q --error-exitcode=9 "$room/gcc/calls" 8 1 >said
}

# decodes FOLDER: its decoder writes of the examples, and of each frame cut after each octet, what `fio2070 show` does.
decodes() {
    for frames in "$top"/examples/*.frames; do
        "$1/decode" <"$frames" | cmp - "${frames%.frames}.shown" || return 1
    done
    "$1/decode" <cut.frames >decoded && return 1
    cmp decoded cut.shown
}

# polls FOLDER: its poller takes each transition of the wave of examples/c/poller.c once, in order.
polls() {
    "$1/poller" >report && tail -n +5 report | cmp - wave &&
        [ "$(sed -n 3,4p report | tr '\n' ' ')" = 'waiting 0 record 600 ' ]
}

# gives_up FOLDER: on a line that is never silent its poller ends its first exchange after 100 ms.
gives_up() {
    "$1/poller" babble >report && return 1
    [ "$(cat report)" = 'no answer in 100 ms' ]
}

# described FOLDER: doxygen's page has words on each call of the header, each struct and each of their public fields.
described() {
    python3 - "$1" "$top/include/fio2070.h" <<'end'
import glob, re, sys
import xml.etree.ElementTree as xml
declared = set(re.findall(r'fio2070_\w+(?=\()', re.sub(r'^(static|#| \*).*', '', open(sys.argv[2]).read(), flags=re.M)))
described = set()
for path in glob.glob(sys.argv[1] + '/xml/*_8h.xml') + glob.glob(sys.argv[1] + '/xml/struct*.xml'):
    for one in xml.parse(path).iter():
        words = [''.join(found.itertext()).strip() for found in (one.find('briefdescription'), one.find('detaileddescription'))
                 if found is not None]
        if one.tag == 'memberdef' and one.get('kind') == 'function' and any(words):
            described.add(one.find('name').text)
        if one.tag == 'compounddef' and one.get('kind') == 'struct' and not any(words):
            sys.exit('no words on ' + one.find('compoundname').text)
if declared - described:
    sys.exit('no words on ' + ', '.join(sorted(declared - described)))
end
}

# stacks: docs/C-LIBRARY.md has the table of how much stack each call takes, in this archive and in one that the compiler makes.
stacks() {
    run_make library kit= OUT="$room/compiled" CFLAGS=-O2 &&
        "$top/tools/stack-use" "$archive" "$room/compiled/libfio2070.a" >used || return 1
    sed -n '/^## The stack/,/^## /{/^```text$/,/^```$/{/^```/d;p;};}' "$top/docs/C-LIBRARY.md" | diff - used
}

# fails COMMAND..: it ends with the status 1.
fails() {
    "$@"
    [ $? -eq 1 ]
}

# is_old_syntax: the sources of the Python packages have no syntax that is newer than the version which pyproject.toml requires.
is_old_syntax() {
    python3 - "$top/bindings/python" <<'end'
import ast, glob, os, re, sys
folder = sys.argv[1]
with open(os.path.join(folder, 'pyproject.toml'), encoding='utf-8') as file:
    major, minor = re.search('(?m)^requires-python = ">=(.*)[.](.*)"$', file.read()).groups()
for path in glob.glob(os.path.join(folder, '**', '*.py'), recursive=True):
    with open(path, encoding='utf-8') as file:
        ast.parse(file.read(), path, feature_version=(int(major), int(minor)))
end
}

# packs OPTION..: the crate is packed, and has the library as in dist/.
packs() {
    "$top/packaging/crate" "$room/packing" "$@" && tar -xzf "$room"/packing/package/*.crate -C "$room/packing" &&
        cmp "$top/dist/fio2070.c" "$room"/packing/fio2070-*/c/fio2070.c &&
        cmp "$top/dist/fio2070.h" "$room"/packing/fio2070-*/c/fio2070.h
}

# reads DOCUMENT: its blocks of C, C++ and Python compile; those with a `main` of their own, and Python, run.
reads() {
    rm -f block.*
    awk '/^```(c|cpp|python)$/ { file = "block." ++n "." substr($0, 4); next }
        /^```$/ { file = ""; next } file { print >file }' "$1"
    for block in block.*; do
        include="-I $top/include -I $top/tools/conformance"
        # shellcheck disable=SC2086
        case $block in
            *.c)
                ! grep -q 'conformance\|send_frame' "$block" || run=-c
                gcc -std=c99 -Wall -Wextra $include ${run:-} "$block" ${run:-"$archive"} -o block.out || return 1
                [ -n "${run:-}" ] || ./block.out || return 1
                unset run ;;
            *.cpp) g++ -std=c++17 -Wall -Wextra $include -c "$block" -o block.out || return 1 ;;
            *.python) env PYTHONDONTWRITEBYTECODE=1 PYTHONPATH="$top/bindings/python" \
                FIO2070_LIBRARY="$room/libfio2070.so" python3 "$block" || return 1 ;;
        esac
        rm -f block.out
    done
}

# illustrated: each group of the header has an example, which compiles as the body of a function and prints what its comments say.
illustrated() {
    rm -f example.*
    awk '/^ \* @code$/ { file = "example." ++n ".c"
            print "#include <fio2070.h>\n#include <stdio.h>\nint main(void) {" >file; next }
        /^ \* @endcode$/ { print "return 0;\n}" >file; file = "" } file { print substr($0, 4) >file }' "$top/include/fio2070.h"
    set -- example.*.c
    [ $# = "$(grep -c '@defgroup' "$top/include/fio2070.h")" ] || return 1
    for example; do
        # shellcheck disable=SC2086
        gcc -std=c99 $strict -I "$top/include" "$example" "$archive" -o example.out && ./example.out >printed || return 1
        sed -n 's|.*printf(.*); *// ||p' "$example" >expected
        [ -s expected ] && diff expected printed || return 1
    done
}

# alone ARCHIVE: it needs nothing but these three functions, and what a stack protector calls where it finds a fault.
alone() {
    nm -g "$1" >names && ! awk '$1 == "U" { print $2 }' names | sort -u | grep -Ev '^(mem(cpy|move|set)|__stack_chk_fail)$'
}

# declared: the functions that the header declares.
declared() {
    grep -v '^static\|^#\|^ \*' "$top/include/fio2070.h" | grep -o 'fio2070_[a-z0-9_]*(' | tr -d '(' | sort -u
}

# prefixed LIBRARY: the shared library exports these, and the calls of the tester for languages that load it, whose names
# begin likewise.
prefixed() {
    declared >calls
    nm -D --defined-only "$1" >names && awk '{ print $3 }' names | grep -v '^fio2070_tester_' | sort | diff calls -
}

# exports ARCHIVE: it has exactly these functions.
exports() {
    nm -g "$1" | awk '$2 == "T" { print $3 }' | sort >exported
    declared | diff exported -
}

# fits COMPILER: with it the structs have the layout of the library, as the header asserts.
fits() {
    echo '#include "fio2070.h"' >header.c
    # shellcheck disable=SC2086
    "$1" -std=c99 -ffreestanding $strict -DFIO2070_PORTABLE -I "$top/include" -fsyntax-only header.c
}

# fits_not COMPILER: the header reports to it that the archive has no code for its processor.
fits_not() {
    ! "$1" -ffreestanding -I "$top/include" -fsyntax-only header.c 2>said && grep -q '#error "libfio2070.a' said
}

# misused COMPILER: it takes the right uses of support/c/misuses.c, and warns of each other use.
misused() {
    source=$top/tests/support/c/misuses.c
    # shellcheck disable=SC2086
    "$1" -std=c99 $strict -DMISUSE=0 -I "$top/include" -c "$source" -o misuses.o || return 1
    for number in $(grep -o 'MISUSE [=!]= [0-9]*' "$source" | grep -o '[0-9]*$'); do
        # shellcheck disable=SC2086
        "$1" -std=c99 $strict -DMISUSE="$number" -I "$top/include" -c "$source" -o misuses.o 2>said || continue
        echo "$1 takes misuse $number"
        return 1
    done
}

# tells PROGRAM RUN..: run in this way, the header tells the program that the processor fits, in `main`, in its first constructor,
# before all constructors, and where a call is bound.
tells() {
    cat >fitting.c <<'end'
#include "fio2070.h"
static int early = 7, first = 7, resolved(void);
__attribute__((constructor(101))) static void begin(void) { early = fio2070_processor_fits(); }
static void begin_before(void) { first = fio2070_processor_fits(); }
__attribute__((section(".preinit_array"), used)) static void (*const before)(void) = begin_before;
static int no(void) { return 0; }
static int yes(void) { return 1; }
typedef int answer(void);
__attribute__((used)) static answer *resolve(void) { return fio2070_processor_fits() ? yes : no; }
static int resolved(void) __attribute__((ifunc("resolve")));
int main(void) {
    int fits = fio2070_processor_fits();
    return early == fits && first == fits && resolved() == fits ? fits != 1 : 3;
}
end
    # shellcheck disable=SC2086
    cc -std=c99 $strict -I "$top/include" fitting.c -o "$1" || return 2
    program=./$1
    shift
    "$@" "$program"
}

# tells_not PROGRAM RUN..: run in this way, the header tells the program that the processor does not fit.
tells_not() {
    tells "$@"
    [ "$?" = 1 ]
}

# names_variable: if the archive is missing, cargo prints which variable names its folder.
names_variable() {
    env -C "$top/bindings/rust/fio2070" FIO2070_LIB_DIR="$room/none" CARGO_TARGET_DIR="$room/target" \
        cargo build --offline 2>said && return 1
    grep -q 'set FIO2070_LIB_DIR to the folder that has it' said
}

holds 'what follows from the structs and exports' "$top/tools/generate-layouts" --check
holds 'what follows from limits and rules' "$top/tools/generate-constants" --check
if has_command doxygen && has_command python3; then
    first 'make doc' run_make doc DOC="$room/doc"
    holds 'the page of doxygen has words on each call' described "$room/doc"
else
    skip 'make doc' 'no doxygen here (Debian package doxygen)'
fi
# The quick form lets the compiler do less.
level=-O1
[ -z "$all" ] || level=${CFLAGS:--O2}
first 'make library' run_make library OUT="$room" CFLAGS="$level"
holds 'the library needs no other' alone "$archive"
if ! has_command rt; then
    skip 'the stack of each call' 'no rt here (the Rattle kit), whose archive the first column is of'
elif [ "$(uname -m)" != x86_64 ] || [ "$(gcc -dumpversion)" != 12 ] || ! has_command objdump; then
    skip 'the stack of each call' 'no objdump here (Debian package binutils), or no gcc 12 for x86-64, which the second column is of'
elif whole 'the stack of each call'; then
    holds 'the stack of each call' stacks
fi
holds 'the header declares what there is' exports "$archive"
holds 'the names of the shared library' prefixed "$room/libfio2070.so"

# Each frame cut after each of its octets, and with an octet too many.
grep -v '^#' "$top/examples/every-type.frames" | awk '{
    for (place = 2; place <= length($1); place += 2) print substr($1, 1, place)
    print $1 "00" }' >cut.frames
"$top/fio2070" show <cut.frames >cut.shown
# Input n % 64 changes at millisecond n; the first change is seen by the first scan after the configuration, at 2.
awk 'BEGIN { for (n = 1; n <= 600; n++) {
    time = n == 1 ? 2 : n
    print "input", n % 64, "state", int((n - 1) / 64) % 2, "stamp", time, "wide", time } }' >wave

last=
for build in 'gcc -std=c99' 'g++ -std=c++11' 'clang -std=c99 -g -O1 -fsanitize=address,undefined -fno-sanitize-recover=all'; do
    # shellcheck disable=SC2086
    set -- $build
    if [ -z "$(command -v "$1")" ]; then
        skip "build by $1" 'it is not installed'
        continue
    fi
    [ -z "$last" ] || whole "build by $1" || continue
    first "build by $1" builds "$room/$1" "$@"
    counts "a module with slots of its own by $1" "$room/$1/module"
    holds "decode by $1" decodes "$room/$1"
    holds "poller by $1" polls "$room/$1"
    holds "poller on a babbling line by $1" gives_up "$room/$1"
    last=$room/$1
done
if ! whole 'memory that nothing has written, watched'; then
    :
elif has_command valgrind && [ -x "$room/gcc/poller" ]; then
    holds 'memory that nothing has written, watched' watched
    holds 'a poller that is watched' valgrind -q --error-exitcode=9 "$room/gcc/poller"
else
    skip 'memory that nothing has written, watched' 'no valgrind here (Debian package valgrind)'
fi
for processor in aarch64-linux-gnu m68k-linux-gnu arm-linux-gnueabihf powerpc-linux-gnu riscv64-linux-gnu; do
    whole "layout on $processor" || continue
    if [ -z "$(command -v "$processor-gcc")" ]; then
        skip "layout on $processor" "$processor-gcc is not installed"
        continue
    fi
    holds "layout on $processor" fits "$processor-gcc"
    case $processor in aarch64*) ;; *) holds "no archive for $processor" fits_not "$processor-gcc" ;; esac
done
for compiler in gcc clang; do
    [ -n "$(command -v "$compiler")" ] || continue
    [ "$compiler" = gcc ] || whole "misuses by $compiler" || continue
    holds "misuses by $compiler" misused "$compiler"
done
holds 'this processor fits' tells fitting
if ! whole 'processors that fit'; then
    :
elif has_command qemu-x86_64 && [ "$(uname -m)" = x86_64 ]; then
    for lacking in Penryn Nehalem,-popcnt Nehalem,-sse4.2; do
        holds "$lacking does not fit" tells_not fitting qemu-x86_64 -cpu "$lacking"
    done
    holds 'one of x86-64-v2 fits' tells fitting qemu-x86_64 -cpu Nehalem
else
    skip 'processors that fit' 'no qemu-x86_64 here (Debian package qemu-user)'
fi
for compiler in g++ clang++; do
    [ -n "$(command -v "$compiler")" ] || continue
    [ "$compiler" = g++ ] || whole "wrapper by $compiler" || continue
    [ "$compiler" = g++ ] || set -- -fsanitize=address,undefined -fno-sanitize-recover=all
    [ "$compiler" != g++ ] || set --
    # shellcheck disable=SC2086
    first "wrapper by $compiler" "$compiler" -std=c++17 $strict "$@" -I "$top/include" "$top/tests/support/c/wrapper.cpp" "$archive" \
        -o "$room/wrapper"
    counts "rows of the wrapper by $compiler" "$room/wrapper"
done
if [ -n "$(command -v python3)" ]; then
    counts 'rows of tests/rows.json' "$top/tests/support/rows.py" "$room/libfio2070.so"
    holds 'Python' env -C "$top/bindings/python" PYTHONDONTWRITEBYTECODE=1 FIO2070_LIBRARY="$room/libfio2070.so" \
        python3 test.py
    holds 'Python, of a word that no test has' fails env -C "$top/bindings/python" PYTHONDONTWRITEBYTECODE=1 \
        FIO2070_LIBRARY="$room/libfio2070.so" python3 test.py -k no-such-test
    if has_command mypy; then
        holds 'type hints' mypy --strict --cache-dir="$room/mypy" "$top/bindings/python/fio2070"
    else
        skip 'type hints' 'no mypy here (Debian package mypy)'
    fi
    holds 'no syntax newer than the oldest Python that is stated' is_old_syntax
    oldest=$(sed -n 's/^requires-python = ">=\(.*\)"$/python\1/p' "$top/bindings/python/pyproject.toml")
    if ! whole "by $oldest"; then
        :
    elif has_command "$oldest" && "$oldest" -c '' 2>/dev/null; then
        holds "Python by $oldest" env -C "$top/bindings/python" PYTHONDONTWRITEBYTECODE=1 \
            FIO2070_LIBRARY="$room/libfio2070.so" "$oldest" test.py
    else
        skip "by $oldest" 'it is not installed'
    fi
    if ! whole 'pip install'; then
        :
    elif python3 -m venv "$room/python" >"$room/log" 2>&1; then
        holds 'pip install' "$room/python/bin/pip" install --quiet --no-index "$top/bindings/python"
        holds 'the installed package' env -C "$room" FIO2070_LIBRARY="$room/libfio2070.so" "$room/python/bin/python" -c \
            'import fio2070; assert fio2070.encode.poll(5) == b"\x36\5" and "site-packages" in fio2070.__file__'
    else
        skip 'pip install' 'python3 has no module venv here (Debian package python3-venv)'
    fi
else
    skip 'Python' 'python3 is not installed'
fi
if [ -n "$(command -v gcc)" ] && [ -n "$(command -v g++)" ] && [ -n "$(command -v python3)" ]; then
    for document in README.md docs/C-LIBRARY.md bindings/python/README.md tools/conformance/README.md tools/portable/README.md; do
        holds "the blocks of $document" reads "$top/$document"
    done
    holds 'the examples of the header' illustrated
fi
if [ -n "$(command -v cargo)" ]; then
    # An older rustc, such as that of Debian, may come first in PATH.
    beside=$(dirname -- "$(command -v cargo)")/rustc
    [ ! -x "$beside" ] || export RUSTC="$beside"
    holds 'Rust' env -C "$top/bindings/rust/fio2070" FIO2070_LIB_DIR="$room" CARGO_TARGET_DIR="$room/target" \
        cargo test --offline --quiet
    holds 'Rust without std' env -C "$top/bindings/rust/fio2070" FIO2070_LIB_DIR="$room" CARGO_TARGET_DIR="$room/target" \
        cargo build --offline --quiet --no-default-features
    # That of Debian 12 reads no lock file of a later version.
    holds 'the lock file of Rust' grep -qx 'version = 3' "$top/bindings/rust/fio2070/Cargo.lock"
    holds 'Rust without the library' names_variable
    if whole 'the crate is built as it is packed'; then
        holds 'the crate is built as it is packed' packs
    fi
    holds 'the crate is packed' packs --no-verify
else
    skip 'Rust' 'cargo is not installed'
fi
end
