#!/bin/sh
# Makes the archive and the Debian package, each twice, compares the two, unpacks them into empty folders and runs the
# program there, with only the C runtime library (libc) if the machine allows it. The last line is `N passed, M failed`.

. "$(dirname -- "$(readlink -f -- "$0")")/support/check.sh"

# twice TARGET: makes a package twice, the second time with another user's settings and another folder for temporary files.
twice() {
    mkdir "$room/other"
    run_make "$1" DIST="$room/$1.1" &&
        (umask 077 && TMPDIR=$room/other LC_ALL=C TZ=Asia/Tokyo run_make "$1" DIST="$room/$1.2")
    status=$?
    rmdir "$room/other" && return "$status"
}

# same TARGET: the two packages have the same name and the same octets.
same() { diff -r "$room/$1.1" "$room/$1.2"; }

# has FOLDER NAME..: the folder has these files.
has() {
    folder=$1
    shift
    for file in "$@"; do
        if [ ! -f "$folder/$file" ]; then
            echo "there is no $file"
            return 1
        fi
    done
}

# shows PROGRAM: the program runs.
shows() { [ "$(echo 3605 | "$@" show)" = 'poll block 5' ]; }

# runs_example PROGRAM DOCUMENTS: for an example the program writes what is beside it.
runs_example() { "$1" simulate <"$2/examples/overflow.script" | cmp - "$2/examples/overflow.report"; }

# is_of_dist PROGRAM: it is the program of dist/.
is_of_dist() { cmp "$1" "$top/dist/fio2070-x86_64-linux-gnu"; }

# says_which TEXT: the text says which library is packed.
says_which() {
    if has_command rt; then wanted='compiled by the Rattle kit'; else wanted='compiled from dist/fio2070\.c'; fi
    printf '%s\n' "$1" | tr -s '\n ' ' ' | grep -q "$wanted"
}

# is_linked DOCUMENTS: each document that README.md links exists.
is_linked() {
    grep -o '](docs/[A-Z-]*\.md' "$1/README.md" | sed 's/^](//' | sort -u >"$room/links"
    [ -s "$room/links" ] && while read -r file; do has "$1" "$file" || return 1; done <"$room/links"
}

# matches FORM TEXT: the whole text has this form.
matches() { printf '%s\n' "$2" | grep -Eqx "$1"; }

# field NAME: a field of the package's description.
field() { dpkg-deb -f "$room"/deb.1/fio2070_*.deb "$1"; }

# is_clean PACKAGE..: lintian finds no error and gives no warning.
is_clean() { lintian --fail-on error,warning "$@"; }

# unpacks PACKAGE..: all of them go into the folder `root`.
unpacks() { for package in "$@"; do dpkg-deb -x "$package" root || return 1; done; }

# reads COMMAND..: the command reads a log.
reads() { [ "$(echo 'RX B6 05 00 00 00 00 03 E8' | "$@" decode -q)" = '1:     < block 5 entries 0 status 00 stamp 1000' ]; }

# follows_note: the commands of the note after its first heading, in a folder that only has the archive.
follows_note() {
    mkdir -p noted && cp dist.1/*.tar.gz noted || return 1
    sed -n '/^Without/,/^For all/s/^    //p' "$place/INSTALL" >noted/commands
    (cd noted && PATH=/usr/bin:/bin sh -e ./commands >out 2>log) || { cat noted/log; return 1; }
    tail -n 1 noted/out | grep -qx '1:     < block 5 entries 0 status 00 stamp 1000'
}

# without_net COMMAND..: runs a command without a network, if the machine allows it.
without_net() {
    if unshare --net --map-root-user true 2>log; then unshare --net --map-root-user "$@"; else "$@"; fi
}

# wheel: pip makes the wheel and installs it into an environment of its own, where the command runs with its own library.
wheel() {
    without_net env/bin/pip wheel --quiet --no-index --no-deps --wheel-dir wheels "$top/bindings/python" &&
        without_net env/bin/pip install --quiet --no-index wheels/*.whl || return 1
    env/bin/python -c 'import sys, zipfile
names = zipfile.ZipFile(sys.argv[1]).namelist()
sys.exit("fio2070/libfio2070.so.1" not in names)' wheels/*.whl &&
        reads env -i PATH=/usr/bin:/bin env/bin/fiolog &&
        env -i PATH=/usr/bin:/bin env/bin/python -c 'import fio2070
assert fio2070.version() == fio2070.constants.VERSION and "site-packages" in fio2070.__file__'
}

# in_copy COMMAND: runs a command in a copy of this system, whose files stay as they are: what is written goes to a folder.
in_copy() {
    mkdir -p copy layers
    # shellcheck disable=SC2016
    unshare --mount sh -c '
        mount -t tmpfs none layers && mkdir layers/upper layers/work layers/root &&
            mount -t overlay overlay -o lowerdir=/,upperdir=layers/upper,workdir=layers/work layers/root &&
            mkdir -p layers/root/copy && cp -R copy/. layers/root/copy &&
            PATH=/usr/sbin:/usr/bin:/sbin:/bin chroot layers/root sh -c "cd /copy && $1"' sh "$1"
}

# The packages are installed as by a user, their commands run, and the packages removed.
mkdir copy
cat >copy/installs <<'end'
set -e
dpkg -i packages/*.deb >log 2>&1 || { cat log; exit 1; }
[ "$(echo 3605 | fio2070 show)" = 'poll block 5' ]
[ "$(echo 'RX B6 05 00 00 00 00 03 E8' | fiolog decode -q)" = '1:     < block 5 entries 0 status 00 stamp 1000' ]
[ "$(echo 'TX 36 05' | fiolog convert -q --like 'TX 36 05' --to frames)" = 3605 ]
for command in fio2070-transcript fio2070-lossy-script fio2070-test; do $command --help >log 2>&1; done
ldconfig -p | grep -q 'libfio2070\.so\.1 '
dpkg -r fio2070-tools python3-fio2070 fio2070 libfio2070-dev libfio2070-1 >log 2>&1 || { cat log; exit 1; }
[ ! -e /usr/bin/fiolog ]
end

# A program in C with the library.
cat >user.c <<'end'
#include <fio2070.h>
int main(void) {
    static const struct fio2070_poller poller = {5};
    uint8_t poll[2] = {0, 0};
    return fio2070_version() != FIO2070_VERSION || fio2070_poller_poll(&poller, poll, sizeof poll) != 2 || poll[1] != 5;
}
end

# links LIBRARY OPTION..: the program is built with the headers and a library of a package, and runs. For a shared library
# LIBRARY is the folder from which it is loaded; for the archive it is empty, and the program needs no shared library.
links() {
    folder=$1
    shift
    # shellcheck disable=SC2068
    cc user.c $@ -o linked && env LD_LIBRARY_PATH="$folder" ./linked || return 1
    if [ -z "$folder" ]; then ! needs_library; else needs_library; fi
}

# needs_library: the program loads the shared library by the name with its number.
needs_library() { readelf -d linked | grep -q 'NEEDED.*\[libfio2070\.so\.1\]'; }

# finds PREFIX FOLDER: CMake finds the library below the prefix, and builds with it a program with the archive and one with
# the shared library, which run; it finds no version 2.
finds() {
    rm -rf found
    mkdir found
    cp user.c found/main.c
    cat >found/CMakeLists.txt <<'end'
cmake_minimum_required(VERSION 3.13)
project(found C)
find_package(fio2070 2.0 QUIET)
if(fio2070_FOUND)
    message(FATAL_ERROR "version 2 was found")
endif()
find_package(fio2070 1.0 REQUIRED)
add_executable(static main.c)
target_link_libraries(static fio2070::fio2070)
add_executable(loaded main.c)
target_link_libraries(loaded fio2070::shared)
end
    cmake -S found -B found/build -DCMAKE_PREFIX_PATH="$1" -Dfio2070_DIR="$2/cmake/fio2070" && cmake --build found/build \
        && found/build/static && found/build/loaded && cp found/build/loaded linked && needs_library
}

# runs_there FOLDER LIBRARY: the program runs if it is built with this archive, and the headers below the folder.
runs_there() { aarch64-linux-gnu-gcc -static -I "$1/include" user.c "$2" -o there && qemu-aarch64 ./there; }

# for_aarch64: the archive and the package for AArch64, each made twice, are one, and their libraries run.
for_aarch64() {
    for number in 1 2; do
        run_make dist TARGET=aarch64 DIST="$room/there.$number" || return 1
        ! has_command dpkg-deb || run_make deb TARGET=aarch64 DIST="$room/there.$number" || return 1
    done
    diff -r there.1 there.2 && mkdir there.out && tar -C there.out -xf there.1/fio2070-*-aarch64.tar.gz || return 1
    folder=$(echo there.out/fio2070-*)
    has "$folder" share/doc/fio2070/docs/C-LIBRARY.md lib/pkgconfig/fio2070.pc include/fio2070.hpp \
        lib/cmake/fio2070/fio2070-config.cmake && runs_there "$folder" "$folder/lib/libfio2070.a" || return 1
    has_command dpkg-deb || return 0
    dpkg-deb -x there.1/libfio2070-dev_*_arm64.deb there.out/package &&
        runs_there there.out/package/usr there.out/package/usr/lib/aarch64-linux-gnu/libfio2070.a || return 1
    ! has_command lintian || is_clean "$(echo there.1/libfio2070-dev_*_arm64.deb)"
}

# flags FOLDER: what pkg-config says about the fio2070.pc in this folder.
flags() { PKG_CONFIG_PATH=$1 pkg-config --cflags --libs fio2070; }

# shows_alone ROOT: the program runs in a root that only has libc.
shows_alone() {
    for file in $(ldd "$1/usr/bin/fio2070" | grep -o '/[^ ]*'); do
        install -D "$file" "$1$file" || return 1
    done
    shows unshare --map-root-user env PATH=/usr/sbin:/usr/bin:/sbin:/bin chroot "$1" /usr/bin/fio2070
}

# used WHAT PREFIX DOCUMENTS LIBRARY: rows for the archive or the packages: what is below the prefix, with the library in this folder.
used() {
    holds "the program of the $1" shows "$2/bin/fio2070"
    holds "an example of the $1" runs_example "$2/bin/fio2070" "$3"
    holds "the tester of the $1" "$2/bin/fio2070-test" --self module 2000
    holds "the links of the $1" is_linked "$3"
    if has_command cmake && has_command cc; then
        holds "CMake finds the library of the $1" finds "$2" "$4"
    else
        skip "CMake finds the library of the $1" 'no cmake or no cc here'
    fi
}

first 'make dist' twice dist
holds 'two archives are one' same dist
mkdir unpacked
first 'the archive is unpacked' tar -C unpacked -xf "$(echo dist.1/fio2070-*-x86_64.tar.gz)"
place=$(echo "$room"/unpacked/fio2070-*)
documents=$place/share/doc/fio2070
used archive "$place" "$documents" "$place/lib"
if "$top/packaging/program" --sources | cmp -s - "$top/dist/fio2070-x86_64-linux-gnu.sources"; then
    holds 'the program of the archive is that of dist/' is_of_dist "$place/bin/fio2070"
else
    skip 'the program of the archive is that of dist/' 'dist/ is of other sources now'
fi
holds 'INSTALL says which library it is' says_which "$(cat "$place/INSTALL")"
holds 'the files of the archive' has "$place" share/man/man1/fio2070.1 share/bash-completion/completions/fio2070 \
    share/zsh/site-functions/_fio2070 share/fish/vendor_completions.d/fio2070.fish bin/fio2070-test \
    share/man/man1/fio2070-test.1 share/man/man1/fiolog.1 INSTALL share/fio2070/rust/fio2070/src/lib.rs share/fio2070/python/fio2070/py.typed
holds 'fiolog of the archive' reads "$place/bin/fiolog"
holds 'what INSTALL says' follows_note
holds 'the library of the archive' has "$place" lib/libfio2070.a include/fio2070.h include/fio2070.hpp \
    lib/pkgconfig/fio2070.pc lib/cmake/fio2070/fio2070-config.cmake lib/libfio2070.so.1 lib/libfio2070.so
if has_command pkg-config && has_command cc; then
    # shellcheck disable=SC2046
    holds 'a program with the library of the archive' links "$place/lib" $(flags "$place/lib/pkgconfig")
    # shellcheck disable=SC2046
    holds 'a program without it' links '' -I "$place/include" "$place/lib/libfio2070.a"
else
    skip 'a program with the library of the archive' 'no pkg-config or no cc here'
fi
holds 'the documents of the archive' has "$documents" README.md CHANGELOG.md LICENSE LICENSES-OF-OTHERS docs/FORMATS.md

if python3 -m venv env >log 2>&1; then
    holds 'the wheel, without a network' wheel
else
    skip 'the wheel' 'python3 has no module venv here (Debian package python3-venv)'
fi

if ! has_command rt; then
    skip 'the library for AArch64' 'no rt here (the Rattle kit)'
elif has_command aarch64-linux-gnu-gcc && has_command qemu-aarch64; then
    holds 'the library for AArch64 in an archive and in a package' for_aarch64
else
    skip 'the library for AArch64' 'no aarch64-linux-gnu-gcc or no qemu-aarch64 here (Debian packages gcc-aarch64-linux-gnu,
qemu-user)'
fi

if ! has_command dpkg-deb; then
    skip 'the Debian package' 'no dpkg-deb here (Debian package dpkg)'
else
    first 'make deb' twice deb
    holds 'two packages are one' same deb
    holds 'it depends on the C library alone' matches 'libc6 \(>= 2\.[0-9]+\)' "$(field Depends)"
    holds 'it says what processor it needs' matches '.* SSE4\.2.*' "$(field Description | tr '\n' ' ')"
    for name in libfio2070-1 libfio2070-dev; do
        holds "$name says which library it is" says_which "$(dpkg-deb -f "$room/deb.1/${name}"_*.deb Description)"
    done
    first 'the packages are unpacked' unpacks deb.1/*.deb
    documents=$room/root/usr/share/doc/fio2070
    library=$room/root/usr/lib/x86_64-linux-gnu
    used package "$room/root/usr" "$documents" "$library"
    holds 'the files of the package' has "$room/root/usr/share" man/man1/fio2070.1.gz doc/fio2070/copyright \
        bash-completion/completions/fio2070 zsh/vendor-completions/_fio2070 fish/vendor_completions.d/fio2070.fish \
        man/man1/fio2070-test.1.gz
    holds 'the library of the package' has "$room/root/usr" lib/x86_64-linux-gnu/libfio2070.a include/fio2070.h \
        share/man/man3/fio2070_poller_hear.3.gz include/fio2070.hpp lib/x86_64-linux-gnu/pkgconfig/fio2070.pc
    holds 'the prefix of the package' grep -qx 'prefix=/usr' "$library/pkgconfig/fio2070.pc"
    if has_command cc; then
        holds 'a program with the archive of the package' links '' -I "$room/root/usr/include" "$library/libfio2070.a"
        holds 'a program with the library of the package' links "$library" -I "$room/root/usr/include" \
            "$library/libfio2070.so"
    else
        skip 'a program with the library of the package' 'no cc here'
    fi
    holds 'fiolog of the packages' reads env PYTHONPATH="$room/root/usr/lib/python3/dist-packages" \
        LD_LIBRARY_PATH="$library" "$room/root/usr/bin/fiolog"
    holds 'the manual pages of the tools' sh -c 'for command in "$1"/bin/*; do
        [ -e "$1/share/man/man1/$(basename "$command").1.gz" ] || exit 1; done' sh "$room/root/usr"
    if in_copy true 2>"$room/log"; then
        cp -R deb.1 copy/packages
        holds 'dpkg installs the packages in a copy of this system, and their commands run' in_copy 'sh installs'
    else
        skip 'dpkg installs the packages' 'this machine allows no copy of its system (root, and overlays of folders)'
    fi
    if unshare --map-root-user true 2>"$room/log"; then
        holds 'the program with the C library alone' shows_alone "$room/root"
    else
        skip 'the program with the C library alone' 'this machine allows no new root'
    fi
    needing lintian lintian 'lintian is content' is_clean "$room"/deb.1/*.deb
fi

end
