#!/bin/sh
# Compares dist/ with its list of checksums, and with what `make release-files` makes from the proved sources; the page only if the `wasm-opt` that its head
# names is installed, the program by itself. If dist/ was made from other sources, this is left to --all. Each of these files
# begins with its licence, and the packages for Python and Rust have its text. The last line is `N passed, M failed`.

. "$(dirname -- "$(readlink -f -- "$0")")/support/check.sh"
dist=$top/dist

# names FILE LINE: the head of a file has this line.
names() { head -n 16 "$1" | grep -Fqx " * $2"; }

# has_optimizer: the program that lowers the page's library is the one named by the page.
has_optimizer() {
    has_command wasm-opt && sed -n 1,24p "$dist/fio2070.html" | tr '\n' ' ' | grep -Fq "lowering by $(wasm-opt --version)."
}

# is_licensed FILE: it begins with the licence and the copyright.
is_licensed() {
    head -n 4 "$1" >"$room/first"
    grep -q '\(^\|[^ ] \)SPDX-License-Identifier: MIT$' "$room/first" && grep -Fq "$(grep '^Copyright' "$top/LICENSE")" "$room/first"
}

# has_one NAME: what is unpacked has one file of this name, which is that of the repository.
has_one() { find unpacked -name "$1" -exec cmp '{}' "$top/$1" ';' -print | grep -c . | grep -qx 1; }

# has_text ARCHIVE: a package for Python has the texts of the licences, each in its one file.
has_text() {
    mkdir -p unpacked && python3 -c 'import shutil, sys
shutil.unpack_archive(sys.argv[1], "unpacked", "zip" if sys.argv[1].endswith(".whl") else "gztar")' "$1" &&
        has_one LICENSE && has_one LICENSES-OF-OTHERS
    status=$?
    rm -rf unpacked
    return "$status"
}

# packs PART: makes the source distribution or the wheel, by bindings/python/backend.py.
packs() { env -C "$top/bindings/python" PYTHONDONTWRITEBYTECODE=1 python3 -c "import backend; backend.build_$1('$room')"; }

for file in dist/fio2070.c dist/fio2070.h dist/fio2070.hpp dist/fio2070.html dist/CMakeLists.txt dist/fio2070-x86_64-linux-gnu.txt include/fio2070.h include/fio2070.hpp; do
    holds "the licence of $file" is_licensed "$top/$file"
done
if has_command cc; then
    first 'the wheel' packs wheel
    holds 'the licence in the wheel' has_text "$(echo "$room"/fio2070-*.whl)"
fi
first 'the source distribution' packs sdist
holds 'the licence in the source distribution' has_text "$(echo "$room"/fio2070-*.tar.gz)"
if has_command cargo; then
    "$top/packaging/crate" "$room/target" --list >"$room/crate" 2>&1
    for name in LICENSE LICENSES-OF-OTHERS; do holds "$name in the crate" grep -qx "$name" "$room/crate"; done
fi
for file in fio2070.c fio2070.h fio2070.hpp fio2070.html; do
    for part in Sources Kit Proof 'To report a fault'; do
        holds "the head of $file: $part" sh -c 'head -n 24 "$1" | grep -q "^ \* $2: ."' sh "$dist/$file" "$part"
    done
done
program=fio2070-x86_64-linux-gnu
for part in Sources Kit Proof 'To report a fault'; do
    holds "the text beside the program: $part" grep -q "^$part: ." "$dist/$program.txt"
done
holds 'the text beside the program has the checksum of its list' \
    grep -q "^Sources: $(sha256sum <"$dist/$program.sources" | cut -d ' ' -f 1) " "$dist/$program.txt"

# lists_all: dist/SHA256SUMS has the checksum of each file beside it, and of no other.
lists_all() {
    (cd "$dist" && sha256sum --check --strict --quiet SHA256SUMS && find . -type f ! -name SHA256SUMS | sed 's|^\./||' | LC_ALL=C sort) >"$room/names" &&
        sed 's/^[0-9a-f]*  //' "$dist/SHA256SUMS" | cmp - "$room/names"
}
if [ -e "$dist/SHA256SUMS" ]; then
    holds 'dist/SHA256SUMS lists what is beside it' lists_all
else
    skip 'dist/SHA256SUMS' 'no such file yet (make release-files)'
fi

# needs_libc FILE: the file names the oldest glibc that has all that the program uses.
needs_libc() {
    needed=$(grep -ao 'GLIBC_2\.[0-9]*' "$dist/$program" | cut -d _ -f 2 | sort -V | tail -n 1)
    echo "it needs glibc $needed"
    tr '\n' ' ' <"$1" | grep -q "glibc $needed"
}

for file in packaging/program "dist/$program.txt" README.md docs/PLATFORMS.md packaging/INSTALL.in; do
    holds "the oldest glibc in $file" needs_libc "$top/$file"
done

# counts_no_made_files: the checksum of the sources is the same with folders of made files beside them.
counts_no_made_files() {
    before=$("$top/packaging/release-files" --sources) && mkdir -p tree && (cd "$top" && tar -c --exclude=./.git --exclude=out .) | tar -x -C tree &&
        mkdir -p tree/examples/out tree/tools/page/__pycache__ && touch tree/examples/out/firmware tree/tools/page/__pycache__/join.txt || return 1
    [ "$(tree/packaging/release-files --sources)" = "$before" ] || return 1
    touch tree/examples/added.frames
    [ "$(tree/packaging/release-files --sources)" != "$before" ]
}
holds 'the checksum of the sources counts no made files' counts_no_made_files

if ! has_command rt; then
    skip 'dist/ is what the proofs make' 'no rt here (the Rattle kit)'
    end
fi
if "$top/packaging/program" --sources | cmp -s - "$dist/$program.sources" ||
    whole 'the program of dist/ is what the proofs make (it is of other sources now: make release-files)'; then
    first 'make release-program' run_make release-program FILES="$room/program"
    for file in $program $program.txt $program.sources; do
        holds "dist/$file is what the proofs make" cmp "$dist/$file" "$room/program/$file"
    done
    (cd "$room/program" && echo 'made here, of these sources:' && cat SHA256SUMS)
fi
sources=$("$top/packaging/release-files" --sources)
if names "$dist/fio2070.c" "Sources: $sources (SHA-256; packaging/release-files --sources)" ||
    whole 'dist/ is what the proofs make (it is of other sources now: make release-files)'; then
    if has_optimizer; then
        first 'make release-files' run_make release-files FILES="$room/made" release_program=
        files='fio2070.c fio2070.h fio2070.hpp fio2070.html CMakeLists.txt'
    else
        skip 'the page of dist/' 'not the wasm-opt here that its head names (Debian package binaryen)'
        first 'make portable' run_make portable portable="$room/made"
        files='fio2070.c fio2070.h fio2070.hpp'
    fi
    for file in $files; do
        holds "dist/$file is what the proofs make" cmp "$dist/$file" "$room/made/$file"
        (cd "$room/made" && sha256sum "$file")
    done
fi
end
