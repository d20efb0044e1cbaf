# What the makers of packages share: sourced by them at the top of the repository.

# fail WORD..: says why there is no package, and ends.
fail() {
    echo "packaging: $*" >&2
    exit 1
}

# say WORD..: says on standard error what is being done.
say() { echo "packaging: $*" >&2; }

# needs COMMAND..: ends if a command is not installed.
needs() {
    for command in "$@"; do
        [ -n "$(command -v "$command")" ] || fail "this needs the command $command"
    done
}

# What is packed was made in this folder, with the Rattle kit or without it, as the Makefile says.
OUT=${OUT:-.}
kit=${kit-$(command -v rt)}

# of_library PROVED COMPILED: prints the one or the other, which say what the library is: proved and compiled by the kit, or compiled
# from dist/fio2070.c.
of_library() { if [ -n "$kit" ]; then echo "$1"; else echo "$2"; fi; }

# The version that the program prints, or that of CHANGELOG.md if only a library is packed.
version() {
    if [ "$processor" = x86_64 ]; then
        program=$(packaging/program --proved) || fail 'there is no program to pack'
        "$program" --version | cut -d ' ' -f 2
    else
        sed -n 's/^## \([0-9][0-9.]*\).*/\1/p' CHANGELOG.md | head -n 1
    fi
}

# The time stamp of all files of a package: that of the last commit, or what SOURCE_DATE_EPOCH says.
epoch() { echo "${SOURCE_DATE_EPOCH:-$(git log -1 --format=%ct 2>/dev/null || stat -c %Y CHANGELOG.md)}"; }

# install_into FOLDER TARGET SETTING..: installs into a folder, by a target of the Makefile with these settings. Everyone can read all
# of it, whatever the settings of the user who cloned the repository.
install_into() {
    into=$1 target=$2
    shift 2
    umask 022
    env -u MAKEFLAGS -u MAKELEVEL -u MFLAGS make -s "$target" kit="$kit" OUT="$OUT" DESTDIR="$into" "$@" >/dev/null ||
        fail "make $target failed"
    chmod -R u=rwX,go=rX "$into"
}

# stage FOLDER SETTING..: installs all into a new folder, without symbols. The program of dist/ stays as it is, and one that was built
# here loses its symbols by the same strip, so that the two have the same octets if they have the same sources.
stage() {
    folder=$1
    shift
    install_into "$folder" install "$@"
    find "$folder" -type f -path '*/bin/fio2070-*' -exec strip --strip-unneeded '{}' ';' \
        -o -type f -name '*.so*' -exec strip --strip-unneeded '{}' ';' \
        -o -name '*.a' -exec strip --strip-debug --enable-deterministic-archives '{}' ';' || fail 'strip failed'
    for file in "$folder"/*/bin/fio2070; do
        cmp -s "$file" dist/fio2070-x86_64-linux-gnu || packaging/strip-program "$file" || fail 'the program cannot be stripped'
    done
}

# stage_library FOLDER ARCHIVE SETTING..: installs an archive for another processor and its headers into a new folder.
stage_library() {
    folder=$1 archive=$2
    shift 2
    install_into "$folder" install-library libraries="$archive" shared= "$@"
}

# stage_documents FOLDER SETTING..: puts the documents and the examples into a folder, and the glossary with them.
stage_documents() {
    folder=$1
    shift
    install_into "$folder" install-documents "$@"
    for documents in "$folder"/*/share/doc/fio2070; do tools/generate-glossary >"$documents/docs/GLOSSARY.md"; done
    chmod -R u=rwX,go=rX "$folder"
}

# set_times FOLDER: gives all files and folders the time stamp of the package.
set_times() { find "$1" -exec touch -h -d "@$(epoch)" '{}' +; }
