# What the Makefile makes from the proved sources, with the Rattle kit.

interface = include
libraries = $(wildcard $(OUT)/libfio2070.a)
shared = $(wildcard $(OUT)/$(soname))
command = $(wildcard $(OUT)/fio2070-test)

# The archive.
archive = crates/fio_c/out/libfio_c.a
crates := $(shell ./build --order fio_c)
proved := $(shell find $(addprefix crates/,$(crates)) \
    -name out -prune -o -type f \( -name '*.rt' -o -name '*.antt' \) -print)

$(archive): $(proved)
	@./build --library fio_c $(RTFLAGS)

$(OUT)/libfio2070.a: $(archive)
	@$(call made,cp $(archive) "$$room/$(@F)")

# The same sources, proved for other targets of the kit: `make wasm` makes the library as a WebAssembly module, without
# imports, with a memory of 64 bits, for the portable library and for the page.
kit_folder = $(patsubst %/,%,$(dir $(shell rt doc)))
wasm = wasm64-unknown-unknown
module = crates/fio_c/out/$(wasm)/fio_c.wasm

.PHONY: wasm

wasm: $(module)

crates/fio_c/out/%/libfio_c.a: $(archive) packaging/for-target
	packaging/for-target $* $(RTFLAGS)

$(OUT)/aarch64/libfio2070.a: crates/fio_c/out/aarch64-unknown-linux-gnu/libfio_c.a
	mkdir -p $(@D)
	cp $< $@

# Its stack has 1 MB, of which no call takes more than half.
$(module): crates/fio_c/out/$(wasm)/libfio_c.a
	'$(kit_folder)/bin/rattle-link' --target $(wasm) --toolchain '$(kit_folder)/toolchain' --stack 1048576 -o $@ $<

# The portable library: fio2070.c and fio2070.h, two files of C99 for any processor, with the C++ header
# (tools/portable/README.md).
portable = $(OUT)/portable
translator = $(addprefix tools/portable/,translate instructions.py functions.py module.py parts.py accesses.py ahead.py loops.py head.txt machine.c calls.c)

.PHONY: portable

portable: $(portable)/fio2070.c

$(portable)/fio2070.c: $(module) $(headers) $(translator) packaging/release-files
	packaging/release-files $(module) $(portable)

# The page: one file that a browser opens offline, with the library in it (tools/page/README.md). If `wasm-opt` of the
# package binaryen is installed, it also lowers the library to memory of 32 bits, for browsers that have no other.
page = $(OUT)/fio2070.html
lowered_module = crates/fio_c/out/$(wasm)/lowered.wasm
lowered = $(if $(shell command -v wasm-opt),$(lowered_module))
page_sources = $(wildcard tools/page/join tools/page/*.html tools/page/*/*.* examples/*.* examples/captures/*)

.PHONY: page

page: $(page)

$(lowered_module): $(module)
	wasm-opt --enable-memory64 --enable-bulk-memory --enable-mutable-globals --enable-sign-ext \
	    --memory64-lowering -Os $< -o $@

$(page): $(module) $(lowered) $(page_sources)
	tools/page/join $(module) $@ $(addprefix --lowered ,$(lowered))

# The files that are kept in dist/, for those without the kit. `tests/release-files.sh` compares them with what this makes in
# the folder FILES.
FILES = dist

.PHONY: release-files release-program

release_program = release-program
release-files: $(module) $(lowered) $(page_sources) $(release_program)
	packaging/release-files $(module) '$(FILES)' --page $(addprefix --lowered ,$(lowered))

# The program of dist/ alone, which needs no wasm-opt.
release-program:
	packaging/release-files --program "$$(packaging/program --built)" '$(FILES)'

# `make release` makes all packages, with their checksums.
release: library $(OUT)/aarch64/libfio2070.a
	@kit='$(kit)' OUT='$(OUT)' packaging/release '$(DIST)'
