# Builds the program, the libraries and the tools, installs them with their manual pages and documents, and makes packages of
# them:
#
#     make
#     make library
#     make install PREFIX=/usr/local
#     make uninstall PREFIX=/usr/local
#     make release
#
# The program is the one that packaging/program names: that of dist/, if the sources are those that it was made of. With the
# Rattle kit, `rt`, the libraries are made from the proved sources. Without it, they are made from dist/ by a C compiler, for
# the machine that it compiles for.
#
# DESTDIR, if it is given, precedes each path, as for a package. LIB, ZSH and TOOLS are the folders of libraries, of zsh's
# completions and of tools/ below PREFIX. What is made goes to the folder OUT, so that a tree that can only be read can be
# built and installed from; what the kit makes of a crate goes beside the crate. DIST is the folder of the packages. CFLAGS and
# LDFLAGS are passed to the compiler, with the flags of packaging/hardening; HARDENING= and LINK_HARDENING= leave these out.

PREFIX = /usr/local
DESTDIR =
LIB = lib
ZSH = share/zsh/site-functions
TOOLS = share/fio2070
OUT = .
DIST = $(OUT)/release
CFLAGS ?= -O2
LDCONFIG = ldconfig

blank := $(subst ,, )
ifneq ($(words x$(OUT)x),1)
$(error OUT cannot have a blank: its names are words of rules)
endif

root = $(DESTDIR)$(PREFIX)
bin = $(root)/bin
man = $(root)/share/man/man1
bash = $(root)/share/bash-completion/completions
zsh = $(root)/$(ZSH)
fish = $(root)/share/fish/vendor_completions.d
documents = $(root)/share/doc/fio2070

kit := $(shell command -v rt)

.PHONY: all test install uninstall dist deb release
# One after another: what is installed first is needed to link what is installed after it.
.NOTPARALLEL:

# The program of this tree: makes it if there is none yet, and says which it is.
all:
	@FIO2070_OUT='$(OUT)' ./fio2070 --version

# Proves what changed and checks what that can break; a merge waits for `./test --all`.
test:
	@./test

# ---- The C library ----

# `make library` makes the archive, a shared library for languages that load one, and the tester. The number in the shared
# library's name is that of its interface: it rises when a program has to be rebuilt. PCPREFIX is the prefix that fio2070.pc
# names. RTFLAGS are further words for `rt lib`, such as `--jobs 1`.

PCPREFIX = $(PREFIX)
RTFLAGS =
VERSION = $(shell sed -n 's/^\#\# \([0-9][0-9.]*\).*/\1/p' CHANGELOG.md | head -n 1)
tester = $(wildcard tools/conformance/conformance*.c)
objects = $(OUT)/out/tester
exports = tools/conformance/exports.map
# Found out once, when something is compiled.
HARDENING = $(eval HARDENING := $(shell packaging/hardening $(CC) $(CPPFLAGS) $(CFLAGS)))$(HARDENING)
LINK_HARDENING = $(eval LINK_HARDENING := $(shell packaging/hardening --link $(CC)))$(LINK_HARDENING)
compile = $(CC) $(HARDENING) $(CPPFLAGS) $(CFLAGS)
linking = $(LINK_HARDENING) $(LDFLAGS)

# $(call made,COMMAND): a recipe that shows and runs a command, which writes `$$room/FILE` for a target FILE. The file then takes
# its place at once, so that two makes can work in one tree.
shown = $(if $(findstring s,$(firstword -$(MAKEFLAGS))),,$(info $(1)))
made = $(shown)mkdir -p '$(@D)' '$(OUT)/out' && room=$$(mktemp -d '$(OUT)/out/make.XXXXXX') && trap 'rm -rf "$$room"' EXIT && $(1) && \
    mv -f "$$room/$(@F)" '$@'

# The name of a shared library, and how it is linked, on the machine that CC compiles for. On Windows there is no tester,
# since it needs POSIX.
machine := $(shell $(CC) -dumpmachine 2>/dev/null)
ifneq ($(findstring mingw,$(machine)),)
soname = fio2070.dll
link_name = $(soname)
sharing = -shared
all_of = -Wl,--whole-archive $(1) -Wl,--no-whole-archive
shared_tester =
else ifneq ($(findstring darwin,$(machine)),)
soname = libfio2070.1.dylib
link_name = libfio2070.dylib
sharing = -dynamiclib -fPIC -install_name @rpath/$(soname) -Wl,-exported_symbol,_fio2070_*
all_of = -Wl,-force_load,$(1)
shared_tester = tools/conformance/shared.c $(objects)/tester.a
else
soname = libfio2070.so.1
link_name = libfio2070.so
sharing = -shared -fPIC -Wl,-soname,$(soname) -Wl,--version-script=$(exports)
all_of = -Wl,--whole-archive $(1) -Wl,--no-whole-archive
shared_tester = tools/conformance/shared.c $(objects)/tester.a
endif

.PHONY: library

# `make library TARGET=aarch64` makes the archive for AArch64 under Linux, proved for that target of the kit.
ifeq ($(TARGET),aarch64)
library: $(OUT)/aarch64/libfio2070.a
else
library: $(OUT)/libfio2070.a $(OUT)/$(soname) $(OUT)/$(link_name) $(if $(shared_tester),$(OUT)/fio2070-test)
endif

ifneq ($(kit),)
include packaging/with-kit.mk
else
include packaging/without-kit.mk
endif

# The tester, compiled once for the shared library and for the command.
tester_objects = $(tester:tools/conformance/%.c=$(objects)/%.o)

$(objects)/%.o: tools/conformance/%.c $(wildcard tools/conformance/*.h) $(interface)/fio2070.h
	@$(call made,$(compile) -fPIC -I $(interface) -c $< -o "$$room/$(@F)")

$(objects)/tester.a: $(tester_objects)
	@$(call made,$(AR) rcs "$$room/$(@F)" $^)

# The shared library includes the tester. It exports only names that begin with `fio2070_`.
$(OUT)/$(soname): $(OUT)/libfio2070.a $(shared_tester) $(exports)
	@$(call made,$(compile) -I $(interface) $(sharing) $(linking) $(shared_tester) $(call all_of,$<) -o "$$room/$(@F)")

# The name by which a program is linked.
ifneq ($(link_name),$(soname))
$(OUT)/$(link_name): $(OUT)/$(soname)
	@$(call made,ln -s $(soname) "$$room/$(@F)")
endif

# The tester as a command, for modules that are asked over a wire (tools/conformance/README.md).
$(OUT)/fio2070-test: $(objects)/tester.a $(OUT)/libfio2070.a tools/conformance/fio2070_test.c
	@$(call made,$(compile) -I $(interface) $(linking) tools/conformance/fio2070_test.c $(objects)/tester.a $(OUT)/libfio2070.a \
	    -o "$$room/$(@F)")

# The glossary of all definitions, DOC/GLOSSARY.md, and the page of the C library, made from the header by doxygen,
# DOC/html/index.html.
DOC = $(OUT)/doc

.PHONY: doc

doc:
	mkdir -p '$(DOC)'
	tools/generate-glossary >'$(DOC)/GLOSSARY.md'
	tools/generate-checks >'$(DOC)/CHECKS.md'
	(cat packaging/Doxyfile; echo 'OUTPUT_DIRECTORY = "$(DOC)"') | doxygen -

# The archive and the Debian packages: the same files give the same octets each time. With TARGET=aarch64 they only have the
# library, for AArch64.
ifeq ($(TARGET),aarch64)
dist deb: $(OUT)/aarch64/libfio2070.a
else
dist deb: library
endif
	@kit='$(kit)' OUT='$(OUT)' packaging/$@ '$(DIST)' $(TARGET)

# ---- Installing ----

# The program is installed if a proved one runs here. With the kit, the library and the tester are installed if they were made;
# without it, these two are made first. `fiolog` loads the shared library, which is beside the Python packages. Everyone can read
# all of it, whatever the settings of the user who cloned the repository or installs it.
headers = $(wildcard $(interface)/*.h $(interface)/*.hpp)
tools = lossy-script transcript conformance wireshark $(if $(shared),fiolog)
filters = transcript lossy-script wireshark/hex2pcap
tool_pages = README.md gtkwave.png page/README.md portable/README.md $(patsubst tools/%,%,$(wildcard tools/page/*.png))
pages = README.md LICENSE LICENSES-OF-OTHERS CHANGELOG.md SECURITY.md CONTRIBUTING.md
pkgconfig = $(root)/$(LIB)/pkgconfig
cmake = $(root)/$(LIB)/cmake/fio2070
share = $(root)/$(TOOLS)

.PHONY: install-program install-library install-tester install-tools install-documents

install: install-program install-library install-tester install-tools install-documents

install-program:
	program=$$(packaging/program --proved) || { [ $$? -eq 2 ] && echo 'The program fio2070 is not installed.' && exit; exit 1; }; \
	install -d '$(bin)' '$(man)' '$(bash)' '$(zsh)' '$(fish)' && \
	install -m 755 "$$program" '$(bin)/fio2070' && \
	install -m 644 man/fio2070.1 '$(man)/fio2070.1' && \
	install -m 644 completions/fio2070.bash '$(bash)/fio2070' && \
	install -m 644 completions/fio2070.zsh '$(zsh)/_fio2070' && \
	install -m 644 completions/fio2070.fish '$(fish)/fio2070.fish'

install-library:
ifneq ($(libraries),)
	install -d '$(root)/$(LIB)' '$(root)/include' '$(pkgconfig)' '$(cmake)'
	install -m 644 $(libraries) '$(root)/$(LIB)'
	install -m 644 $(headers) '$(root)/include'
	umask 022; tools/generate-manual '$(root)/share/man/man3'
	umask 022; sed -e 's|@PREFIX@|$(subst $(blank),\\$(blank),$(PCPREFIX))|' -e 's|@LIB@|$(LIB)|' -e 's|@VERSION@|$(VERSION)|' packaging/fio2070.pc.in \
	    >'$(pkgconfig)/fio2070.pc'
	umask 022; for file in fio2070-config fio2070-config-version; do \
	    sed -e 's|@LIB@|$(LIB)|' -e 's|@VERSION@|$(VERSION)|' "packaging/$$file.cmake.in" >'$(cmake)'/$$file.cmake; done
endif
ifneq ($(shared),)
	install -m 644 $(shared) '$(root)/$(LIB)'
	[ $(link_name) = $(soname) ] || ln -sf $(soname) '$(root)/$(LIB)/$(link_name)'
	@[ -n '$(DESTDIR)' ] || [ "$$(id -u)" != 0 ] || \
	    ! $(LDCONFIG) -v -N -X 2>/dev/null | sed -n 's/:.*//p' | grep -qxF '$(PREFIX)/$(LIB)' || \
	    echo 'Programs find $(soname) once you have run ldconfig.'
endif

install-tester:
ifneq ($(command),)
	install -d '$(bin)' '$(man)' '$(bash)' '$(zsh)' '$(fish)'
	install -m 755 $(command) '$(bin)'
	install -m 644 man/fio2070-test.1 '$(man)'
	install -m 644 completions/fio2070-test.bash '$(bash)/fio2070-test'
	install -m 644 completions/fio2070-test.zsh '$(zsh)/_fio2070-test'
	install -m 644 completions/fio2070-test.fish '$(fish)'
endif

install-tools:
	install -d '$(bin)' '$(man)' '$(share)/tools/page' '$(share)/tools/portable' '$(share)/rust/fio2070/src' \
	    '$(share)/rust/fio2070/c' '$(share)/rust/fio2070/examples'
	cp -R $(addprefix tools/,$(tools)) '$(share)/tools' && chmod -R u=rwX,go=rX '$(share)/tools'
	for file in $(tool_pages); do install -m 644 "tools/$$file" '$(share)/tools'/"$$file" || exit 1; done
	install -m 644 bindings/rust/fio2070/Cargo.* bindings/rust/fio2070/build.rs bindings/rust/fio2070/README.md LICENSE LICENSES-OF-OTHERS '$(share)/rust/fio2070'
	install -m 644 bindings/rust/fio2070/src/*.rs '$(share)/rust/fio2070/src'
	install -m 644 bindings/rust/fio2070/examples/*.rs '$(share)/rust/fio2070/examples'
	install -m 644 dist/fio2070.c dist/fio2070.h '$(share)/rust/fio2070/c'
	install -m 644 dist/fio2070.html '$(share)'
	for file in $(filters); do ln -sf "../$(TOOLS)/tools/$$file" '$(bin)'/fio2070-"$${file##*/}" || exit 1; done
	install -m 644 man/fio2070-tools.1 '$(man)'
	install -d '$(share)/python/fiolog'
	install -m 644 bindings/python/fiolog/*.py '$(share)/python/fiolog'
ifneq ($(shared),)
	install -d '$(share)/python/fio2070' '$(bash)' '$(zsh)' '$(fish)'
	install -m 644 bindings/python/fio2070/*.py bindings/python/fio2070/py.typed $(shared) '$(share)/python/fio2070'
	ln -sf '../$(TOOLS)/tools/fiolog' '$(bin)/fiolog'
	install -m 644 man/fiolog.1 '$(man)'
	install -m 644 completions/fiolog.bash '$(bash)/fiolog'
	install -m 644 completions/fiolog.zsh '$(zsh)/_fiolog'
	install -m 644 completions/fiolog.fish '$(fish)'
else
	@echo 'fiolog is not installed, since it loads $(soname): run `make library` first.'
endif
	@echo 'The Wireshark dissector is installed. To enable it:'
	@echo "    mkdir -p ~/.local/lib/wireshark/plugins"
	@echo "    ln -sf '$(PREFIX)/$(TOOLS)/tools/wireshark/fio2070.lua' ~/.local/lib/wireshark/plugins/"

# The links between the pages are whole.
install-documents:
	install -d '$(documents)/docs/pictures' '$(documents)/examples/captures' '$(documents)/examples/c'
	install -m 644 $(pages) '$(documents)'
	install -m 644 docs/*.md '$(documents)/docs'
	install -m 644 docs/pictures/* '$(documents)/docs/pictures'
	(cd examples && find . -name out -prune -o -type f -print) | while read -r file; do \
	    install -D -m 644 "examples/$$file" '$(documents)/examples'/"$$file" || exit 1; done
	[ ! -d '$(share)/tools' ] || ln -sfn '../../$(notdir $(TOOLS))/tools' '$(documents)/tools'

names = fio2070 fio2070-test fiolog
# The folders of an installation, which go if they are empty, and so does the prefix; the system's own prefixes keep theirs.
folders = bin include $(LIB)/pkgconfig $(LIB)/cmake $(TOOLS) $(ZSH) $(addprefix share/,doc man/man1 man/man3 bash-completion/completions fish/vendor_completions.d)
of_system = $(filter /usr /usr/local,$(root:%/=%))
uninstall:
	rm -f $(foreach name,$(names) $(addprefix fio2070-,vcd hex2pcap transcript lossy-script),'$(bin)/$(name)') \
	    $(foreach name,$(names) fio2070-tools,'$(man)/$(name).1') '$(root)/share/man/man3'/*fio2070*.3 \
	    $(foreach name,$(names),'$(bash)/$(name)' '$(zsh)/_$(name)' '$(fish)/$(name).fish') \
	    $(foreach name,libfio2070.a $(soname) $(link_name) pkgconfig/fio2070.pc,'$(root)/$(LIB)/$(name)') \
	    $(foreach name,fio2070.h fio2070.hpp,'$(root)/include/$(name)')
	rm -rf '$(cmake)' '$(share)/tools' '$(share)/python' '$(share)/rust' '$(share)/fio2070.html' '$(documents)'
	@if [ -d '$(root)' ]; then cd '$(root)' && rmdir -p $(if $(of_system),$(TOOLS),$(folders)) 2>/dev/null; fi; true
	@$(if $(of_system),,rmdir '$(root)' 2>/dev/null;) true
