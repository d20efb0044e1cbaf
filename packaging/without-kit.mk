# What the Makefile makes from dist/, without the Rattle kit.

interface = dist
libraries = $(OUT)/libfio2070.a
shared = $(OUT)/$(soname)
command = $(if $(shared_tester),$(OUT)/fio2070-test)

.PHONY: page portable wasm release-files release-program

install: library

$(OUT)/libfio2070.a: dist/fio2070.c dist/fio2070.h
	@for file in $(^F); do \
	    [ -z "$$(command -v sha256sum)" ] || packaging/listed $$file || echo "make: dist/$$file is not as dist/SHA256SUMS lists it" >&2; done
	@$(call made,$(compile) $(if $(findstring mingw,$(machine)),,-fPIC) -ffunction-sections -fdata-sections -I dist -c dist/fio2070.c -o "$$room/fio2070.o" && \
	    $(AR) rcs "$$room/$(@F)" "$$room/fio2070.o")

page portable:
	@echo 'They are in dist/.'

wasm release release-files release-program $(OUT)/aarch64/libfio2070.a:
	@echo 'make: $@ needs the Rattle kit (README.md, What is trusted).' >&2
	@exit 1
