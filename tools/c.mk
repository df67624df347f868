# The C side: the archive, the example and the test of the boundary, with the toolchain alone. The toolchain and
# the programs are for x86-64 alone.
#
#   make archive       dist/libcrewelmarsh.a and dist/crewelmarsh.h, with LICENSE and NOTICE
#   make example       builds and runs examples/codec.c, examples/decoder.c and examples/components.c
#   make example-test  the same, and what each writes is held to examples/NAME.expected
#   make parts         the archive, and beside it what the C tests and the examples are linked from
#   make boundary      the test of the C boundary: header, names, instructions, stack, every entry and answer, the oracle's list of lanczos
#
# ARCHIVE=PATH tests another archive with the same entries.

RT ?= rt
KIT ?= $(shell dirname "$$($(RT) doc)")
TOOLCHAIN = $(KIT)/toolchain
CLANG = $(TOOLCHAIN)/bin/clang
LIBRARY = $(TOOLCHAIN)/lib
LINK = $(KIT)/bin/rattle-link --target x86_64-unknown-linux-gnu --toolchain $(TOOLCHAIN)
RUN = $(LIBRARY)/ld-linux-x86-64.so.2 --library-path $(LIBRARY)

# rt lib proves its crate anew at each call, and what the crate uses only where that has changed since it was last built. So it is
# asked only where a file has changed.
CRATE_FILES := $(shell find crates \( -name must-fail -o -name out \) -prune -o -type f -print)
ARCHIVE ?= dist/libcrewelmarsh.a

# The version and the entries' names in the archive, as the header has them.
said = $(shell sed -n 's/^.define CREWELMARSH_VERSION_$(1) //p' include/crewelmarsh.h)
MAJOR := $(call said,MAJOR)
VERSION := $(MAJOR).$(call said,MINOR).$(call said,PATCH)
ENTRIES := $(shell sed -n 's/^.define \(crewelmarsh_[a-z_]*\) CREWELMARSH_NAME.*/\1_abi$(MAJOR)/p' include/crewelmarsh.h)

# tools/counts has how many checks the boundary's test makes, how many that of stack and floating-point state (tests/machine/calls.c), and how many cases the oracle's list of
# lanczos has, which its runner (oracle/runner.c) puts through the archive.
counted = $(shell sed -n 's/^$(1) //p' tools/counts)
BOUNDARY_CHECKS := $(call counted,boundary-checks)
MACHINE_CHECKS := $(call counted,machine-checks)
LIST_CASES := $(call counted,list-cases)
BOUNDARY_PARTS := boundary check eigen svd row solve qr marks sizes numbers block covariance store steps tally lanczos leading header header_cpp
BOUNDARY_OBJECTS := $(BOUNDARY_PARTS:%=build/tests/%.o)

TARGET_FLAGS := --target=x86_64-unknown-linux-gnu -march=x86-64 --no-default-config \
    -nostdinc -isystem tools/headers -Iinclude -O2 -ffp-contract=off -fPIC
WARNINGS := -Wall -Wextra -Wpedantic -Werror
C99 = $(CLANG) $(TARGET_FLAGS) $(WARNINGS) -std=c99
CPLUSPLUS = $(CLANG) $(TARGET_FLAGS) $(WARNINGS) -x c++ -std=c++98
HEADERS := include/crewelmarsh.h $(wildcard tools/headers/*.h)

.PHONY: archive archive-of-ci parts example example-test boundary boundary-names boundary-machine boundary-header boundary-run boundary-list FORCE

archive: dist/libcrewelmarsh.a dist/crewelmarsh.h dist/LICENSE dist/NOTICE

dist/libcrewelmarsh.a: crates.txt $(CRATE_FILES)
	@RT='$(RT)' sh tools/kit.sh
	@RT='$(RT)' sh tools/archive.sh

# In the gate, behind its rt ci: of the libraries that this proved.
archive-of-ci:
	@RT='$(RT)' sh tools/archive.sh build/gate.log.began

dist/crewelmarsh.h: include/crewelmarsh.h
	@mkdir -p dist
	cp $< $@

dist/LICENSE dist/NOTICE: dist/%: %
	@mkdir -p dist
	@cp $< $@

EXAMPLES := codec decoder components

parts: archive $(BOUNDARY_OBJECTS) build/tests/runner.o build/tests/machine.o $(EXAMPLES:%=build/examples/%.o)

example: $(EXAMPLES:%=build/examples/%)
	@for name in $(EXAMPLES); do $(RUN) build/examples/$$name || exit 1; done

# Both the status and every line.
example-test: $(EXAMPLES:%=build/examples/%)
	@for name in $(EXAMPLES); do out=build/examples/$$name.out; \
	    if ! $(RUN) build/examples/$$name >$$out; then cat $$out; echo "example $$name: it says that it is not good"; exit 1; fi; \
	    cmp $$out examples/$$name.expected || { cat $$out; echo "example: examples/$$name.expected was expected"; exit 1; }; \
	    echo "example $$name: $$(wc -l <$$out) lines, as expected"; done

$(EXAMPLES:%=build/examples/%): build/examples/%: build/examples/%.o $(ARCHIVE) FORCE
	@$(LINK) -o $@ $(filter-out FORCE,$^) 2>$@.log || { cat $@.log; exit 1; }

build/examples/%.o: examples/%.c $(HEADERS)
	@mkdir -p $(@D)
	@$(C99) -c $< -o $@

boundary: boundary-names boundary-machine boundary-header boundary-run boundary-list

boundary-names: $(ARCHIVE)
	@sh tests/exports.sh $(ARCHIVE) $(ENTRIES)

# What x86-64 gets: names that are needed, instructions, stack, floating-point state.
boundary-machine: build/tests/machine
	@sh tests/machine/wrong.sh $(CLANG) $(TOOLCHAIN)/bin/llvm-ar
	@od -A n -v -t u1 $(ARCHIVE) | awk -v NEEDED='memcpy memmove memset' -f tests/machine/code.awk
	@if ! $(RUN) $< >build/tests/machine.out; then cat build/tests/machine.out; exit 1; fi
	@tail -n 1 build/tests/machine.out
	@tail -n 1 build/tests/machine.out | grep -qx 'machine: $(MACHINE_CHECKS) checks, 0 failed' || \
	    { echo 'machine: $(MACHINE_CHECKS) checks were expected'; exit 1; }

# The header alone, in each language that a caller may use.
boundary-header: $(HEADERS)
	@for std in c99 c11 c23; do \
	    $(C99) -std=$$std -fsyntax-only tests/header.c || exit 1; done
	@for std in c++98 c++11 c++17 c++23; do \
	    $(CPLUSPLUS) -std=$$std -fsyntax-only tests/header.c || exit 1; done
	@awk 'length > 120 { print FILENAME ":" FNR ": over 120 characters"; bad = 1 } END { exit bad }' include/crewelmarsh.h
	@echo 'header: C99, C11, C23, C++98, C++11, C++17, C++23, no warning'

# Both the status and the count: a test that ran fewer checks did not run.
boundary-run: build/tests/boundary
	@if ! $(RUN) $< >build/tests/boundary.out; then cat build/tests/boundary.out; exit 1; fi
	@cat build/tests/boundary.out
	@tail -n 1 build/tests/boundary.out | grep -qxF 'boundary: $(BOUNDARY_CHECKS) checks, 0 failed' || \
	    { echo 'boundary: $(BOUNDARY_CHECKS) checks were expected'; exit 1; }

# Here too: a list that lost cases is not the list.
boundary-list: build/tests/runner tests/vectors/lanczos.list
	@if ! $(RUN) $< <tests/vectors/lanczos.list >build/tests/runner.out; then cat build/tests/runner.out; exit 1; fi
	@tail -n 1 build/tests/runner.out | sed 's/^/list of lanczos: /'
	@tail -n 1 build/tests/runner.out | grep -qxF '$(LIST_CASES) cases, 0 differ' || \
	    { echo 'list of lanczos: $(LIST_CASES) cases were expected'; exit 1; }

# Linked anew each time, whichever archive is asked for.
build/tests/boundary: $(BOUNDARY_OBJECTS) $(ARCHIVE) FORCE
	@$(LINK) -o $@ $(filter-out FORCE,$^) 2>$@.log || { cat $@.log; exit 1; }

build/tests/runner: build/tests/runner.o $(ARCHIVE) FORCE
	@$(LINK) -o $@ $(filter-out FORCE,$^) 2>$@.log || { cat $@.log; exit 1; }

build/tests/machine: build/tests/machine.o $(ARCHIVE) FORCE
	@$(LINK) -o $@ $(filter-out FORCE,$^) 2>$@.log || { cat $@.log; exit 1; }

build/tests/machine.o: tests/machine/calls.c $(HEADERS)
	@mkdir -p $(@D)
	@$(C99) -c $< -o $@

build/tests/runner.o: oracle/runner.c
	@mkdir -p $(@D)
	@$(C99) -c $< -o $@

build/tests/%.o: tests/%.c tests/boundary.h $(HEADERS)
	@mkdir -p $(@D)
	@$(C99) -c $< -o $@

build/tests/header_cpp.o: tests/header.c $(HEADERS)
	@mkdir -p $(@D)
	@$(CPLUSPLUS) -c $< -o $@
