# Document 000 in Rust, and what is compared with it. Included by the top Makefile; paths are from the repository's root.
# Needs rustc and a C compiler (oracle-mutants a C++ compiler too), no package and no network.

RUSTC ?= rustc
ORACLE := oracle/target
# The archive that is compared and measured, the seed and number of fresh cases, and their largest size.
ARCHIVE ?= dist/libcrewelmarsh.a
SEED ?= 1
CASES ?= 100000
LARGEST ?= 12

ORACLE_SOURCES := $(wildcard oracle/src/*.rs)
ORACLE_RUSTC := $(RUSTC) --edition 2024 -C opt-level=3
ORACLE_ENTRIES := $(ENTRIES:crewelmarsh_%=%)

.PHONY: verbatim oracle oracle-check oracle-mutants oracle-standin findings cases compare compare-hypot gain bench bench-plot plot-check bench-calls bench-codec bench-blocks bench-root bench-steps bench-lanczos bench-worst has-rustc

has-rustc:
	@command -v $(RUSTC) >/dev/null || { echo "the oracle is Rust, and there is no $(RUSTC) here"; exit 1; }

# Document 000 with the hypot of an edition, 01 or 02, in place of the platform's.
DOCUMENTS := $(ORACLE)/document_000_hypot01.rs $(ORACLE)/document_000_hypot02.rs

$(ORACLE)/document_000_hypot%.rs: oracle/src/document_000.rs
	mkdir -p $(ORACLE)
	sed 's/\.hypot(/.hypot$*(/' $< >$@

$(ORACLE)/liboracle.rlib: $(ORACLE_SOURCES) $(DOCUMENTS) | has-rustc
	DOCUMENT_000_HYPOT01=$(CURDIR)/$(ORACLE)/document_000_hypot01.rs DOCUMENT_000_HYPOT02=$(CURDIR)/$(ORACLE)/document_000_hypot02.rs $(ORACLE_RUSTC) --crate-type rlib --crate-name oracle \
	  --cfg 'feature="machine_learning"' --check-cfg 'cfg(feature, values("machine_learning"))' oracle/src/lib.rs -o $@

$(ORACLE)/oracle: oracle/src/main.rs $(ORACLE)/liboracle.rlib
	$(ORACLE_RUSTC) --extern oracle=$(ORACLE)/liboracle.rlib $< -o $@

oracle: $(ORACLE)/oracle

# The oracle's copy of document 000 is the document's text: by a stored sum, and by the document itself with DOCUMENT_000=its path.
verbatim:
	@oracle/verbatim.sh

# The oracle against itself: the text is document 000's; where the patched functions answer 0, document 000 gives the
# same bits; the committed lists are what the oracle writes.
oracle-check: $(ORACLE)/oracle
	oracle/verbatim.sh
	$(ORACLE)/oracle check $(SEED) $(CASES)
	$(ORACLE)/oracle check $(SEED) 2000 40
	$(ORACLE)/oracle list | cmp - crates/test_replay/stdin
	$(ORACLE)/oracle agreed | cmp - crates/test_replay/stdout
	$(ORACLE)/oracle blocks | cmp - crates/test_blocks/stdin
	$(ORACLE)/oracle blocks-wanted | cmp - crates/test_blocks/stdout
	$(ORACLE)/oracle lanczos-check $(SEED) $(CASES)
	$(ORACLE)/oracle lanczos-check $(SEED) 2000 40
	$(ORACLE)/oracle lanczos | cmp - tests/vectors/lanczos.list

# The committed list and the C tests each find every wrong version of a table of them.
oracle-mutants: has-rustc
	RUSTC=$(RUSTC) CC='$(CC)' CXX='$(CXX)' oracle/mutants.sh

# What docs/FINDINGS.md tells, run again.
findings: $(ORACLE)/oracle
	$(ORACLE)/oracle findings

# The committed lists, and what their replays write, anew.
cases: $(ORACLE)/oracle
	mkdir -p crates/test_replay
	$(ORACLE)/oracle list >crates/test_replay/stdin
	$(ORACLE)/oracle agreed >crates/test_replay/stdout
	$(ORACLE)/oracle blocks >crates/test_blocks/stdin
	$(ORACLE)/oracle blocks-wanted >crates/test_blocks/stdout
	$(ORACLE)/oracle lanczos >tests/vectors/lanczos.list

# The patched functions behind the C entries, for trying a test or a driver: one object, no other name visible.
$(ORACLE)/libcrewelmarsh_oracle.a: oracle/src/entries.rs oracle/src/block.rs oracle/src/store.rs oracle/src/tally.rs oracle/src/patched.rs oracle/src/steps.rs oracle/src/lanczos.rs oracle/src/hypot.rs | has-rustc
	mkdir -p $(ORACLE)
	$(ORACLE_RUSTC) -C panic=abort --crate-type staticlib --crate-name crewelmarsh_oracle $< -o $(ORACLE)/all.a
	ld -r --gc-sections $(ORACLE_ENTRIES:%=-u crewelmarsh_%) -o $(ORACLE)/one.o $(ORACLE)/all.a
	objcopy $(ORACLE_ENTRIES:%=--keep-global-symbol=crewelmarsh_%) -R .llvmbc -R .llvmcmd -R .eh_frame --strip-debug $(ORACLE)/one.o
	rm -f $@ $(ORACLE)/all.a
	ar rcs $@ $(ORACLE)/one.o

oracle-standin: $(ORACLE)/libcrewelmarsh_oracle.a

# The committed lists and fresh cases through the archive's C entries, and pairs through hypot of edition 2. Programs over the archive are built and run as the C
# tests are (tools/c.mk).
RUN_RUNNER = $(RUN) build/tests/runner

compare: $(ORACLE)/oracle build/tests/runner compare-hypot
	$(ORACLE)/oracle list | $(RUN_RUNNER)
	$(ORACLE)/oracle fresh $(SEED) $(CASES) $(LARGEST) | $(RUN_RUNNER)
	$(ORACLE)/oracle lanczos | $(RUN_RUNNER)
	$(ORACLE)/oracle lanczos-fresh $(SEED) $(CASES) $(LARGEST) | $(RUN_RUNNER)

# The archive has no entry for hypot, so the pairs go through the program `test_vectors`, which reads no more than some thousand lines at a time.
# Said with them: of how many the platform's hypot gives other bits.
PAIRS ?= 2000000

VECTORS := crates/test_vectors/out/test_vectors

$(VECTORS): $(CRATE_FILES)
	cd crates/test_vectors && $(RT) run <stdin >/dev/null
	touch $@

compare-hypot: $(ORACLE)/oracle $(VECTORS)
	$(ORACLE)/oracle hypots $(SEED) $(PAIRS) | split -l 1900 --filter='$(RUN) $(VECTORS)' >$(ORACLE)/hypots
	$(ORACLE)/oracle hypots-wanted $(SEED) $(PAIRS) | cmp - $(ORACLE)/hypots
	@echo "hypot, edition 2: $$(wc -l <$(ORACLE)/hypots) pairs, none differs"
	$(ORACLE)/oracle hypots-platform $(SEED) $(PAIRS)

# Gain and svd: document 000's svd and the patched one over a number that watches every operation. The text is theirs; f64 and its literals are replaced, and what is not run is left out.
WATCH := -e '/^ *\/\/[!\/]/d' -e 's/\([0-9][0-9]*\.[0-9][0-9]*\)\(_f64\)*/literal(\1)/g' -e 's/f64/Watched/g'
WATCHED := $(ORACLE)/watched_ndarray.rs $(ORACLE)/watched_document.rs $(ORACLE)/watched_patched.rs

$(ORACLE)/watched_ndarray.rs: oracle/src/ndarray.rs oracle/oracle.mk
	@mkdir -p $(ORACLE)
	sed $(WATCH) $< >$@

$(ORACLE)/watched_document.rs: oracle/src/document_000.rs oracle/oracle.mk
	@mkdir -p $(ORACLE)
	sed -n -e '/struct Svd {/,/^}/p' -e '/ fn svd(/,/^}/p' -e '/^fn jacobi_svd_tall(/,/^}/p' -e '/^fn sort_svd_descending(/,/^}/p' $< | sed $(WATCH) >$@

$(ORACLE)/watched_patched.rs: oracle/src/patched.rs oracle/oracle.mk
	@mkdir -p $(ORACLE)
	sed -e '/^use /d' -e '/^\/\/ -* solve, pseudo_inverse$$/,$$d' $< | sed $(WATCH) >$@

$(ORACLE)/gain: oracle/gain.rs $(ORACLE)/liboracle.rlib $(WATCHED)
	WATCHED_NDARRAY=$(CURDIR)/$(ORACLE)/watched_ndarray.rs WATCHED_DOCUMENT=$(CURDIR)/$(ORACLE)/watched_document.rs WATCHED_PATCHED=$(CURDIR)/$(ORACLE)/watched_patched.rs \
	  $(ORACLE_RUSTC) --extern oracle=$(ORACLE)/liboracle.rlib $< -o $@

gain: $(ORACLE)/gain
	$(ORACLE)/gain $(SEED) $(CASES) $(LARGEST)

# Document 000 and the archive in one program and one run; the table is docs/BENCHMARKS.md's. Elsewhere than on x86-64 the
# archive's module is compiled for the machine first, since a time under an emulator says nothing.
ifeq ($(shell uname -m),x86_64)
MEASURED := $(ARCHIVE)
else
MEASURED := $(ORACLE)/native.o
$(MEASURED): oracle/native.sh oracle/module.sh oracle/compile.sh $(ARCHIVE)
	oracle/native.sh $@
endif

# The triple loop that the covariance is measured beside, by the machine's C compiler and by the toolchain's.
TRIPLES := $(ORACLE)/triple_cc.o $(ORACLE)/triple_kit.o
OWN_CLANG := --target=$(shell uname -m)-unknown-linux-gnu --no-default-config -nostdinc -std=c99 -Wall -Wextra -O3 -fPIC

$(ORACLE)/triple_cc.o: oracle/triple.c
	@mkdir -p $(ORACLE)
	$(CC) -std=c99 -Wall -Wextra -O3 -fPIC -DTRIPLE=triple_cc -c $< -o $@

$(ORACLE)/triple_kit.o: oracle/triple.c
	@mkdir -p $(ORACLE)
	$(CLANG) $(OWN_CLANG) -DTRIPLE=triple_kit -c $< -o $@

$(ORACLE)/bench: oracle/bench.rs $(wildcard oracle/bench_*.rs) $(ORACLE)/liboracle.rlib $(MEASURED) $(TRIPLES)
	$(ORACLE_RUSTC) --extern oracle=$(ORACLE)/liboracle.rlib -C link-arg=$(MEASURED) $(TRIPLES:%=-C link-arg=%) $< -o $@

# OpenBLAS, where that is the machine's, in one thread like the others.
BENCH := OPENBLAS_NUM_THREADS=1 $(ORACLE)/bench

bench: $(ORACLE)/bench
	$(BENCH)

# The same, and its first two tables put into docs/BENCHMARKS.md, with the picture of them.
bench-plot: $(ORACLE)/bench
	$(BENCH) >$(ORACLE)/bench.md
	cat $(ORACLE)/bench.md
	tools/plot --write $(ORACLE)/bench.md

# Whether the picture is that of the tables.
plot-check:
	@tools/plot --check

# The calls and the codec's path alone: what the picture shows; and the path alone.
bench-calls: $(ORACLE)/bench
	$(BENCH) calls

bench-codec: $(ORACLE)/bench
	$(BENCH) codec

# The blocks' rows alone, in a second.
bench-blocks: $(ORACLE)/bench
	$(BENCH) blocks

# The covariance's rows alone.
bench-covariance: $(ORACLE)/bench
	$(BENCH) covariance

# The store's rows alone.
bench-store: $(ORACLE)/bench
	$(BENCH) store

# A run in steps beside the one call, alone.
bench-steps: $(ORACLE)/bench
	$(BENCH) steps

# The leading pairs alone beside all of them.
bench-lanczos: $(ORACLE)/bench
	$(BENCH) lanczos

# How long a call takes on bad input: no rustc. Of the archive as C calls it, so on x86-64 alone.
$(ORACLE)/worst: oracle/worst.c include/crewelmarsh.h $(ARCHIVE)
	@mkdir -p $(ORACLE)
	@[ "$$(uname -m)" = x86_64 ] || { echo 'bench-worst: this machine is not x86-64, and a time under the emulator says nothing'; exit 1; }
	$(CC) -std=c99 -Wall -Wextra -O2 -Iinclude oracle/worst.c $(ARCHIVE) -lm -o $@

bench-worst: $(ORACLE)/worst
	$(ORACLE)/worst $(SEED)

# The root as it is compiled, alone and two in one loop, held to the processor's and measured beside it and beside what stood there before, and both editions of
# hypot; no archive and no rustc.
$(ORACLE)/root_leaves.o: oracle/root.sh oracle/module.sh oracle/compile.sh $(foreach crate,root leaves hypot test_vectors,$(wildcard crates/$(crate)/src/*.rt))
	@mkdir -p $(ORACLE)
	oracle/root.sh $@

$(ORACLE)/root_former.o: oracle/root_former.c
	@mkdir -p $(ORACLE)
	$(CLANG) $(OWN_CLANG) -ffp-contract=off -c $< -o $@

$(ORACLE)/root: oracle/root.c $(ORACLE)/root_leaves.o $(ORACLE)/root_former.o
	$(CC) -std=c99 -Wall -Wextra -O2 -ffp-contract=off -fno-math-errno $^ -o $@

bench-root: $(ORACLE)/root
	$(ORACLE)/root

# The covariance through the archive against 128-bit integers, on planes chosen by hand and random ones; no rustc.
COVARIANCE_CASES ?= 3000

$(ORACLE)/covariance: oracle/covariance.c $(ARCHIVE)
	@mkdir -p $(ORACLE)
	$(CLANG) $(TARGET_FLAGS) -Wall -Wextra -std=c11 -c $< -o $@.o
	$(LINK) -o $@ $@.o $(ARCHIVE)

.PHONY: compare-covariance bench-covariance bench-store
compare-covariance: $(ORACLE)/covariance
	$(RUN) $< $(SEED) $(COVARIANCE_CASES)
