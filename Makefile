# make               the archive and the header into dist/: proves the crate crewelmarsh_c and what it uses, no program and no must-fail edit
# make test          the gate, what .ci/run calls: what is quick to look at; a plain rt ci, which proves everything that it has not passed on this machine as it
#                    stands; over what it proved the archive, the C tests, the example. rt's line, 'N passed, 0 failed', is the last, if all of it passed
# make example       the examples in C, built and run: a codec, a decode loop, one that keeps 8 of 256 components
# make example-openjpeg
#                    a hyperspectral codec over OpenJPEG, where Debian's libopenjp2-7-dev is there (examples/spectral)
# make believe       what a reader must believe, in reading order, into build/believe.txt: the contracts that C sees, the theorems' statements, the definitions of both;
#                    docs/believe.txt is that text, and the gate holds the tree to it (tools/believe.mk). CALL=svd prints what stands behind that call
# make book          the definitions beside document 000, as pages to read, into build/book (tools/book.mk)
# make install       archive, shared library, header and the rest under PREFIX; make release packs them (tools/install.mk)
# make edits-all     the must-fail edits that the gate leaves out (edits/); EDITS='root svd' those of these crates
# make compare       fresh random cases against the Rust oracle: SEED=.. CASES=..
# make gain         random matrices times powers of two, every operation of document 000's svd watched: SEED=.. CASES=..
# make compare-covariance
#                    the covariance through the archive against 128-bit integers: SEED=..
# make bench         document 000's Rust and the archive in one run; make bench-plot puts it into docs/BENCHMARKS.md, with its picture
# make bench-root    the square root as it is compiled, beside the processor's and the former one
# make bench-worst   how long a call takes on bad input, on x86-64
# make gate-test     that the gate can't be told to pass
# make proofs-lazy   versions that do less work than document 000, definition, code and proof alike: a computed row must refuse each (tests/lazy)
.PHONY: all test gate-test kit edits-all proofs-lazy clean

override SHELL := /bin/sh

all: archive

include tools/c.mk
include tools/install.mk
include tools/believe.mk
include tools/book.mk
include tools/wings.mk
include tools/pencil.mk
include examples/spectral/spectral.mk
include oracle/oracle.mk

# tools/gate.sh names what it runs, and takes no variable of make's.
test:
	@sh tools/gate.sh

gate-test:
	@sh tests/gate.sh

# tools/kit has the line of the toolchain that the proofs were tried with; KIT_ANY=1 takes another one.
kit:
	@RT='$(RT)' sh tools/kit.sh

edits-all: kit
	@RT='$(RT)' sh tools/edits-all $(EDITS)

proofs-lazy: kit
	@RT='$(RT)' sh tests/lazy.sh $(LAZY)

clean:
	rm -rf crates/*/out dist build oracle/target
