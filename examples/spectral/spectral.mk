# The example over OpenJPEG. Not a part of the gate: it needs a package that the toolchain has not.
#
#   make example-openjpeg   builds examples/spectral and runs it; what doesn't depend on OpenJPEG is held to spectral.expected
#   make openjpeg           fetches Debian's libopenjp2-7-dev for amd64 into build/openjpeg, on any machine with Debian's apt; nothing is installed
#   make spectral-picture   its README's picture from a run of 64 bands (needs python3)
#
# GCC is a gcc for x86-64, RUNNER what its programs run under, as in install-test; if they aren't given, gcc, elsewhere than on x86-64 Debian's
# x86_64-linux-gnu-gcc, and nothing.

SPECTRAL_GCC = $(or $(GCC),$(if $(filter x86_64,$(shell uname -m)),gcc,x86_64-linux-gnu-gcc))
SPECTRAL = $(RUNNER) build/spectral/spectral

.PHONY: example-openjpeg openjpeg openjpeg-found spectral-picture

openjpeg-found:
	@sh examples/spectral/openjpeg.sh $(SPECTRAL_GCC) >/dev/null

openjpeg:
	@sh examples/spectral/fetch.sh build/openjpeg

build/spectral/spectral: openjpeg-found $(ARCHIVE)
	@mkdir -p $(@D)
	@$(SPECTRAL_GCC) -std=c99 -O2 -ffp-contract=off $(WARNINGS) -Iinclude $(wildcard examples/spectral/*.c) $(ARCHIVE) \
	    $$(sh examples/spectral/openjpeg.sh $(SPECTRAL_GCC)) -lm -o $@

# Both the status and every line but OpenJPEG's.
example-openjpeg: build/spectral/spectral
	@sh examples/spectral/runs.sh build/spectral $(SPECTRAL) >build/spectral/out; status=$$?; cat build/spectral/out; \
	    [ $$status = 0 ] || { echo 'example-openjpeg: it says that it is not good'; exit 1; }
	@grep -v '^  openjpeg:' build/spectral/out | diff examples/spectral/spectral.expected - || \
	    { echo 'example-openjpeg: examples/spectral/spectral.expected was expected'; exit 1; }
	@echo 'example-openjpeg: good, and as expected'

spectral-picture: build/spectral/spectral
	$(SPECTRAL) -d build/spectral -b 64 -s 256 -t 64 -r 0.5 -p plain main >build/spectral/picture.log
	python3 examples/spectral/picture.py build/spectral/picture.log build/spectral examples/spectral/picture.svg
