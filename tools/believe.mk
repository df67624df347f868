# What is promised, held to what is committed, so that a contract, a definition, a theorem, an edit or a test that goes or changes is a line that a reviewer sees.
#
#   make believe         what a reader must believe, as one document, into build/believe.txt; with CALL=svd what stands behind that call of C alone, printed
#   make believe-check   it is docs/believe.txt, and docs/PROMISES.md says its sizes and each call's share, once
#   make believe-write   makes both so, for a change that was read
#   make counts-check    the tree has as much of each as tools/counts says
#   make labels-check    docs/PROMISES.md has one row for each theorem of the crate promises
#   make proved-check    the archive was proved with no axiom, in the toolchain's own logic
.PHONY: believe believe-check believe-write counts-check labels-check proved-check

believe:
ifdef CALL
	@tools/believe '$(CALL)'
else
	@mkdir -p build
	@tools/believe >build/believe.txt
	@tail -n 4 build/believe.txt
endif

believe-check:
	@sh tools/believe.sh

believe-write:
	@sh tools/believe.sh write

counts-check:
	@sh tools/counts.sh

labels-check:
	@sh tools/labels.sh

proved-check: archive
	@sh tools/proved.sh
