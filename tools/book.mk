# The book (tools/book/): what a reader must believe, beside document 000, as pages.
#
#   make book        build/book/index.html and the pages that it leads to; needs python3. A map that is wrong is refused, and the pages are
#                    written all the same, with what is unclaimed marked
#   make map-check   the map alone: each carried line of document 000 by one definition. Part of the gate: sh and awk
#   make book-test   wrong maps, links, and the pages in a browser, 1400 and 390 pixels wide; needs python3, chromium and tidy
.PHONY: book map-check book-test

book:
	@command -v python3 >/dev/null || { echo 'book: there is no python3 here'; exit 1; }
	@rm -rf build/book
	@bad=0; tools/book/map-check || bad=1; python3 -B -X utf8 tools/book/book.py build/book || bad=1; exit $$bad

map-check:
	@tools/book/map-check

book-test:
	@MAKE='$(MAKE)' sh tests/book.sh
