# make wings-check   README's picture of the wings and docs/ARCHITECTURE.md are what tools/wings makes of crates.txt, and the files and names that the page gives are there
.PHONY: wings-check

wings-check:
	@tools/wings --check
