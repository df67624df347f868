# make pencil-check   proofs/Pencil.antt of the crate `root` claims the figures of docs/ROOT.md, and crates/test_vectors has both roots
.PHONY: pencil-check

pencil-check:
	@tools/pencil --check
