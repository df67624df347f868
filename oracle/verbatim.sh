#!/bin/sh
# Says whether src/document_000.rs is document 000's own text: its lines from the first type behind the `use` lines to the last line of
# qr_q; and src/document_000_lanczos.rs, those of `top_eigenpairs_lanczos` with its comment. The stored sums are checked; with DOCUMENT_000,
# the path of the document's file, the lines too.
set -e
oracle=$(dirname "$0")
copy=$oracle/src/document_000.rs
lanczos=$oracle/src/document_000_lanczos.rs
lines=$(cat "$copy" "$lanczos" | wc -l)
(cd "$oracle/src" && sha256sum --quiet -c ../document_000.sha256)
if [ -z "${DOCUMENT_000:-}" ]; then
    echo "document 000: $lines lines, the same as the stored sums"
    exit 0
fi
[ -f "$DOCUMENT_000" ] || { echo "document 000: there is no file $DOCUMENT_000"; exit 1; }
sed -n '/^\/\/\/ Eigenvalues and eigenvectors of a real symmetric matrix/,/^\/\/ Iterative partial eigensolvers/p' "$DOCUMENT_000" |
    sed '$d' | cmp - "$copy" || { echo "document 000: the copy is not the text of $DOCUMENT_000"; exit 1; }
awk '/^\/\/\/ Extracts the top-`k` eigenpairs of a symmetric matrix using the Lanczos/ { on = 1 } on { print } on && /^}/ { exit }' "$DOCUMENT_000" |
    cmp - "$lanczos" || { echo "document 000: the copy of its Lanczos is not the text of $DOCUMENT_000"; exit 1; }
echo "document 000: $lines lines, the same as the document's and as the stored sums"
