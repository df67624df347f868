#!/bin/sh
# labels.sh: whether docs/PROMISES.md has one row, `| TN | ..`, for each theorem of the crate promises, whose statements are the tN_NAME of its specs/ and proofs/, and no
# other.
set -u
CDPATH='' cd -- "$(dirname "$0")/.." || exit 2
files=$(ls crates/promises/specs/*.antt crates/promises/proofs/*.antt 2>/dev/null)
for file in $files; do
    name=$(basename "$file" .antt) lib=$(dirname "$file")/Lib.antt
    [ "$name" = Lib ] || grep -Eq "^pub mod $name\$" "$lib" || { echo "labels: $lib does not declare $name, so nothing proves it" >&2; exit 1; }
done
{
    # shellcheck disable=SC2086 # file names have no blanks
    sed -n 's/^pub t\([0-9][0-9]*\)_[^ ]* :.*/statement \1/p' $files
    sed -n 's/^| T\([0-9][0-9]*\) |.*/row \1/p' docs/PROMISES.md
} | awk '
{ has[$1, $2]++; if ($2 > last) last = $2 + 0 }
END {
    for (n = 1; n <= last; n++) {
        s = has["statement", n]; r = has["row", n]; if (s) labels++; total += s
        if (s && !r) why("docs/PROMISES.md has no row T" n ", of which crates/promises has " s " statements")
        if (r && !s) why("crates/promises has no statement t" n "_.., of which docs/PROMISES.md has a row")
        if (r > 1) why("docs/PROMISES.md has " r " rows T" n)
    }
    if (!labels) why("there is no statement")
    if (!bad) print "labels: " labels " rows of docs/PROMISES.md, " total " statements of crates/promises"
    exit bad
}
function why(text) { print "labels: " text | "cat >&2"; bad = 1 }'
