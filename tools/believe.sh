#!/bin/sh
# believe.sh [write]: whether docs/believe.txt is what tools/believe prints, and docs/PROMISES.md says, each in one place, how large its parts are and what each call
# reaches; with `write` both are made so, for a change that was read.
set -u
CDPATH='' cd -- "$(dirname "$0")/.." || exit 2
text=build/believe.txt rows=build/believe-rows.txt page=docs/PROMISES.md bad=0
mkdir -p build && tools/believe >$text && tools/believe sizes >$rows || exit 1
size='[0-9]* definitions, [0-9]* lines, [0-9]* without comments'

if [ "${1:-}" = write ]; then
    cp $text docs/believe.txt
    { # the numbers in their sentences, the rows by their first call
        sed -n "s/^==== \([0-9]*\)\( [a-z A-Z]*\), \($size\)$/s|[0-9]*\2, $size|\1\2, \3|/p" $text
        sed 's/^| `\([a-z_]*\)` .*/s%^| `\1` [0-9].*%&%/' $rows
    } >build/believe.sed
    sed -f build/believe.sed $page >build/PROMISES.md && cp build/PROMISES.md $page
fi

cmp -s docs/believe.txt $text || {
    diff docs/believe.txt $text | head -n 20
    echo 'believe: docs/believe.txt is not what the tree promises; once the difference has been read, make believe-write mends it' >&2
    bad=1
}
sed -n 's/^==== \([0-9].*\)/\1/p' $text >build/believe-sizes.txt
while IFS= read -r line; do
    [ "$(grep -cF "$line" $page)" = 1 ] || { echo "believe: $page does not say, in one place: $line" >&2; bad=1; }
done <build/believe-sizes.txt
while IFS= read -r line; do
    [ "$(grep -cxF "$line" $page)" = 1 ] || { echo "believe: $page should have, once, the row: $line" >&2; bad=1; }
done <$rows
[ "$(grep -cE '^\| `[a-z_]+` [0-9]+, [0-9]+ \|' $page)" = "$(grep -c . $rows)" ] || { echo "believe: $page has more rows of calls than these" >&2; bad=1; }
[ "$(grep -c . build/believe-sizes.txt)" = 4 ] || { echo 'believe: four parts were expected' >&2; bad=1; }
exit $bad
