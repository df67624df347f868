#!/bin/sh
# book.sh: `make book-test`. Maps that are wrong, each of which must be refused with its place and what is wrong; the pages of a wrong map; then the
# pages themselves, by tests/book.py. Needs python3, chromium and tidy, and says so. Run at the repository's root; status 1 on a failure.
set -u

map=tools/book/map.txt
make=${MAKE:-make}
scratch=$(mktemp -d)
trap 'rm -rf "$scratch"' EXIT
checks=0 failed=0

# refused WHAT WORDS SED-SCRIPT [LINE]: the map, changed so and with LINE at its end, must be refused with these words.
refused() {
    checks=$((checks + 1))
    { sed "$3" $map; [ -z "${4:-}" ] || echo "$4"; } >"$scratch/map.txt"
    if tools/book/map-check "$scratch/map.txt" >"$scratch/said" || ! grep -q "$2" "$scratch/said"; then
        failed=$((failed + 1))
        echo "FAILED: $1: was not refused with '$2'"
        sed 's/^/    /; 5q' "$scratch/said"
    fi
}

end=$(($(wc -l <$map) + 1)) # the line that is put behind the map
reflect=$(sed -n 's/^document_000.rs 118 //p' $map)

tools/book/map-check >"$scratch/said" || { cat "$scratch/said"; failed=1; }
refused 'a line left over' 'src/document_000.rs:118: claimed by no definition' '/^document_000.rs 118 /d'
refused 'a line left over, of Lanczos' 'src/document_000_lanczos.rs:104: claimed by no definition' '/^document_000_lanczos.rs 104 /d'
refused 'an exception left out' 'src/document_000.rs:31: claimed by no definition' '/^document_000.rs 31 /d'
refused 'a line twice' "map.txt:$end: document_000.rs 118 is claimed twice" '' "document_000.rs 118 $reflect"
refused 'an exception that is claimed' "map.txt:$end: document_000.rs 118 is claimed twice" '' 'document_000.rs 118 - no reason'
refused 'a line outside of the functions' "map.txt:$end: document_000.rs 1 is no line of a function" '' "document_000.rs 1 $reflect"
refused 'a line behind the end' "map.txt:$end: document_000.rs 9999 is no line of a function" '' "document_000.rs 9999 $reflect"
refused 'a definition that is not there' 'map.txt:[0-9]*: no contract reaches a definition reflects' 's/ reflect$/ reflects/'
refused 'a file that is not there' 'map.txt:[0-9]*: no contract reaches a definition reflect in crates/nowhere' 's| [a-z_0-9]*/specs/Tred2.antt reflect$| nowhere/specs/Tred2.antt reflect|'
refused 'lines that are none' "map.txt:$end: lines are written as 12 or 12-15" '' "document_000.rs 11O $reflect"
refused 'a definition without lines or a reason' 'Order.antt: rank stands for no line' 's/^new library .*Order.antt rank$//'
refused 'a reason where there are lines' "map.txt:$end: reflect has lines already" '' "new part ${reflect% *} reflect"
refused 'a reason twice' "map.txt:$end: rank has a reason already" '' "$(grep '^new library .*Order.antt rank$' $map)"
refused 'a kind that is not there' "map.txt:$end: there is no kind other" '' "new other ${reflect% *} reflect"
refused 'a theorem that is not there' 'map.txt:[0-9]*: there is no theorem split_was' 's/ split_is / split_was /'
refused 'a line of no sense' "map.txt:$end: not understood: document_001.rs" '' 'document_001.rs 1 a b'
refused 'an empty map' 'src/document_000.rs:29: claimed by no definition' d

checks=$((checks + 1))
sed '/^-- where scale is not 0: h, v, d and e /d' docs/believe.txt >"$scratch/believe.txt"
if tools/book/map-check $map "$scratch/believe.txt" >"$scratch/said" || ! grep -q 'Tred2.antt: reflect has no sentence above it' "$scratch/said"; then
    failed=$((failed + 1))
    echo 'FAILED: a definition with no sentence above it was taken'
fi

# the pages of a wrong map are written, with what is unclaimed marked
if command -v python3 >/dev/null; then
    checks=$((checks + 1))
    mkdir -p "$scratch/book"
    cp tools/book/* "$scratch/book/" 2>/dev/null
    sed '/^document_000.rs 118 /d; s/^new library .*Order.antt rank$//' $map >"$scratch/book/map.txt"
    python3 -B -X utf8 "$scratch/book/book.py" "$scratch/pages" >"$scratch/said" 2>&1
    if [ "$(grep -c 'class="l lost"' "$scratch/pages/document-000.html")" != 1 ] || ! grep -q 'map.txt does not say why' "$scratch/pages/svd.html"; then
        failed=$((failed + 1))
        echo 'FAILED: the pages of a wrong map do not show what is unclaimed'
        sed 's/^/    /; 5q' "$scratch/said"
    fi
fi
echo "book-test: $checks things that are wrong, $failed failed"

"$make" -s book && python3 -B -X utf8 tests/book.py build/book || failed=1
[ "$failed" = 0 ]
