#!/bin/sh
# lazy.sh [NAME..]   (make proofs-lazy)
#
# Lazy versions, tests/lazy/NAME.patch: each changes a definition, the code and its proof alike, so that every function is proved still, and does less work than
# document 000. What refuses it is a computed row of T39, which the first line of the patch names. A second line, `without FOLDER`, names proofs that go before the patch
# is applied, which has what stands in their place. Each is tried on a copy of the tree; rt begins there with what its checks kept of the same crates in this tree, and
# what the change reaches is proved again: minutes each, and so outside of the gate.
set -u
CDPATH='' cd -- "$(dirname "$0")/.." || exit 2
RT=${RT:-rt} tree=$(pwd) status=0
# shellcheck disable=SC2046 # names have no blanks
[ $# -gt 0 ] || set -- $(ls tests/lazy | sed -n 's/\.patch$//p')
work=$(mktemp -d) || exit 2
trap 'rm -rf "$work"' EXIT
trap 'exit 2' HUP INT TERM

# A file of specs/ that stands in proofs/ now.
placed() { # PATCH
    sed -n 's|^--- a/\(crates/[^/]*/specs/.*\.antt\)$|\1|p' "$1" | while IFS= read -r file; do
        other=$(echo "$file" | sed 's|/specs/|/proofs/|')
        [ -f "$file" ] || [ ! -f "$other" ] || printf 's|%s|%s|g\n' "$file" "$other"
    done
}

for name; do
    patch=$tree/tests/lazy/$name.patch
    crate=$(sed -n '1s/^refused by \([a-z_0-9]*\): .*/\1/p' "$patch") row=$(sed -n '1s/^refused by [a-z_0-9]*: //p' "$patch")
    [ -n "$crate" ] && [ -n "$row" ] || { echo "lazy: $name: its first line does not say what refuses it" >&2; exit 2; }
    rm -rf "$work/tree" && mkdir "$work/tree" && cp crates.txt "$work/tree" || exit 2
    find crates \( -name must-fail -o -name out \) -prune -o -type f -print | tar -c -T - -f - | tar -x -C "$work/tree" -f - || exit 2
    cd "$work/tree" || exit 2
    for folder in $(sed -n '2s/^without //p' "$patch"); do
        [ -d "$folder" ] || { echo "lazy: $name: there is no $folder" >&2; exit 2; }
        rm -r "$folder"
    done
    placed "$patch" >"$work/placed"
    sed -f "$work/placed" "$patch" | git apply || { echo "lazy: $name: the patch does not fit the tree" >&2; exit 2; }
    # what C reaches is proved ..
    if ! (cd crates/crewelmarsh && "$RT" check) >"$work/out" 2>&1; then
        grep -E '(^|: )error|not proved|did not build' "$work/out" | head -n 5
        echo "lazy: $name: the code is refused, so that this shows nothing of the theorems" >&2
        status=1
    # .. and the row is not, by its own equation
    elif (cd "crates/$crate" && "$RT" check) >"$work/out" 2>&1; then
        echo "lazy: $name: $crate is proved with it" >&2
        status=1
    elif ! grep -q "error: \`$row\`: expected type" "$work/out"; then
        grep -E '(^|: )error|not proved|did not build' "$work/out" | head -n 5
        echo "lazy: $name: not refused by $row of $crate" >&2
        status=1
    else
        echo "lazy: $name: every function is proved, and $row of $crate refuses it"
    fi
    cd "$tree" || exit 2
done
exit $status
