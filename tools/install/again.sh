#!/bin/sh
# again.sh ARCHIVE: that the archive has the same bytes wherever it is built. The crate of the entries and what it uses are copied to another folder, built there by
# tools/archive.sh, and compared. rt begins there with what its checks kept on this machine; with FRESH=1 rt ci proves everything there from nothing first, which takes
# as long as the first time. Run at the repository's root; RT is the prover.
set -eu

archive=$1 rt=${RT:-rt}
place=$(mktemp -d)
trap 'rm -rf "$place"' EXIT
tree=$place/another-folder/crewelmarsh
mkdir -p "$tree"
cp -R tools "$tree/"

# crewelmarsh_c, what it uses, and all that this uses
used=$(sed 's/#.*//' crates.txt | awk '
    { sub(/( +staticlib)? *:/, " "); $0 = $0; known[$1] = 1; for (i = 2; i <= NF; i++) uses[$1] = uses[$1] " " $i }
    function reach(n,   w, k, i) {
        if (!(n in known) || n in seen) return
        seen[n] = 1; print n; k = split(uses[n], w, " "); for (i = 1; i <= k; i++) reach(w[i])
    }
    END { reach("crewelmarsh_c") }')
for crate in $used; do
    grep -E "^$crate( +staticlib)? *:" crates.txt >>"$tree/crates.txt"
    find "crates/$crate" \( -name must-fail -o -name out \) -prune -o -type f -print | tar -c -T - -f - | tar -x -C "$tree" -f -
done
began=
if [ -n "${FRESH:-}" ]; then
    mkdir "$tree/build"
    began=build/gate.log.began
    : >"$tree/$began"
    (cd "$tree" && "$rt" ci --anew) >"$place/said" 2>&1 || { cat "$place/said"; exit 1; }
fi
(cd "$tree" && RT=$rt sh tools/archive.sh $began) >"$place/said" 2>&1 || { cat "$place/said"; exit 1; }
cmp "$archive" "$tree/dist/libcrewelmarsh.a"
echo "archive-again: the same $(wc -c <"$archive") bytes from another folder"
