#!/bin/sh
# archive.sh [BEGAN]: the archive, of the crate crewelmarsh_c, which is proved as it is built, into crates/crewelmarsh_c/out/ and from there into dist/libcrewelmarsh.a. What
# rattle says goes into build/archive.log.
#
# rt lib builds it: over the libraries that checks keep in out/, and what they have not, it proves first. It takes none of those that rt ci leaves there. So the gate
# names BEGAN, a file that it made right before its rt ci: where each library below has been put there since, the archive is built over those (tools/rattle.sh), and the
# crate of the exports alone is proved once more. Where one is older, or that build fails, it is left to rt lib.
#
# Both build for every x86-64 (`--cpu=x86-64`): what rt takes unasked is a later one.
set -u
CDPATH='' cd -- "$(dirname "$0")/.." || exit 2
RT=${RT:-rt} began=${1:-} crate=crewelmarsh_c cpu=x86-64 log=build/archive.log
archive=crates/$crate/out/lib$crate.a
mkdir -p build && rm -f "$archive" || exit 2

# What the crate uses, and all that this uses.
below=$(sed 's/#.*//' crates.txt | awk -v top="$crate" '
    { sub(/( +staticlib)? *:/, " "); $0 = $0; known[$1] = 1; for (i = 2; i <= NF; i++) uses[$1] = uses[$1] " " $i }
    function reach(n,   w, k, i) {
        if (!(n in known) || n in seen) return
        seen[n] = 1; if (n != top) print n
        k = split(uses[n], w, " "); for (i = 1; i <= k; i++) reach(w[i])
    }
    END { reach(top) }')
[ -n "$below" ] || { echo "archive: crates.txt has no line '$crate staticlib: ..'" >&2; exit 1; }

fresh() { # whether each library was put there behind BEGAN: the time of its last change of name or content
    for name in $below; do
        [ ! -e "crates/$name/out/rlib/stamp" ] && [ -n "$(find "crates/$name/out/rlib/$name.rlib/format" -newercm "$began" 2>/dev/null)" ] || return 1
    done
}

over_these() {
    RT=$RT sh tools/rattle.sh $crate build --cpu=$cpu --toolchain "$(dirname "$("$RT" doc)")/toolchain" --backend llvm -o "out/lib$crate.a" >$log 2>&1
}

if [ -n "$began" ] && fresh && over_these && [ -s "$archive" ]; then
    echo 'archive: built over the libraries that rt ci proved'
else
    (cd crates/$crate && "$RT" lib --cpu=$cpu) >$log 2>&1 && [ -s "$archive" ] || { cat $log; echo 'archive: rt lib does not build it' >&2; exit 1; }
    echo 'archive: built by rt lib'
fi
grep '^logic=' $log | tail -n 1
mkdir -p dist && cp "$archive" dist/libcrewelmarsh.a
