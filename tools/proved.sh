#!/bin/sh
# proved.sh: whether rt proved the archive with no axiom, by the line that rattle writes behind each crate: `logic=proved functions=.. sum=..`. The crates are
# crewelmarsh_c, promises, and all that these use. Of each, what the gate's rt ci said (build/gate.log) has one such line, with no `axioms=` and no `foreign=`, and with the
# `sum=`, of the logic that the proof was checked in, of the kit at hand, a line of tools/kit; or rt says that it kept the crate of an earlier run here, with the same
# kit, of the same files over the same libraries: then it writes no line, and of what could rest on C it may use nothing: no library but those of crates.txt, and of std
# `std::cmp`, `std::num` and `std::ops` alone, which are core's, and lemmas (`std::proofs`) (rt ci refuses C functions of a crate's own). The line of the archive is in
# build/archive.log (tools/archive.sh), and has a `target=`, and no `cpu=`: it is for every processor of that target.
set -u
CDPATH='' cd -- "$(dirname "$0")/.." || exit 2
log=build/gate.log made=build/archive.log
sh tools/kit.sh || exit 1
sum=$(rt version | sed -n 's/^.* logic \([0-9a-f]*\)$/\1/p')
[ -n "$sum" ] || { echo 'proved: rt version names no sum' >&2; exit 1; }
for file in $log $made; do [ -r $file ] || { echo "proved: there is no $file: make test writes it" >&2; exit 1; }; done

used=$(sed 's/#.*//' crates.txt | awk '
    { sub(/( +staticlib)? *:/, " "); $0 = $0; name = $1; known[name] = 1; for (i = 2; i <= NF; i++) uses[name] = uses[name] " " $i }
    function reach(n,   w, k, i) {
        if (!(n in known) || n in seen) return
        seen[n] = 1; print n; k = split(uses[n], w, " "); for (i = 1; i <= k; i++) reach(w[i])
    }
    END {
        if (!("crewelmarsh_c" in known && "promises" in known)) exit 1
        reach("crewelmarsh_c"); reach("promises")
        for (n in seen) { k = split(uses[n], w, " "); for (i = 1; i <= k; i++) if (!(w[i] in known)) { print n " uses " w[i] >"/dev/stderr"; exit 1 } }
    }') || {
    echo 'proved: crates.txt lacks crewelmarsh_c or promises, or a crate that they reach uses a library of the kit' >&2
    exit 1
}
for crate in $used; do
    if grep -rnE '\b(std|core|alloc)::' "crates/$crate/src" | sed -E 's/\bstd::(cmp|num|ops|proofs):://g' | grep -E '\b(std|core|alloc)::'; then
        echo "proved: $crate uses more of std than cmp, num, ops and its lemmas" >&2
        exit 1
    fi
done

holds() { # WHAT LINE: sets why it is not proved
    why=
    case $2 in
    *' axioms='* | *' foreign='*) why='rests on what nothing proves' ;;
    *'
'*) why='has more than one such line' ;;
    'logic=proved functions='*" sum=$sum "*) ;;
    '') why='has no line logic=.., so it was not proved here' ;;
    *) why="was not proved with the logic $sum" ;;
    esac
    [ -z "$why" ] || { echo "proved: $1 $why${2:+: $2}" >&2; exit 1; }
}

count=0 kept=0
for crate in $used; do
    line=$(awk -v crate="$crate" '/^== / { on = $0 == "== " crate } on && /^logic=/' $log)
    if [ -z "$line" ] && grep -q "^rt: $crate is kept: " $log; then kept=$((kept + 1)); else holds "$crate, by $log," "$line"; fi
    count=$((count + 1))
done
line=$(grep '^logic=' $made | tail -n 1) # above it may stand those of libraries that rt lib built first
holds "the archive, by $made," "$line"
case $line in *' target='*) ;; *) echo "proved: the line of $made has no target=, so it is of no archive: $line" >&2; exit 1 ;; esac
case $line in *' cpu='*) echo "proved: the archive is not for every x86-64: $line" >&2; exit 1 ;; esac
[ -s crates/crewelmarsh_c/out/libcrewelmarsh_c.a ] || { echo 'proved: there is no crates/crewelmarsh_c/out/libcrewelmarsh_c.a' >&2; exit 1; }
echo "proved: crewelmarsh_c, promises and what they use, $count crates, $kept of them kept of earlier runs: no axiom, logic $sum"
