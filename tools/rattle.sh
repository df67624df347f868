#!/bin/sh
# rattle.sh CRATE COMMAND FLAG..: the kit's rattle on a crate, in its folder, with the words that rt gives it, over the libraries that stand in out/: of rt ci, or of rt's
# own checks, and none is built here. For what rt has no command for: tools/archive.sh in the gate, tools/cost, oracle/module.sh.
set -eu
CDPATH='' cd -- "$(dirname "$0")/.."
crate=$1 command=$2
shift 2
kit=$(dirname "$("${RT:-rt}" doc)") libraries=$(pwd)/crates root=lib.rt
[ ! -f "crates/$crate/src/main.rt" ] || root=main.rt

# What the crate uses, and of what the tree has all that this uses, in the order in which they are met.
uses=$(sed 's/#.*//' crates.txt | awk -v top="$crate" '
    { kind = sub(/ +staticlib *:/, " "); sub(/ *:/, " "); $0 = $0; known[$1] = 1; statics[$1] = kind; for (i = 2; i <= NF; i++) uses[$1] = uses[$1] " " $i }
    function reach(n,   w, k, i) {
        if (!(n in known) || n in seen) return
        seen[n] = 1; if (n != top) print "below", n
        k = split(uses[n], w, " "); for (i = 1; i <= k; i++) reach(w[i])
    }
    END {
        if (!(top in known)) exit 1
        if (statics[top]) print "static", top
        k = split(uses[top], w, " "); for (i = 1; i <= k; i++) print (w[i] in known ? "own" : "kit"), w[i]
        reach(top)
    }') || { echo "rattle.sh: crates.txt has no crate $crate" >&2; exit 1; }

set -- --jobs 1 --links "$crate=" --antt-project "$kit/rattle/logic/antt-project.json" --logic-built "$kit/logic_built" "$@"
while read -r what name; do
    case $what in
    static) set -- --crate-type staticlib "$@" ;;
    own) set -- --extern "$name=$libraries/$name/out/rlib/$name.rlib" "$@" ;;
    kit) set -- --extern "$name=$kit/rlibs/$name.rlib" "$@" ;;
    below) set -- -L "dependency=$libraries/$name/out/rlib" "$@" ;;
    esac
done <<EOF2
$uses
EOF2
cd "crates/$crate"
mkdir -p out
exec "$kit/bin/rattle" "$command" --crate-name "$crate" "src/$root" --extern "std=$kit/rlibs/std.rlib" -L "dependency=$kit/rlibs" "$@"
