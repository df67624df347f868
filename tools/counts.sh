#!/bin/sh
# counts.sh: whether the tree has as much of each as the file `counts` beside this says, so that what goes or comes is a line of a commit.
#
#   crates           lines of crates.txt
#   edits            must-fail edits, where rt looks for them
#   entries          `extern "C"` functions of the crate crewelmarsh_c, and names of the header
#   safety-only      `pub` functions of any crate with no `ensures`: docs/PROMISES.md names them
#   labels           theorems: the different N of the statements tN_NAME of the crate promises, in specs/ or in proofs/
#   statements       those statements
#   boundary-checks  what the C tests ran, machine-checks what tests/machine ran, list-cases the cases of lanczos' list: tools/c.mk holds the runs to them
#   edits-outside    edits that the gate leaves out, edits/
#   lazy-versions    patches of tests/lazy
set -u
CDPATH='' cd -- "$(dirname "$0")/.." || exit 2
status=0

said() { sed -n "s/^$1 \([1-9][0-9]*\)\$/\1/p" tools/counts; }
holds() { # NAME FOUND
    [ "$(said "$1")" != "$2" ] || return 0
    echo "counts: tools/counts says $1 '$(said "$1")', and the tree has $2" >&2
    status=1
}

# The statements, of the files that the Lib.antt of specs/ and of proofs/ declare: rt looks at no other.
declared() {
    for place in crates/promises/specs crates/promises/proofs; do
        [ ! -f $place/Lib.antt ] || sed -n "s|^pub mod \([A-Za-z_0-9]*\).*|$place/\1.antt|p" $place/Lib.antt
    done
}
statements() { declared | xargs sed -n 's/^pub \(t[0-9][0-9]*\)_[^ ]* :.*/\1/p'; }

holds crates "$(grep -c '^[A-Za-z_]' crates.txt)"
holds edits "$(ls crates/*/must-fail/*.edit | wc -l | tr -d ' ')"
holds edits-outside "$(ls edits/*/*.edit | wc -l | tr -d ' ')"
holds lazy-versions "$(ls tests/lazy/*.patch | wc -l | tr -d ' ')"
holds entries "$(cat crates/crewelmarsh_c/src/*.rt | grep -c '^pub extern "C" fn ')"
holds entries "$(grep -c '^#define crewelmarsh_[a-z_]* CREWELMARSH_NAME' include/crewelmarsh.h)"
# shellcheck disable=SC2016
holds safety-only "$(find crates -path '*/out' -prune -o -path '*/src/*.rt' -print | sort | xargs awk '
    FNR == 1 { on = 0 }
    /^ *pub (extern "C" )?fn / { on = 1; head = "" }
    on { head = head " " $0 }
    on && (/^ *\{/ || /[^{]\{ *$/) { on = 0; if (head !~ /ensures/) n++ }
    END { print n + 0 }')"
holds labels "$(statements | sort -u | wc -l | tr -d ' ')"
holds statements "$(statements | wc -l | tr -d ' ')"
for name in boundary-checks machine-checks list-cases; do
    [ -n "$(said $name)" ] || { echo "counts: tools/counts has no number $name" >&2; status=1; }
done
[ "$(grep -vc '^#' tools/counts)" -eq 11 ] || { echo 'counts: tools/counts has one line for each of eleven counts' >&2; status=1; }
[ "$status" -ne 0 ] || echo "counts: $(sed '/^#/d' tools/counts | tr '\n' ',' | sed 's/,$//; s/,/, /g')"
exit $status
