#!/bin/sh
# gate.sh: the merge gate, what `make test` and .ci/run call. The kit and what is quick to look at; a plain rt ci over the whole tree, which proves every crate that it
# has not passed on this machine as it stands, tries every must-fail edit and runs every program; then what is looked at over what it proved: the archive, the C tests, the
# example. rt's own line, 'N passed, 0 failed', is written last and only if all of it passed: where rt ci writes it, it stands behind 'rt ci: ', so that a gate that fails
# has no such line.
#
# What is run is named here, and nothing but PATH, TMPDIR and RT_JOBS reaches it: no argument, no variable or flag of make, no other makefile, rt, archive or kit
# (tests/gate.sh tries such ways). What a gate can't hold: a false rt, make or sh that stands in PATH, and a makefile of someone's that writes such a line itself.
set -u
CDPATH='' cd -- "$(dirname "$0")/.." || exit 2
QUICK='counts-check labels-check believe-check map-check verbatim wings-check pencil-check plot-check gate-test'
REST='archive-of-ci parts proved-check boundary example-test'
[ $# -eq 0 ] || { echo 'usage: tools/gate.sh' >&2; exit 2; }
processors=$(nproc 2>/dev/null || echo 1)
log=build/gate.log
began=$(date +%s)
trap 'exit 2' HUP INT TERM

clean() { env -i LC_ALL=C PATH="$PATH" ${TMPDIR:+"TMPDIR=$TMPDIR"} ${RT_JOBS:+"RT_JOBS=$RT_JOBS"} "$@"; }
target() { clean make -f Makefile -s --no-print-directory "$@"; }

passed() { echo "gate: $1 ($(($(date +%s) - from)) s)"; }
failed() { # STATUS WHAT
    echo "gate: FAILED: $2 (exit $1)"
    exit "$1"
}
step() { # WHAT COMMAND..
    from=$(date +%s) what=$1
    shift
    "$@" || failed $? "$what"
    passed "$what"
}

step kit clean sh tools/kit.sh
for name in $QUICK; do step "$name" target "$name"; done

# The tree as it stands. A pipe's status is its last command's, so rt's own is kept in a file.
from=$(date +%s)
mkdir -p build && : >"$log" && echo 2 >"$log.status" || failed 2 "build/ can't be written"
: >"$log.began" # what tools/archive.sh tells the libraries of this rt ci by
said() { sed -n "s/^$1 //p" tools/counts; } # counts-check has held them to the tree
crates=$(said crates) edits=$(said edits)
{ clean rt ci 2>&1; echo $? >"$log.status"; } | {
    while IFS= read -r text; do
        printf '%s\n' "$text" >>"$log"
        case $text in
        [0-9]*' passed, '[0-9]*' failed') text="rt ci: $text" ;;
        esac
        printf '%s\n' "$text"
    done
}
status=$(cat "$log.status" 2>/dev/null || echo 2)
line=$(tail -n 1 "$log")
[ "$status" -eq 0 ] || failed "$status" "rt ci"
echo "$line" | grep -Eqx '[1-9][0-9]* passed, 0 failed' || failed 1 "rt ci has a last line that is not 'N passed, 0 failed'"
[ "${line%% *}" -eq $((crates + edits)) ] || failed 1 "rt ci says $line, where there are $crates crates and $edits edits"
ok=$(grep '^rt: ok' "$log") || failed 1 "rt ci wrote no line 'rt: ok'"
! echo "$ok" | grep -q ', [0-9][0-9]* bad' || failed 1 "rt ci has bad edits: $ok"
echo "$ok" | grep -Eq "must-fail edits: $edits refused(,|;|\$)" || failed 1 "rt ci did not refuse $edits edits: $ok"
passed "rt ci"

# The archive is made of what rt ci has just proved, and nothing of an earlier run of the gate is used.
rm -rf dist build/tests build/examples build/archive.log || failed 2 "dist/ can't be made anew"
for name in $REST; do step "$name" target -j"$processors" "$name"; done
echo "gate: all passed ($(($(date +%s) - began)) s)"
echo "$line"
