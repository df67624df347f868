#!/bin/sh
# gate.sh: that the gate can't be told to pass. Each way below is tried on trees that must not pass, with a stand-in for rt that says yes to all: none may write the line
# 'N passed, 0 failed'. `make gate-test`: seconds, no prover.
#
#   c  this tree with a wrong number in tools/counts: a quick check fails
#   a  a check behind rt ci fails, for every archive but other.a
#   k  rt is none of tools/kit
#   r  rt ci fails, unless something of the environment reaches it
#   b  rt ci passes, with a bad edit
#   o  a gate of the old style, which takes its lists and programs from make: this one the way does tell to pass, where the letter stands, else the ways would show nothing
#
# The trees have this one's Makefile, without what it includes, and every target that the gate names passes there but the one that fails. A makefile that writes the line itself
# is left out: nothing here could stop that, and .ci/run reads none but Makefile.
set -u
CDPATH='' cd -- "$(dirname "$0")/.." || exit 2
tree=$(pwd) path=$PATH status=0 tries=0
work=$(mktemp -d) || exit 2
trap 'rm -rf "$work"' EXIT
trap 'exit 2' HUP INT TERM

# TREES WAY: a way is a command in the tree's folder.
ways() {
    cat <<'WAYS'
cakr  make test
cakr  .ci/run
cao   make test QUICK= GATE= REST=
cao   QUICK= GATE= REST= make -e test
cao   MAKEFLAGS=e QUICK= GATE= REST= make test
cao   MAKEFLAGS='QUICK= GATE= REST=' make test
cao   GNUMAKEFLAGS='QUICK= GATE= REST=' make test
ca    QUICK= GATE= REST= .ci/run
cao   make test MAKE=true
cao   MAKEFLAGS='MAKE=true' make test
ca    MAKE=true .ci/run
kr    RT=./yes make test
kr    make test RT=./yes
kr    RT=./yes .ci/run
kr    make test RT=true
r     RATTLE_HOME=. make test
r     RATTLE_HOME=. .ci/run
a     make test ARCHIVE=other.a
a     ARCHIVE=other.a .ci/run
k     KIT_ANY=1 make test
k     make test KIT_ANY=1
k     KIT_ANY=1 .ci/run
cakro make -n test
cakro make -i test
cakro make -t test
cakr  make -k test
cakr  make -q test
cakro MAKEFLAGS=i make test
cakr  MAKEFLAGS=i .ci/run
ca    make -o counts-check -o boundary test
ca    make test SHELL=/bin/true
ca    make test SHELL=./yes
cakro MAKEFILES=vars.mk make test
cakr  MAKEFILES=vars.mk .ci/run
cakro make -f over.mk test
cakr  MAKEFILES=over.mk .ci/run
cakro cp over.mk GNUmakefile; make test; rm GNUmakefile
cakr  cp over.mk GNUmakefile; .ci/run; rm GNUmakefile
cakro make --eval='override MAKE := true' test
ca    CDPATH=elsewhere sh tools/gate.sh
ca    make test TMPDIR=elsewhere
ca    sh tools/gate.sh --
ca    sh tools/gate.sh kit -- kit
WAYS
}

# A stand-in for rt, which proves nothing: rt ci, behind what is given, comes to the numbers that tools/counts has.
stand_in() { # VERSION BEFORE-CI BAD
    cat <<RT
#!/bin/sh
case \${1:-} in
version) $1 ;;
doc) echo "\$0" ;;
ci)
    $2
    awk '/^edits / { edits = \$2 } /^(crates|edits) / { n += \$2 }
        END { print "rt: ok; handles allowed: none; must-fail edits: " edits " refused${3:-}; all done in this run"; print n " passed, 0 failed" }' tools/counts
    ;;
esac
RT
}

# A tree in which each target that the gate names passes, but counts-check, which looks at the tree, and boundary by its recipe.
names=$(sed -n "s/^QUICK='\(.*\)'\$/\1/p; s/^REST='\(.*\)'\$/\1/p" tools/gate.sh | tr '\n' ' ')
plant() { # TREE COUNTS-CHECK BOUNDARY VERSION BEFORE-CI [BAD]
    mkdir "$work/$1" && cd "$work/$1" && cp -R "$tree/.ci" "$tree/tools" . || exit 2
    {
        sed '/^include /d; /^gate-test:/,/^$/d' "$tree/Makefile"
        printf 'RT ?= rt\nARCHIVE ?= own.a\n.PHONY: %s\n' "$names"
        for name in $names; do
            case $name in
            counts-check) recipe=$2 ;;
            boundary) recipe=$3 ;;
            *) recipe=: ;;
            esac
            printf '%s:\n\t@%s\n' "$name" "$recipe"
        done
    } >Makefile
    shift 3
    # what a way may find
    mkdir bin elsewhere elsewhere/tools
    stand_in 'head -n 1 tools/kit' : >yes
    stand_in "$1" "$2" "${3:-}" >bin/rt
    chmod +x yes bin/rt
    : >other.a
    echo 'echo "1 passed, 0 failed"' >elsewhere/tools/gate.sh
    printf 'override %s\n' 'QUICK :=' 'GATE :=' 'REST :=' 'MAKE := true' 'RT := ./yes' 'ARCHIVE := other.a' 'KIT_ANY := 1' >vars.mk
    { echo 'include Makefile'; cat vars.mk; printf '%s:\n\t@:\n' counts-check boundary check; } >over.mk # its rules are the later ones
}
(plant c 'sh tools/counts.sh' : 'head -n 1 tools/kit' : && cp -R "$tree/crates.txt" "$tree/include" "$tree/edits" . && (cd "$tree" && find crates -name out -prune -o -type f -print | tar -c -T - -f -) | tar -x -f - && mkdir tests && cp -R "$tree/tests/lazy" tests)
(plant a : '[ $(ARCHIVE) = other.a ]' 'head -n 1 tools/kit' :)
(plant k : : 'echo rattle-kit-0 logic 0' :)
(plant r : : 'head -n 1 tools/kit' '[ -n "${RATTLE_HOME:-}${RT:-}${MAKEFLAGS:-}${MAKEFILES:-}" ] || { echo "4 passed, 1 failed"; exit 1; }')
(plant b : : 'head -n 1 tools/kit' : ', 1 bad')
(
    plant o : : 'head -n 1 tools/kit' :
    cat >Makefile <<'OLD'
QUICK := check
GATE := check
RT ?= rt
.PHONY: test check
test:
	@RT='$(RT)' MAKE='$(MAKE)' sh tools/gate.sh $(QUICK) -- $(GATE)
check:
	@false
OLD
    cat >tools/gate.sh <<'OLD'
for name; do [ "$name" = -- ] || "${MAKE:-make}" -s "$name" || exit 1; done
"${RT:-rt}" ci | tail -n 1
OLD
)

told() { # TREE WAY: whether the line comes
    cd "$work/$1" || exit 2
    env -i PATH="$work/$1/bin:$path" TMPDIR="$work" sh -c "$2" >out 2>&1 </dev/null
    grep -Eq '^[0-9]+ passed, 0 failed$' out
}
wrong() {
    echo "gate-test: $*" >&2
    status=1
}

# While its numbers are right the first tree passes, so that it is the wrong one that fails it; and each of them fails where it should.
for way in 'make test' .ci/run; do
    told c "$way" || wrong "where nothing is wrong, $way does not write the line"
done
awk '$1 == "crates" { $2++ } { print }' "$tree/tools/counts" >"$work/c/tools/counts"
for one in 'c counts-check' 'a boundary' 'k kit' 'r rt ci' 'b rt ci'; do
    ! told "${one%% *}" .ci/run || wrong "the tree ${one%% *} passes"
    grep -q "^gate: FAILED: ${one#* } " "$work/${one%% *}/out" || wrong "the tree ${one%% *} does not fail at ${one#* }"
done

ways >"$work/ways"
while read -r trees way; do
    for one in c a k r; do
        case $trees in *$one*) ;; *) continue ;; esac
        tries=$((tries + 1))
        ! told $one "$way" || wrong "the tree $one is told to pass by: $way"
    done
    case $trees in *o*) told o "$way" || wrong "a gate of the old style is not told to pass by: $way" ;; esac
done <"$work/ways"
[ $status -ne 0 ] || echo "gate-test: $(wc -l <"$work/ways" | tr -d ' ') ways, $tries tries: none tells the gate to pass; $(grep -c '^[cakr]*o ' "$work/ways") of them a gate of the old style"
exit $status
