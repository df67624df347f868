#!/bin/sh
# kit.sh: whether the toolchain is one that the proofs were made with, a line of the file `kit` beside this. The whole line of `rt version`
# is held, not the logic's sum alone: which needs a function has and how they are named, what counts as proved, and the compiler behind
# the archive come with the kit's other parts, which the sum says nothing of. KIT_ANY=1 goes on with any kit, but not in the gate.
set -u
RT=${RT:-rt}
kits=$(dirname "$0")/kit
tried=$(awk '{ printf "%s%s", (NR > 1 ? ", or " : ""), $0 }' "$kits")
if ! command -v "$RT" >/dev/null; then
    echo "kit: there is no $RT on the path: the Rattle toolchain is needed, $tried" >&2
    exit 1
fi
found=$("$RT" version 2>&1)
while IFS= read -r kit; do [ "$found" != "$kit" ] || exit 0; done <"$kits"
if [ "${KIT_ANY:-}" = 1 ]; then
    echo "kit: found $found; tried is $tried; going on, as KIT_ANY=1 says" >&2
    exit 0
fi
echo "kit: found $found; these proofs were tried with $tried alone. Use such a kit, or outside of the gate go on with KIT_ANY=1" >&2
exit 1
