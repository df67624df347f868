#!/bin/sh
# exports.sh ARCHIVE NAME..: the names that the archive offers to a linker are exactly these.
# They are read from the archive's own index (its first member, named "/": a count, as many offsets, then
# the names, each ended by a zero byte; numbers are big-endian, 4 bytes), so that no nm is needed.
set -eu

archive=$1
shift

# bytes FROM COUNT: that many bytes of the archive, from 0.
bytes() { tail -c +$(($1 + 1)) "$archive" | head -c "$2"; }

if [ "$(bytes 0 7)" != '!<arch>' ] || [ "$(bytes 8 2)" != '/ ' ]; then
    echo "exports: $archive has no index" >&2
    exit 1
fi
size=$(bytes 56 10 | tr -d ' ')
count=$(bytes 68 4 | od -A n -t u1 | awk '{ print (($1 * 256 + $2) * 256 + $3) * 256 + $4 }')
names=$((68 + 4 + 4 * count))
found=$(bytes "$names" $((68 + size - names)) | tr '\0' '\n' | sed '/^$/d' | LC_ALL=C sort)
wanted=$(printf '%s\n' "$@" | LC_ALL=C sort)

if [ "$found" != "$wanted" ]; then
    printf 'exports: found %s\n' "$found" >&2
    printf 'exports: wanted %s\n' "$wanted" >&2
    exit 1
fi
echo "exports: $count names, no other"
