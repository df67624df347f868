#!/bin/sh
# install.sh ROOT PREFIX LIB VERSION ARCHIVE SHARED: copies what a C codec needs under ROOT, libraries under ROOT/LIB, documents under
# ROOT/share/doc/crewelmarsh. PREFIX is where pkg-config shall look for it; CMake finds it from its own place. Run at the repository's root.
set -eu

root=$1 prefix=$2 lib=$3 version=$4 archive=$5 shared=$6
major=${version%%.*}
up=$(echo "$lib" | sed 's|[^/][^/]*|..|g') # from ROOT/LIB back to ROOT
docs=$root/share/doc/crewelmarsh

# fill FILE FOLDER: the file from its template.
fill() {
    sed "s|@PREFIX@|$prefix|; s|@VERSION@|$version|; s|@MAJOR@|$major|; s|@LIB@|$lib|; s|@UP@|$up|" "tools/install/$1.in" >"$2/$1"
}

# Whatever the caller's umask is, others can read it. A library that a running program has open stays as it is: its name goes to the new one.
umask 022
put() { # FILE TO
    rm -f "$2"
    cp "$1" "$2"
    chmod u=rwX,go=rX "$2"
}

mkdir -p "$root/include" "$root/$lib/pkgconfig" "$root/$lib/cmake/crewelmarsh" "$docs/examples"
put include/crewelmarsh.h "$root/include/crewelmarsh.h"
for file in LICENSE NOTICE docs/*; do
    [ ! -f "$file" ] || put "$file" "$docs/${file##*/}"
done
for file in examples/*.c; do
    put "$file" "$docs/$file"
done
put "$archive" "$root/$lib/libcrewelmarsh.a"
put "$shared" "$root/$lib/libcrewelmarsh.so.$version"
ln -sf "libcrewelmarsh.so.$version" "$root/$lib/libcrewelmarsh.so.$major"
ln -sf "libcrewelmarsh.so.$major" "$root/$lib/libcrewelmarsh.so"
fill crewelmarsh.pc "$root/$lib/pkgconfig"
fill crewelmarshConfig.cmake "$root/$lib/cmake/crewelmarsh"
fill crewelmarshConfigVersion.cmake "$root/$lib/cmake/crewelmarsh"

# The book (tools/book.mk). What is wrong with it is said, and stops nothing: the gate holds its map.
book=$root/share/doc/crewelmarsh/book
rm -rf "$book"
if command -v python3 >/dev/null; then
    python3 -B -X utf8 tools/book/book.py "$book" >/dev/null || :
else
    echo 'install: the book is left out, since there is no python3 here'
fi
