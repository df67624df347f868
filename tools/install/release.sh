#!/bin/sh
# release.sh NAME VERSION ARCHIVE SHARED KIT: writes NAME.tar, one folder with what 'make install' copies, what it was built
# from (BUILT-FROM) and a checksum of every file. Run at the repository's root.
set -eu

name=$1 version=$2 archive=$3 shared=$4 kit=$5
[ -n "$kit" ] || { echo 'release: no rt on the path says which kit the archive was built with' >&2; exit 1; }
folder=$(basename "$name")
stage=build/release
docs=$stage/$folder/share/doc/crewelmarsh

rm -rf "$stage" "$name.tar"
# shellcheck disable=SC2016 # pkg-config puts its file's folder in
sh tools/install/install.sh "$stage/$folder" '${pcfiledir}/../..' lib "$version" "$archive" "$shared"
{
    echo "crewelmarsh $version"
    if [ "$archive" = dist/libcrewelmarsh.a ]; then
        echo "kit: $kit"
    else
        echo "archive: $archive, which is not the proved one"
    fi
    if commit=$(git rev-parse HEAD 2>/dev/null); then
        if [ -n "$(git status --porcelain)" ]; then
            commit="$commit, with changes"
        fi
        echo "commit: $commit"
    fi
} >"$docs/BUILT-FROM"
(cd "$stage/$folder" && find . -type f | LC_ALL=C sort | xargs sha256sum >../SHA256SUMS)
mv "$stage/SHA256SUMS" "$stage/$folder/" # written outside, so that it isn't one of the files summed

# The same bytes from the same files, where tar can do that.
mkdir -p "$(dirname "$name")"
if tar --version 2>/dev/null | grep -q GNU; then
    tar --sort=name --owner=0 --group=0 --numeric-owner --mode=u=rwX,go=rX --mtime=@0 -cf "$name.tar" -C "$stage" "$folder"
else
    tar -cf "$name.tar" -C "$stage" "$folder"
fi
sed 's/^/release: /' "$docs/BUILT-FROM"
(cd "$(dirname "$name")" && sha256sum "$folder.tar")
