#!/bin/sh
# fetch.sh FOLDER: Debian's libopenjp2-7-dev for amd64, with its static library, unpacked into FOLDER. apt works in a folder of its own, with the
# machine's sources and keys: nothing is installed, and no root is needed. Run by 'make openjpeg'.
set -eu
for tool in apt-get dpkg; do
    command -v $tool >/dev/null || { echo "openjpeg: there is no $tool here; put OpenJPEG's header and library where examples/spectral/openjpeg.sh looks" >&2; exit 1; }
done
name=$1
mkdir -p "$name"
folder=$(cd "$name" && pwd)
apt=$folder/apt
rm -rf "$apt"
mkdir -p "$apt/lists/partial" "$apt/cache/archives/partial"
set -- -qq -o APT::Architecture=amd64 -o APT::Architectures=amd64 -o APT::Sandbox::User="$(id -un)" -o Dir::State="$apt" -o Dir::State::Lists="$apt/lists" \
    -o Dir::State::status=/dev/null -o Dir::Cache="$apt/cache"
apt-get "$@" update
cd "$apt"
apt-get "$@" download libopenjp2-7-dev
for package in libopenjp2-7-dev_*_amd64.deb; do
    dpkg -x "$package" "$folder"
    echo "openjpeg: $package is in $name"
done
rm -rf "$apt"
