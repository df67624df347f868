#!/bin/sh
# fits.sh: whether PREFIX, DESTDIR and LIB, as the environment has them, can be written into a pkg-config file and a makefile: neither has a way to say
# a space or a quote that every program understands. Status 1 and a word if not, before anything is written.
set -eu

fits() { # NAME VALUE
    case $2 in
    *[[:space:]\"\'\`\\\$\|\&\;\<\>\(\)\*\?\[\]\{\}\!\#%]*)
        echo "install: $1 is '$2': it may have no space and none of \" ' \` \\ \$ | & ; < > ( ) * ? [ ] { } ! # %. Nothing was written" >&2
        exit 1
        ;;
    esac
}
fits PREFIX "$PREFIX"
fits DESTDIR "${DESTDIR:-}"
fits LIB "$LIB"
[ -n "$PREFIX" ] && [ -n "$LIB" ] || { echo 'install: PREFIX or LIB is empty. Nothing was written' >&2; exit 1; }
