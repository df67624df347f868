#!/bin/sh
# openjpeg.sh COMPILER: the flags by which COMPILER, a gcc for x86-64, takes OpenJPEG: what 'make openjpeg' fetched, else what is installed.
# Where there is none, status 1 and one line that says what is missing. Run in the project's folder.
set -u
case $("$1" -dumpmachine 2>/dev/null) in
    x86_64*linux*) ;;
    *)
        echo "openjpeg: $1 is no gcc for x86-64 here; elsewhere than on x86-64 Debian's gcc-x86-64-linux-gnu is one" >&2
        exit 1
        ;;
esac
for root in build/openjpeg/usr /usr; do
    library=$root/lib/x86_64-linux-gnu/libopenjp2.a
    for header in "$root"/include/openjpeg-2.*/openjpeg.h; do
        if [ -e "$header" ] && [ -e "$library" ]; then
            echo "-isystem $(dirname "$header") $library -lpthread"
            exit
        fi
    done
done
if [ "$(uname -m)" = x86_64 ] && pkg-config --exists libopenjp2 2>/dev/null; then
    pkg-config --cflags --libs libopenjp2
    exit
fi
echo "openjpeg: Debian's libopenjp2-7-dev for amd64 is not here; install it, or 'make openjpeg' fetches it into build/" >&2
exit 1
