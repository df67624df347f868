#!/bin/sh
# install.sh VERSION NAME..: 'make install' and 'make release' in a scratch folder, then what a C codec would do with them: gcc and g++ by
# pkg-config, cmake, the archive and the shared library, and headers that don't fit. NAME.. are the entries' names in the libraries.
# Run by 'make install-test'. Needs gcc for x86-64 (GCC, GXX are other names of it and of g++, RUNNER what its programs run under elsewhere); says what it
# didn't try where g++, pkg-config, cmake or nm is missing. AGAIN=0 leaves away that the archive is built anew in another folder. Status 1 on a failure.
set -u

version=$1
shift
major=${version%%.*}
other=$((major + 1))
make=${MAKE:-make}
archive=${ARCHIVE:-dist/libcrewelmarsh.a}
gcc=${GCC:-gcc} gxx=${GXX:-g++} run=${RUNNER:-}
export CC="$gcc"
scratch=$(mktemp -d)
trap 'rm -rf "$scratch"' EXIT
checks=0 failed=0 untried=

# check WHAT COMMAND..: one check; what the command wrote is shown where it fails.
check() {
    what=$1
    shift
    checks=$((checks + 1))
    if ! "$@" >"$scratch/said" 2>&1; then
        failed=$((failed + 1))
        echo "FAILED: $what"
        sed 's/^/    /' "$scratch/said"
    fi
}
# refused WHAT WORDS COMMAND..: the command must fail, and say these words.
refused() {
    what=$1 words=$2
    shift 2
    checks=$((checks + 1))
    if "$@" >"$scratch/said" 2>&1 || ! grep -q "$words" "$scratch/said"; then
        failed=$((failed + 1))
        echo "FAILED: $what: was not refused with '$words'"
        sed 's/^/    /' "$scratch/said"
    fi
}
# have TOOL WHAT: whether the tool is there; else what is not tried without it.
have() {
    command -v "$1" >/dev/null && return
    echo "no $1 here: $2 was not tried"
    untried="$untried $1"
    return 1
}
same() { [ "$1" = "$2" ] || { printf 'found:  %s\nwanted: %s\n' "$1" "$2"; return 1; }; }
files() { (cd "$1" && find . ! -type d | LC_ALL=C sort | sed 's|^\./||' | tr '\n' ' '); }
quietly() { "$@" >"$scratch/quiet" 2>&1 && [ ! -s "$scratch/quiet" ] || { cat "$scratch/quiet"; return 1; }; }

case $("$gcc" -dumpmachine 2>/dev/null) in
    x86_64*linux*) ;;
    *)
        echo "install: not tried, since $gcc is no gcc for x86-64 here"
        exit 1
        ;;
esac

# ---- what is installed

lib=lib/x86_64-linux-gnu
book=
if have python3 'the book'; then
    check 'make book' "$make" -s book
    book=$(files build/book | sed 's|[^ ][^ ]*|share/doc/crewelmarsh/book/&|g')
fi
check 'make install' "$make" -s install PREFIX="$scratch/prefix" ARCHIVE="$archive"
check 'make install DESTDIR LIB' "$make" -s install DESTDIR="$scratch/stage" PREFIX=/usr LIB=$lib ARCHIVE="$archive"
docs=share/doc/crewelmarsh
papers=$(for file in LICENSE NOTICE docs/* examples/*.c; do [ ! -f "$file" ] || echo "$docs/${file#docs/}"; done | LC_ALL=C sort | tr '\n' ' ')
check 'files' same "$(files "$scratch/prefix")" "include/crewelmarsh.h lib/cmake/crewelmarsh/crewelmarshConfig.cmake \
lib/cmake/crewelmarsh/crewelmarshConfigVersion.cmake lib/libcrewelmarsh.a lib/libcrewelmarsh.so lib/libcrewelmarsh.so.$major \
lib/libcrewelmarsh.so.$version lib/pkgconfig/crewelmarsh.pc $(echo "$papers $book" | tr ' ' '\n' | sed '/^$/d' | LC_ALL=C sort | tr '\n' ' ')"
check 'files of DESTDIR' same "$(files "$scratch/stage/usr")" \
    "$(files "$scratch/prefix" | sed "s|\([ ^]\)lib/|\1$lib/|g")"
[ -z "$book" ] || check 'the book that make book writes' diff -r build/book "$scratch/prefix/share/doc/crewelmarsh/book"
check 'DESTDIR stands in no file' same "$(grep -rl "$scratch" "$scratch/stage")" ''
for file in include/crewelmarsh.h LICENSE NOTICE docs/C.md; do
    check "$file" cmp "$file" "$(find "$scratch/prefix" -name "$(basename "$file")")"
done

# ---- what the installed files point to

# cited FILE: the documents and files that it names, and the targets of its links.
cited() {
    awk '{
        line = $0
        while (match(line, /\]\([A-Za-z0-9_.\/-]+\)/)) { print "beside " substr(line, RSTART + 2, RLENGTH - 3); line = substr(line, RSTART + RLENGTH) }
        line = $0
        while (match(line, /[A-Za-z0-9_.\/-]+/)) {
            word = substr(line, RSTART, RLENGTH); line = substr(line, RSTART + RLENGTH)
            sub(/[.\/-]+$/, "", word)
            if (word ~ /^docs\/landings/) print "repository docs/landings"
            else if (word ~ /^docs\/./) print "beside " substr(word, 6)
            else if (word ~ /^examples\/./) print "beside " word
            else if (word ~ /^share\/doc\/crewelmarsh\/./) print "beside " substr(word, 23)
            else if (word ~ /^(README|CONTRIBUTING)\.md$/) print "repository " word
            else if (word ~ /^[A-Z]+\.md$/) print "beside " word
            else if (word ~ /^(crates|tests|tools|oracle|include)\/./) print "repository " word
        }
    }' "$1" | LC_ALL=C sort -u
}
# points FILE: each of them is installed with it, or stands in the repository, of which docs/C.md says what it is.
points() {
    cited "$1" | {
        lost=0
        while read -r where what; do
            case $where in
                beside) [ -e "$scratch/prefix/$docs/$what" ] || [ "$what" = BUILT-FROM ] || { echo "$what is not installed"; lost=1; } ;;
                *) [ -e "$what" ] || { echo "$what is not in the repository"; lost=1; } ;;
            esac
        done
        [ $lost = 0 ]
    }
}
for file in include/crewelmarsh.h $papers; do
    check "$file points to what is there" points "$scratch/prefix/$file"
done
printf 'See docs/NOWHERE.md, and tests/nowhere.c.\n' >"$scratch/nowhere"
refused 'a document that is not there' 'NOWHERE.md is not installed' points "$scratch/nowhere"

# ---- a PREFIX that no makefile can say: refused, and nothing written

mkdir "$scratch/odd"
for odd in 'a b' "a'b" 'a"b' 'a|b' 'a&b' 'a#b'; do
    refused "PREFIX with $odd" 'Nothing was written' "$make" -s install PREFIX="$scratch/odd/$odd" ARCHIVE="$archive"
    refused "DESTDIR with $odd" 'Nothing was written' "$make" -s install DESTDIR="$scratch/odd/$odd" PREFIX=/usr ARCHIVE="$archive"
    refused "LIB with $odd" 'Nothing was written' "$make" -s install PREFIX="$scratch/odd/p" LIB="$odd" ARCHIVE="$archive"
done
check 'nothing was written' same "$(files "$scratch/odd")" ''

# ---- programs: one that uses everything, one that uses nothing, and one for each entry

mkdir "$scratch/other"
cat >"$scratch/two.c" <<'END'
#include <stdio.h>
#include <string.h>
#include "crewelmarsh.h"

int main(void)
{
    double matrix[4] = {2, 0, 0, 4}, work[CREWELMARSH_SVD_WORK_LEN(2, 2)];
    double result[CREWELMARSH_SVD_RESULT_LEN(2, 2, 1, 1)], inverse[4];
    struct crewelmarsh_answer a = crewelmarsh_svd(2, 2, 1, 1, 60, matrix, 4, work, 10, result, 10);
    struct crewelmarsh_part row = crewelmarsh_vt_row(2, 2, 1, 1, result, 10, 1);
    if (a.answer != CREWELMARSH_DONE || row.length != 2 || row.start != result + 8)
        return 1;
    a = crewelmarsh_pseudo_inverse(2, 2, 1, 1, 0, result, 10, inverse, 4);
    printf("%s %s %g %g\n", CREWELMARSH_VERSION, crewelmarsh_text(a.answer), inverse[0], inverse[3]);
    return 0;
}
END
said="$version done 0.5 0.25"
cat >"$scratch/nothing.c" <<'END'
#include "crewelmarsh.h"
int main(void) { return 0; }
END
sed "s/define CREWELMARSH_VERSION_MAJOR $major\$/define CREWELMARSH_VERSION_MAJOR $other/" \
    include/crewelmarsh.h >"$scratch/other/crewelmarsh.h"
check 'a header of another major' same "$(cmp include/crewelmarsh.h "$scratch/other/crewelmarsh.h" >/dev/null; echo $?)" 1
# Each entry by a call of its own, compiled with a header of the next major version.
call() { printf '#include "crewelmarsh.h"\nint main(void) { return crewelmarsh_%s%s%s != 0; }\n' "$1" "$2" "${3:+.$3}" >"$scratch/crewelmarsh_$1.c"; }
call symmetric_eigen '(0, 60, 1, NULL, 0, NULL, 0, NULL, 0)' answer
call eigen_start '(0, 60, 1, NULL, 0, NULL, 0, NULL, 0)' answer.answer
call eigen_step '(crewelmarsh_eigen_start(0, 60, 1, NULL, 0, NULL, 0, NULL, 0), NULL, 0, NULL, 0)' answer.answer
call eigen_finish '(crewelmarsh_eigen_start(0, 60, 1, NULL, 0, NULL, 0, NULL, 0), NULL, 0, NULL, 0)' answer.answer
call lanczos '(0, 0, 60, 1, NULL, 0, NULL, 0, NULL, 0, NULL, 0)' place
call leading '(0, 0, NULL, 0, NULL, 0)' answer
call svd '(0, 0, 1, 1, 60, NULL, 0, NULL, 0, NULL, 0)' answer
call vt_row_extent '(0, 0, 1, 1, 0, 0)' length
call solve '(0, 0, 1, 1, 0, NULL, 0, NULL, 0, NULL, 0)' answer
call pseudo_inverse '(0, 0, 1, 1, 0, NULL, 0, NULL, 0)' answer
call qr_q '(0, 0, NULL, 0, NULL, 0)' answer
call block_check '(NULL, 0)' rows
call block_find '(NULL, 0, NULL, 0, 1)' block
call block_copy '(NULL, 0, NULL, 0, 1, NULL, 0)' answer
call block_length '(257, 0, 0, 0, 0, 0)'
call block_write '(0, 0, 0, 0, NULL, 0, 0, NULL, 0, 0, NULL, 0, NULL, 0)' place
call covariance '(0, 1, NULL, 0, NULL, 0)' answer
call sums '(0, 1, NULL, 0, NULL, 0)' answer
call store_setup '(0, 0, NULL, 0, NULL, 0, NULL, 0)' answer
call store_put '(0, NULL, 0, NULL, 0, NULL, 0, 1, NULL, 0)' answer
call store_length '(0, NULL, 0, NULL, 0, NULL, 0, 1)' count
call store_fetch '(0, NULL, 0, NULL, 0, NULL, 0, 1, NULL, 0)' answer
call store_drop '(0, NULL, 0, NULL, 0, NULL, 0, 1)' answer
call store_reset '(NULL, 0, NULL, 0, NULL, 0)' answer
call tally_add '(NULL, 0, 0)'

warn='-Wall -Wextra -Wpedantic -Werror'
a=$scratch/prefix/lib/libcrewelmarsh.a
so=$scratch/prefix/lib/libcrewelmarsh.so

# compilers: each with its languages
try() { # try COMPILER STANDARD..
    cc=$1
    shift
    language=c strict='-Wconversion -Wsign-conversion -Wlogical-op -Wshadow -Wundef -Wc++-compat'
    [ "$cc" = "$gxx" ] && language=c++ strict='-Wconversion -Wsign-conversion -Wlogical-op -Wshadow -Wundef -Wold-style-cast -Wuseless-cast'
    for std; do
        for level in -O0 -O2; do
            flags="-x $language -std=$std $level $warn"
            # shellcheck disable=SC2086 # flags are words
            check "$cc $std $level: header alone, no library" \
                quietly $cc $flags $strict -I"$scratch/prefix/include" "$scratch/nothing.c" -o "$scratch/nothing"
            for library in "$a" "$so"; do
                # shellcheck disable=SC2086
                check "$cc $std $level: $(basename "$library")" \
                    quietly $cc $flags -I"$scratch/prefix/include" "$scratch/two.c" -x none "$library" -o "$scratch/two"
                check "$cc $std $level: run with $(basename "$library")" \
                    same "$(LD_LIBRARY_PATH=$scratch/prefix/lib $run "$scratch/two")" "$said"
                for name in $names; do
                    # shellcheck disable=SC2086
                    refused "$cc $std $level: $name of major $other with $(basename "$library")" "${name%_abi*}_abi$other" \
                        $cc $flags -I"$scratch/other" "$scratch/${name%_abi*}.c" -x none "$library" -o "$scratch/never"
                done
            done
        done
    done
}
names=$*
try "$gcc" c99 c11
have "$gxx" 'C++' && try "$gxx" c++98 c++17

# ---- what docs/C.md shows, as it is typed there

# block LANGUAGE FILE: the first text of that language in it.
block() { awk -v head="\`\`\`$1" '$0 == head { on = 1; next } on && /^```/ { exit } on' "$2"; }
shown=$scratch/prefix/$docs/C.md
mkdir "$scratch/typed"
block c "$shown" >"$scratch/typed/two.c"
block cmake "$shown" >"$scratch/typed/CMakeLists.txt"
writes=$(awk '$0 == "$ ./two" { on = 1; next } on && /^```/ { exit } on' "$shown")
check "the program of docs/C.md" quietly "$gcc" -std=c99 -Wall -Wextra -I"$scratch/prefix/include" "$scratch/typed/two.c" "$a" -o "$scratch/typed/two"
check 'what it writes' same "$($run "$scratch/typed/two")" "$writes"
check 'the program of README.md is the same' same "$(block c README.md)" "$(block c docs/C.md)"

# ---- the example over OpenJPEG (examples/spectral)

if flags=$(sh examples/spectral/openjpeg.sh "$gcc"); then
    for library in "$a" "$so"; do
        # shellcheck disable=SC2086 # flags are words
        check "examples/spectral: $(basename "$library")" quietly "$gcc" -std=c99 -O2 -ffp-contract=off $warn -I"$scratch/prefix/include" \
            examples/spectral/*.c "$library" $flags -lm -o "$scratch/spectral"
        check "examples/spectral: run with $(basename "$library")" \
            same "$(LD_LIBRARY_PATH=$scratch/prefix/lib $run "$scratch/spectral" -b 8 -s 64 -d "$scratch" | grep -cx '  good')" 3
    done
else
    untried="$untried libopenjp2-7-dev"
fi

# ---- the shared library

if have nm 'which names the shared library has' && have readelf 'its soname'; then
    check 'names of the shared library' same "$(nm -D --defined-only "$so" | sed 's/.* //' | LC_ALL=C sort)" \
        "$(printf '%s\n' "$@" | LC_ALL=C sort)"
    check 'soname' same "$(readelf -d "$so" | sed -n 's/.*(SONAME).*\[\(.*\)\]/\1/p')" "libcrewelmarsh.so.$major"
    check 'what two needs' same "$(readelf -d "$scratch/two" | grep -c "\[libcrewelmarsh.so.$major\]")" 1
fi

# ---- pkg-config

if have pkg-config 'crewelmarsh.pc'; then
    PKG_CONFIG_PATH=$scratch/prefix/lib/pkgconfig
    export PKG_CONFIG_PATH
    check 'its version' same "$(pkg-config --modversion crewelmarsh)" "$version"
    # shellcheck disable=SC2046
    check 'gcc by pkg-config' quietly "$gcc" "$scratch/two.c" $(pkg-config --cflags --libs crewelmarsh) -o "$scratch/two"
    check 'run by pkg-config' same "$(LD_LIBRARY_PATH=$scratch/prefix/lib $run "$scratch/two")" "$said"
    # shellcheck disable=SC2046
    check 'gcc by pkg-config, the archive' quietly "$gcc" "$scratch/two.c" $(pkg-config --cflags crewelmarsh) \
        $(pkg-config --libs-only-L crewelmarsh) -l:libcrewelmarsh.a -o "$scratch/two"
    check 'run by pkg-config, the archive' same "$($run "$scratch/two")" "$said"
fi

# ---- cmake

# project NAME VERSION PREFIX: configures and builds a project of its own that asks for that version.
project() {
    mkdir -p "$scratch/$1"
    cp "$scratch/two.c" "$scratch/$1/"
    cat >"$scratch/$1/CMakeLists.txt" <<END
cmake_minimum_required(VERSION 3.10)
project(two C)
find_package(crewelmarsh $2 REQUIRED)
add_executable(two two.c)
target_link_libraries(two crewelmarsh::crewelmarsh)
add_executable(two_shared two.c)
target_link_libraries(two_shared crewelmarsh::shared)
END
    cmake -S "$scratch/$1" -B "$scratch/$1/build" -DCMAKE_PREFIX_PATH="$3" && cmake --build "$scratch/$1/build"
}
if have cmake 'the CMake package'; then
    check 'cmake' project fits "$major" "$scratch/prefix"
    check 'cmake, the archive' same "$($run "$scratch/fits/build/two")" "$said"
    check 'cmake, the shared library' same "$($run "$scratch/fits/build/two_shared")" "$said"
    check 'cmake, the project of docs/C.md' sh -c "cmake -S '$scratch/typed' -B '$scratch/typed/out' -DCMAKE_PREFIX_PATH='$scratch/prefix' && cmake --build '$scratch/typed/out'"
    check 'what it writes' same "$($run "$scratch/typed/out/two")" "$writes"
    check 'cmake, exact version' project exact "$version EXACT" "$scratch/prefix"
    check 'cmake, libraries further down' project down "$major.0" "$scratch/stage/usr"
    refused 'cmake, another machine' 'are for x86-64 Linux' env CFLAGS=-U__x86_64__ sh -c "$(command -v cmake) -S '$scratch/fits' -B '$scratch/elsewhere' -DCMAKE_PREFIX_PATH='$scratch/prefix'"
    refused 'cmake, another major' 'compatible with requested version' project another "$other" "$scratch/prefix"
    refused 'cmake, a later minor' 'compatible with requested version' project later "$major.99" "$scratch/prefix"
fi

# ---- the release

check 'make release' "$make" -s release ARCHIVE="$archive"
tar=$(dirname "$archive")/crewelmarsh-$version-x86_64-linux.tar
cp "$tar" "$scratch/first.tar"
check 'make release again' "$make" -s release ARCHIVE="$archive"
check 'the same bytes' cmp "$tar" "$scratch/first.tar"
mkdir "$scratch/release"
check 'unpack' tar -xf "$tar" -C "$scratch/release"
release=$scratch/release/crewelmarsh-$version-x86_64-linux
check 'checksums' sh -c "cd '$release' && sha256sum -c SHA256SUMS"
check 'every file has one' same "$(cd "$release" && find . -type f ! -name SHA256SUMS | wc -l)" "$(wc -l <"$release/SHA256SUMS")"
check 'what is installed is in it' same "$(cd "$scratch/prefix" && find . ! -type d ! -name '*.pc' -exec sh -c 'cmp "$1" "$2/$1"' - {} "$release" \;)" ''
check 'BUILT-FROM' grep -q "crewelmarsh $version" "$release/share/doc/crewelmarsh/BUILT-FROM"
if command -v pkg-config >/dev/null; then
    PKG_CONFIG_PATH=$release/lib/pkgconfig
    # shellcheck disable=SC2046
    check 'gcc by the release' quietly "$gcc" "$scratch/two.c" $(pkg-config --cflags --libs crewelmarsh) -o "$scratch/two"
    check 'run by the release' same "$(LD_LIBRARY_PATH=$release/lib $run "$scratch/two")" "$said"
fi

# ---- the archive from another folder

if [ "${AGAIN:-}" = 0 ] || [ "$archive" != dist/libcrewelmarsh.a ]; then
    untried="$untried archive-again"
elif have "${RT:-rt}" 'the archive from another folder'; then
    check 'the archive from another folder' "$make" -s archive-again
fi

echo "install: $checks checks, $failed failed${untried:+; not tried:$untried}"
[ "$failed" = 0 ]
