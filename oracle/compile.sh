#!/bin/sh
# compile.sh MODULE OBJECT: a module of the kit's, as text, compiled for this machine by the kit's clang. For measuring alone.
set -e
module=$1 object=$2
machine=${MACHINE:-$(uname -m)}
clang=$(dirname "$(rt doc)")/toolchain/bin/clang
if [ "$machine" != x86_64 ]; then
    layout='e-m:e-p270:32:32-p271:32:32-p272:64:64-i8:8:32-i16:16:32-i64:64-i128:128-n32:64-S128-Fn32'
    sed -i -e "s/^target datalayout = .*/target datalayout = \"$layout\"/" \
        -e "s/^target triple = .*/target triple = \"$machine-unknown-linux-gnu\"/" \
        -e 's/"target-cpu"="x86-64"//' -e 's/"target-features"="[^"]*"//' \
        -e 's/ byval(\[[0-9]* x i8\]) align 8 / /' "$module" # a struct by value is a pointer to a copy there
fi
"$clang" --no-default-config --target="$machine-unknown-linux-gnu" -O3 -ffp-contract=off -fPIC -c -x ir "$module" -o "$object"
