#!/bin/sh
# native.sh OBJECT: the archive's module compiled for this machine, where that is not x86-64. For measuring alone: what a codec links is the
# archive. The same bits come out, since no fused operation is formed; a struct of four numbers comes back through an ordinary first
# pointer argument.
set -e
object=$1
place=$(dirname "$object")/native
oracle/module.sh "$place" crewelmarsh_c
oracle/compile.sh "$place/module.ll" "$object"
