#!/bin/sh
# root.sh OBJECT: `root::root`, `root::side_by_side::roots`, `leaves::hypot` and `hypot::hypot2` as the toolchain compiles them, under the names `root_root`,
# `root_side_by_side_roots`, `leaves_hypot` and `hypot_hypot2`. The archive has no entry for them, so they are taken out of the module of the program `test_vectors`.
# For measuring alone.
set -e
object=$1
place=$(dirname "$object")/root-module
oracle/module.sh "$place" test_vectors
sed -i 's/^define i32 @main(/define internal i32 @main(/' "$place/module.ll"
for name in root::root root::side_by_side::roots leaves::hypot hypot::hypot2; do
    sed -i -e "s/^define internal \(.*@\"$name\"(\)/define \1/" -e "s/@\"$name\"/@$(echo $name | sed 's/::/_/g')/g" "$place/module.ll"
done
oracle/compile.sh "$place/module.ll" "$object"
