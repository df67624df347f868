#!/bin/sh
# module.sh FOLDER CRATE: the module that the kit's clang compiles at -O3 for that crate, as text, into FOLDER/module.ll. For measuring alone.
set -e
place=$1 crate=$2
toolchain=$(dirname "$(rt doc)")/toolchain
clang=$toolchain/bin/clang
rm -rf "$place"
mkdir -p "$place/toolchain/bin"
place=$(cd "$place" && pwd)

# The toolchain by links, but for its clang, which keeps the module that it is handed.
ln -s "$toolchain/lib" "$place/toolchain/lib"
for file in "$toolchain"/bin/*; do
    [ "$(basename "$file")" = clang ] || ln -s "$file" "$place/toolchain/bin/"
done
cat >"$place/toolchain/bin/clang" <<WRAPPER
#!/bin/sh
case " \$* " in *" -O3 "*)
    for word; do
        case \$word in *.bc) cp "\$word" "$place/module.bc" ;; esac
    done ;;
esac
exec "$clang" "\$@"
WRAPPER
chmod +x "$place/toolchain/bin/clang"

# What the crate uses is proved and built first, where it has changed.
(cd "crates/$crate" && rt check) >"$place/log" 2>&1 || { cat "$place/log"; exit 1; }
sh tools/rattle.sh "$crate" build --cpu=x86-64 --toolchain "$place/toolchain" --backend llvm -o "$place/built" >"$place/log" 2>&1 || { cat "$place/log"; exit 1; }

"$clang" --no-default-config -x ir -S -emit-llvm -O0 -Xclang -disable-llvm-passes "$place/module.bc" -o "$place/module.ll"
