#!/bin/sh
# A program outside of the repository over what was installed: compiled and linked as pkg-config tells, and again with the archive.
#     installed.sh COMPILER PREFIX PROGRAM.c EXPECTED
set -e
compiler=$1 prefix=$2 program=$3 expected=$4

outside=$(mktemp -d)
trap 'rm -rf "$outside"' EXIT
cp "$program" "$outside/program.c"
cd "$outside"

if command -v pkg-config > /dev/null; then
    export PKG_CONFIG_PATH="$prefix/lib/pkgconfig"
    compile=$(pkg-config --cflags keshtiwol)
    link=$(pkg-config --libs keshtiwol)
else
    echo 'installed: no pkg-config here, so the flags are those of keshtiwol.pc by hand'
    compile=-I$prefix/include
    link="-L$prefix/lib -lkeshtiwol"
fi

$compiler $compile program.c $link -o with-shared-library
LD_LIBRARY_PATH=$prefix/lib ./with-shared-library > said.txt
diff "$expected" said.txt

$compiler $compile program.c "$prefix/lib/libkeshtiwol.a" -o with-archive
./with-archive > said.txt
diff "$expected" said.txt
