#!/bin/sh
# Compiles both sources into the objects beside them, which were made by Debian's clang 14.
set -eu
cd -- "$(dirname -- "$0")"

for source in *.c; do
    ${CC:-clang} --target=wasm32 -O1 -mcpu=mvp -c "$source" -o "${source%.c}.o"
done
