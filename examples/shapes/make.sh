#!/bin/sh
# Compiles both sources into the objects beside them, which were made by Debian's clang 14.
set -eu
cd -- "$(dirname -- "$0")"

for source in *.cc; do
    ${CXX:-clang++} --target=wasm32 -O1 -mcpu=mvp -fno-exceptions -fno-rtti -c "$source" -o "${source%.cc}.o"
done
