#!/bin/sh
# Compiles the sources into the objects beside them, which were made by Debian's clang 14.
set -eu
cd -- "$(dirname -- "$0")"

compile() {
    ${CC:-clang} --target="${target:-wasm32}" -O1 -mcpu=mvp "$@"
}

for source in *.c *.cc; do
    made=${source%.*}.o
    case $source in
        coverage.c) compile -fprofile-instr-generate -c "$source" -o "$made" ;;
        exceptions.cc) compile -fwasm-exceptions -mexception-handling -c "$source" -o "$made" ;;
        threads.c) compile -matomics -mbulk-memory -ftls-model=local-exec -c "$source" -o "$made" ;;
        variables.c) compile -fdata-sections -c "$source" -o "$made" ;;
        vtable*.cc) compile -fno-exceptions -fno-rtti -c "$source" -o "$made" ;;
        *) compile -c "$source" -o "$made" ;;
    esac
done
target=wasm32-unknown-emscripten compile -c names.c -o emscripten_names.o
