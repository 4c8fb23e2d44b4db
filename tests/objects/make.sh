#!/bin/sh
# Compiles each source of this folder into an object beside it. The objects that are kept here were
# made by Debian's clang 14.
set -eu
cd -- "$(dirname -- "$0")"

for source in *.c; do
    case $source in
    debug_info.c) options=-g ;;
    memory.c) options=-mbulk-memory ;;
    planned_*.c) options=-mcpu=mvp ;;
    threads_shared_library.c) options='--target=wasm32-emscripten -pthread -fPIC' ;;
    threads_*.c) options='-pthread -ftls-model=local-exec' ;;
    thread_local.c) options='-mthread-model posix -matomics -mbulk-memory -ftls-model=local-exec' ;;
    *) options= ;;
    esac
    # The options are words of their own.
    # shellcheck disable=SC2086
    ${CC:-clang} --target=wasm32 -O1 -ffile-prefix-map="$PWD"=. $options -c "$source" -o "${source%.c}.o"
done
