#!/bin/sh
# Compiles the source into the object beside it, which was made by Debian's rustc 1.63. It needs Rust's library for the
# target wasm32-unknown-unknown.
set -eu
cd -- "$(dirname -- "$0")"

${RUSTC:-rustc} --edition=2021 --crate-type=lib --target=wasm32-unknown-unknown -O -C panic=abort \
    -C codegen-units=1 --emit=obj -o counter.o counter.rs
