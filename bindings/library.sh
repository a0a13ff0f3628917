#!/usr/bin/env bash
# Writes the reader as a static library for C and Rust, target/staticlib/libexports.a: crate exports_c, proved and built by `rt lib`.
set -eu
cd "$(dirname "$0")/.."
(cd crates/exports_c && rt lib)
mkdir -p target/staticlib
cp crates/exports_c/out/libexports_c.a target/staticlib/libexports.a
echo "wrote target/staticlib/libexports.a"
