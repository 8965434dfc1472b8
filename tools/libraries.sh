#!/usr/bin/env bash
# Proves and builds the static libraries of the builder, for tests and measurements written in C or Rust: target/staticlib/libNAME.a.
set -eu
cd "$(dirname "$0")/.."
mkdir -p target/staticlib
for crate in exported timed; do
  (cd "crates/$crate" && rt lib)
  cp "crates/$crate/out/lib$crate.a" target/staticlib/
done
