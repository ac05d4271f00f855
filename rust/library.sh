#!/bin/sh
# Proves and builds the static library of the eight calls, target/staticlib/libkennelday.a.
set -eu
cd "$(dirname "$0")/.." || exit 1
(cd crates/kennelday_c && rt lib)
mkdir -p target/staticlib
cp crates/kennelday_c/out/libkennelday_c.a target/staticlib/libkennelday.a
