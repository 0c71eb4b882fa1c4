#!/usr/bin/env bash
# linked.sh CRATE ARCHIVE: builds reference/CRATE over a static library of the first implementation, to compare what it exports with the
# reference: reference/target/CRATE/release/compare-CRATE.
set -eu
cd "$(dirname "$0")/.."
rm -f "reference/target/$1/release/compare-$1"
ARCHIVE=$PWD/$2 cargo build --quiet --release --offline --manifest-path "reference/$1/Cargo.toml" --target-dir "reference/target/$1"
