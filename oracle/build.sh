#!/bin/sh
# Usage: build.sh SRC   SRC: a checkout of yavs at 1476c939e3
# Builds target/release/oracle (overflow wraps) and target/checked/oracle (overflow panics), in CARGO_TARGET_DIR where it is set,
# then shows that the copies differ from the sources only as README.md says.
set -e
[ $# -eq 1 ] || { echo "usage: $0 SRC (a checkout of yavs at 1476c939e3)" >&2; exit 2; }
here=$(cd "$(dirname "$0")" && pwd)
ORACLE_SRC=$(cd "$1" && pwd); export ORACLE_SRC
cd "$here"
out=${CARGO_TARGET_DIR:-target}
cargo build -j1 --offline --release
cargo build -j1 --offline --profile checked
for f in yavs-interp/src/heap yavs-interp/src/roots yavs-ir/src/ty; do
  for p in release checked; do
    for c in "$out/$p"/build/*/out/"$(basename $f)".rs; do
      echo "== $(basename $f).rs ($p) against the source:"; diff "$ORACLE_SRC/crates/$f.rs" "$c" && echo identical || true
    done
  done
done
