#!/usr/bin/env bash
# The compiled operations against an independent reference of the rules: differential.sh [CASES [SEED [FIRST CASE [MACHINE]]]], with
# MACHINE x86_64, aarch64 or wasm32, and this machine where none is named.
# The reference is this machine's own code, and speaks over pipes with tests/driver.c, which may be emulated, or with tests/driver.mjs.
set -eu
cd "$(dirname "$0")/.."
. bin/tools.sh
aimed=${4:-$machine} made=target/tests/${4:-$machine}
aim_at "$aimed"
if ! tools $cc $emulator rustc cc; then
  echo "differential, $aimed: not run on this machine: $lacks"
  exit 0
fi
make_archives $archive
mkdir -p "$made"
if [ "$aimed" = wasm32 ]; then
  driver="node tests/driver.mjs $archive"
else
  $cc -std=c99 -Wall -Wextra -O2 -o "$made/driver" tests/driver.c $archive
  driver="$emulator $made/driver"
fi
rustc --edition 2021 -O -D warnings -o "$made/differential" tests/differential/main.rs
echo "differential, $aimed:"
exec "$made/differential" "${1:-450000}" "${2:-1}" "${3:-0}" $driver
