#!/usr/bin/env bash
# Builds the static library and the benchmark, and prints its tables: bench/run.sh [RUNS]. It wants rt, rustc and a linker.
set -euo pipefail
cd "$(dirname "$0")/.."
out=$(mktemp -d)
trap 'rm -rf "$out"' EXIT
(cd crates/gombultsei && rt lib) >"$out/log" 2>&1 || { cat "$out/log" >&2; exit 1; }
rustc --edition 2024 -O -C codegen-units=1 -C target-cpu=x86-64-v2 bench/main.rs -o "$out/bench" -L native=crates/gombultsei/out -l static=gombultsei
"$out/bench" "$@"
