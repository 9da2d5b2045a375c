#!/usr/bin/env bash
# Proves and builds the static library, plays the worked example from C, and runs the tests of the Rust package.
set -eu
cd "$(dirname "$0")/.."
log=$(mktemp)
work=$(mktemp -d)
trap 'rm -rf "$log" "$work"' EXIT
(cd crates/settle_c && rt lib >"$log" 2>&1) || { cat "$log"; exit 1; }
kit=$(dirname "$(dirname "$(readlink -f "$(command -v rt)")")")
gcc -std=c99 -Wall -Wextra -Wpedantic -Werror -o "$work/worked" bindings/c/worked.c crates/settle_c/out/libsettle_c.a "$kit/c/liblibc_c.a"
"$work/worked"
cargo test --offline --quiet --manifest-path bindings/rust/Cargo.toml
