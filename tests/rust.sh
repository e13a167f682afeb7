#!/usr/bin/env bash
# The library against the second program: the static library is built, then the Rust workspace runs its tests against it. Its code is formatted and lint-free.
set -eu
cd "$(dirname "$0")/.."
tools/build oboefinch >/dev/null
cd rust
cargo test --release --offline --quiet
cargo fmt --check
cargo clippy --release --offline --quiet --all-targets -- -D warnings
