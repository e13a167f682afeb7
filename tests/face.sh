#!/usr/bin/env bash
# The C face: a C program is built against the header and the static library, and runs sheet A.
set -eu
cd "$(dirname "$0")/.."
library=$(tools/build oboefinch)
built=$(mktemp -d)
trap 'rm -rf "$built"' EXIT
cc -std=c99 -Wall -Wextra -Werror -pedantic -Iinclude tests/face.c "$library" -o "$built/face"
"$built/face" box/listing/sheet_a.in
