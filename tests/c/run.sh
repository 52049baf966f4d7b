#!/bin/sh
# Builds the archive if it is missing or older than the code, links smoke.c against it and runs it. CC names the compiler, gcc by default.
set -eu
cd "$(dirname "$0")/../.."
archive=target/staticlib/libexports.a
mkdir -p target/c
if [ ! -f "$archive" ] || [ -n "$(find crates -name '*.rt' -newer "$archive")" ]; then
    tools/build archive >target/c/staticlib.log 2>&1 || { cat target/c/staticlib.log >&2; exit 1; }
fi
"${CC:-gcc}" -std=c99 -O2 -Wall -Wextra -Werror -Iinclude tests/c/smoke.c "$archive" -o target/c/smoke
target/c/smoke
