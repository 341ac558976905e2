#!/bin/sh
# Builds the static library and the example, runs it, and compares what it prints. Needs the Rattle kit and a C compiler.
set -eu
top=$(cd "$(dirname "$0")/../.." && pwd)
out=$(mktemp -d)
trap 'rm -rf "$out"' EXIT
[ -f "$top/target/staticlib/libringmatch.a" ] || "$top/tools/archive"
${CC:-cc} -std=c99 -Wall -Wextra -Werror -pedantic -I "$top/include" "$top/examples/c/patterns.c" \
    "$top/target/staticlib/libringmatch.a" -o "$out/patterns"
"$out/patterns" > "$out/printed"
diff "$top/examples/c/expected" "$out/printed"
echo "examples/c: as expected"
