#!/usr/bin/env bash
# The header is complete by itself, in C and in C++, and gives no warning where none of its inline calls is used. Its version is the one of
# lembikat.pc.in, and its names have the numbers of its table of refusals.
set -eu
cd "$(dirname "$0")/.."
made=$(mktemp -d)
trap 'rm -rf "$made"' EXIT
c="gcc -std=c99 -Wall -Wextra -Wpedantic -Werror -Iinclude"
cpp="g++ -std=c++11 -Wall -Wextra -Wpedantic -Werror -Iinclude"
echo '#include "lembikat.h"' | $c -fsyntax-only -x c -
echo '#include "lembikat.h"' | $cpp -fsyntax-only -x c++ -

# what tests/header.c must print: a version of two numbers has the third one 0
version=$(sed -n 's/^Version: //p' lembikat.pc.in)
IFS=. read -r major minor patch <<<"$version"
{
    echo "version $version, numbers $major $minor ${patch:-0}"
    echo "0 LEMBIKAT_DONE"
    sed -n 's/^ \* *\([0-9]*\)  \(LEMBIKAT_[A-Z_]*\)  .*/\1 \2/p' include/lembikat.h | sort -n
} >"$made/expected"
$c tests/header.c -o "$made/in_c"
$cpp -x c++ tests/header.c -o "$made/in_cpp"
"$made/in_c" | diff "$made/expected" -
"$made/in_cpp" | diff "$made/expected" -
