#!/usr/bin/env bash
# As a C programmer meets the library: installed below a prefix, the README's examples built by pkg-config and run, margin run by its name,
# its man page read; then everything taken away.
set -eu
cd "$(dirname "$0")/.."
prefix=$(mktemp -d)
trap 'rm -rf "$prefix"' EXIT
make -s install PREFIX="$prefix"

# the examples, each in a file of its own
awk -v at="$prefix/example_" '/^```c$/ { n++; file = at n ".c"; next } /^```$/ { file = "" } file { print >file }' README.md
export PKG_CONFIG_PATH="$prefix/lib/pkgconfig"
for example in "$prefix"/example_[1234].c; do
    gcc -Wall -Wextra -Werror "$example" $(pkg-config --cflags --libs lembikat) -o "${example%.c}"
done
"$prefix/example_1" | diff - <(echo 'settled as E0 after 1 sweep')
"$prefix/example_2" | diff - <(printf 'not told: 00 after 1 sweep\ntold: F8 after 1 sweep\n')
"$prefix/example_3" | diff - <(
    printf 'sweep %u: %u unsatisfied\n' 0 4 1 3 2 0
    echo 'bit 4 set, sweep 0: 2 unsatisfied'
)
"$prefix/example_4" | diff - <(printf '07 gives 0F, 1 changed\nC0 gives C0, 0 changed\n')

printf '\002\001\000\003\002\001\000\003\000\001\000\001\000\000\000\001' | "$prefix/bin/margin" |
    diff - <(printf 'n 1 1 d 2 2 k 1 1 distance 2 2 spread 0\n0 1\nbeyond 1\n')
[ -s "$prefix/share/man/man1/margin.1" ]

rm "$prefix"/example_*
make -s uninstall PREFIX="$prefix"
left=$(find "$prefix" -type f)
[ -z "$left" ] || { echo "left behind: $left"; exit 1; }
