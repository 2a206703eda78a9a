#!/usr/bin/env bash
# hosts.sh [PAGE..]: the programs of README.md and docs/HOSTS.md, or of the pages named, as a C programmer meets them: the library is installed
# below a prefix, each block ```c is built by pkg-config, run, and must write the block ```text that follows it, and end with 0. A program
# without such a block, a block without a program and a page without programs are faults. The first program is also linked without pkg-config.
# A thread of the page docs/HOSTS.md has 64 KiB beside the largest stack figure of the header.
set -eu
cd "$(dirname "$0")/.."
[ $# -gt 0 ] || set -- README.md docs/HOSTS.md
prefix=$(mktemp -d)
trap 'rm -rf "$prefix"' EXIT
make -s install PREFIX="$prefix"
export PKG_CONFIG_PATH="$prefix/lib/pkgconfig"
c="gcc -Wall -Wextra -Werror -pthread"

wrong=0
failed() {
    echo "wrong: $*"
    wrong=1
}

for page in "$@"; do
    # NAME_N.c and NAME_N.text; a line is printed for each fault
    at=$prefix/$(basename "$page" .md)
    faults=$(awk -v at="$at" '
        /^```/ && inside { inside = 0; close(file); next }
        /^```c$/ { if (waits) print "no output after the program at line " waits; n++; waits = NR; file = at "_" n ".c" }
        /^```text$/ { if (!waits) print "no program before the output at line " NR; waits = 0; file = at "_" n ".text" }
        /^```/ { inside = 1; if (!/^```(c|text)$/) file = "/dev/null"; printf "" >file; next }
        inside { print >file }
        END { if (waits) print "no output after the program at line " waits; if (!n) print "no program" }' "$page")
    [ -z "$faults" ] || failed "$page: $faults"
    for program in "$at"_*.c; do
        [ -e "${program%.c}.text" ] || continue
        $c "$program" $(pkg-config --cflags --libs lembikat) -o "${program%.c}" || { failed "$page: $(basename "$program")"; continue; }
        status=0
        "${program%.c}" >"${program%.c}.out" || status=$?
        [ "$status" -eq 0 ] || failed "$page: $(basename "$program") ended with $status"
        diff "${program%.c}.out" "${program%.c}.text" || failed "$page: what $(basename "$program") writes"
    done
    echo "$page: $(ls "$at"_*.out 2>/dev/null | wc -l) programs"
    [ ! -e "$at"_1.c ] || gcc "$at"_1.c -I"$prefix/include" -L"$prefix/lib" -llembikat -o "$at"_by_hand || failed "$page: linking by hand"
done

stack=$(sed -n 's/.*pthread_attr_setstacksize(&[a-z]*, \([0-9]*\) \* 1024).*/\1/p' docs/HOSTS.md)
figure=$(sed -n 's/.*Stack: at most \([0-9]*\) KiB.*/\1/p' include/lembikat.h | sort -n | tail -n 1)
[ $((figure + 64)) -le "$stack" ] || failed "a thread of $stack KiB has less than 64 beside the header's $figure"
exit "$wrong"
