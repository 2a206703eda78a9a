#!/usr/bin/env bash
# How much stack each call takes at most, worked out from the archive's own instructions (tests/stack.awk), is what the header says.
#
# One line an export: its name, the bound in bytes, and the header's figure in bytes. The header gives whole KiB. A figure may not be below
# the bound, and must be less than 2 KiB above it: one that is much too large is not true either. What the host's memset and memcpy take
# is not in the bound, and the header says so; host/test_stack.c measures it.
#
# Before that, tests/stack.awk must say of each function of tests/stack-cases.s what stands there, refusals included, and the comparison
# with a header must find a figure that is too small, one that is too large and one that is missing.
set -eu -o pipefail
cd "$(dirname "$0")/.."
archive=target/host/liblembikat.a
made=$(mktemp -d)
trap 'rm -rf "$made"' EXIT

# bounds FILE NAME..: a line for each function named
bounds() {
    { objdump -r "$1"; objdump -dr -w --no-show-raw-insn "$1"; } | awk -v calls="${*:2}" -v outside="memset memcpy" -f tests/stack.awk
}

# held_to HEADER: of the lines of `bounds` on standard input, each beside the header's figure, which stands in the comment before the
# call's declaration
held_to() {
    awk '
        NR == FNR {
            if (match($0, /Stack: at most [0-9]+ KiB\./)) {
                figure = substr($0, RSTART + 15) + 0
                figures++
            } else if ($0 ~ /^lembikat_[a-z_]+ lembikat_[a-z_]+\(/) {
                sub(/\(.*/, "", $2)
                if (figures == 1) said[$2] = 1024 * figure
                figures = 0
            }
            next
        }
        {
            if ($2 == "refused:") print
            else print $1, $2, "of", ($1 in said ? said[$1] : "no figure")
            if ($2 == "refused:") why = "no bound for " $1
            else if (!($1 in said)) why = "the header gives no figure for " $1
            else if ($2 > said[$1]) why = "the header gives too little for " $1
            else if (said[$1] - $2 >= 2048) why = "the header gives too much for " $1
            else next
            print "FAILED: " why
            wrong = 1
        }
        END { exit wrong }' "$1" -
}

# the bounds and the comparison by themselves, on cases whose answer is known
cases=tests/stack-cases.s
gcc -c "$cases" -o "$made/cases.o"
sed -n 's/^#: //p' "$cases" >"$made/expected"
bounds "$made/cases.o" $(sed 's/ .*//' "$made/expected") >"$made/said"
while IFS= read -r expected <&3 && IFS= read -r said <&4; do
    case $expected in
    *refused:*) [[ $said == "$expected"* ]] ;;
    *) [[ $said == "$expected" ]] ;;
    esac || { echo "FAILED: of a case in $cases is said '$said' and not '$expected'"; exit 1; }
done 3<"$made/expected" 4<"$made/said"
[ "$(wc -l <"$made/expected")" -eq "$(wc -l <"$made/said")" ]
for stray in 1 2; do
    gcc -c -Wa,--defsym,STRAY=$stray "$cases" -o "$made/stray.o"
    bounds "$made/stray.o" leaf table | diff - <(
        printf '%s refused: .rodata.stray holds an address of code that is no entry of a table\n' leaf table
    ) || { echo "FAILED: an address in data is not refused"; exit 1; }
done

for name in too_little fits too_much none; do
    case $name in none) ;; *) echo "/* Refusals: none.  Stack: at most 4 KiB. */" ;; esac
    echo "lembikat_answer lembikat_$name(void);"
done >"$made/header"
printf 'lembikat_%s\n' 'too_little 4097' 'fits 4096' 'fits 2049' 'too_much 2048' 'none 1' 'fits refused: why' >"$made/bounds"
if held_to "$made/header" <"$made/bounds" >"$made/said"; then
    echo "FAILED: wrong figures are passed"
    exit 1
fi
grep FAILED "$made/said" | diff - <(
    echo 'FAILED: the header gives too little for lembikat_too_little'
    echo 'FAILED: the header gives too much for lembikat_too_much'
    echo 'FAILED: the header gives no figure for lembikat_none'
    echo 'FAILED: no bound for lembikat_fits'
)

# the archive
exports=$(nm -g --defined-only "$archive" | awk 'NF == 3 { print $3 }' | sort)
[ "$(wc -w <<<"$exports")" -eq 13 ] || { echo "FAILED: not thirteen calls"; exit 1; }
bounds "$archive" $exports | held_to include/lembikat.h
