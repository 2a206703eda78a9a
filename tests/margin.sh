#!/usr/bin/env bash
# The program `margin` on each stored case: standard input case-NN.in must give case-NN.out. Cases 01 to 40 come from outside.
# The README and the man page must show the carrier plan's sheet as it is.
set -u
cd "$(dirname "$0")/.." || exit 1
make -s crates/margin/out/margin || exit 1
wrong=0
for input in tests/margin/case-*.in; do
    if ! crates/margin/out/margin <"$input" | cmp -s - "${input%.in}.out"; then
        echo "wrong: $input"
        wrong=1
    fi
done
for text in README.md man/margin.1; do
    if ! sed -n '/^ *n 16 8 d /,/^ *beyond /s/^ *//p' "$text" | diff - <(crates/margin/out/margin <tests/carrier-plan.bin); then
        echo "wrong: the sheet in $text"
        wrong=1
    fi
done
exit "$wrong"
