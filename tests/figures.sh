#!/usr/bin/env bash
# The README says how many wrong programs, wrong definitions and weaker promises there are, and docs/GUARANTEE.md names each of them and none
# that is not there. An edit of crates/*/must-fail that changes code alone is a wrong program, any other one there is a wrong definition;
# tests/weaker has the weaker promises.
set -u
cd "$(dirname "$0")/.." || exit 1
programs=0 definitions=0
for edit in crates/*/must-fail/*.edit; do
    if grep '^file: ' "$edit" | grep -q -v '^file: src/'; then definitions=$((definitions + 1)); else programs=$((programs + 1)); fi
done
weaker=$(ls tests/weaker/*.edit | wc -l)
wrong=0
echo "$programs wrong programs, $definitions wrong definitions and $weaker weaker promises"
if ! grep -q "$programs wrong programs, $definitions wrong definitions and $weaker weaker promises" README.md; then
    echo "the README gives other numbers"
    wrong=1
fi
stored=$(ls crates/*/must-fail/*.edit tests/weaker/*.edit | sed -E 's,^crates/([a-z_]*)/must-fail/,\1/,; s,^tests/,,; s,\.edit$,,' | sort)
named=$(grep -o -E '`[a-z_]+/[a-z0-9_F]+`' docs/GUARANTEE.md | tr -d '`' | sort -u)
if ! diff <(echo "$named") <(echo "$stored"); then
    echo "docs/GUARANTEE.md names others (<) than there are (>)"
    wrong=1
fi
exit "$wrong"
