#!/usr/bin/env bash
# pages.sh [PAGE..]: what stands in backticks on the pages for readers exists, and every relative link of a page leads to a file, and to a
# heading where it names one.
#
# A span in backticks is read word by word. One with a slash must be a path: from the root, from crates/, or CRATE/NAME for a wrong program or
# definition, weaker/NAME for a weaker promise. Of any other each name in it must be a name of the tree: of the code, definitions, proofs, header,
# C files and scripts without their comments and quoted text, or part of a file's name. What stands between ``` is not read.
set -eu
cd "$(dirname "$0")/.."
[ $# -gt 0 ] || set -- README.md docs/{BELIEVE,GUARANTEE,DESIGN,DECISIONS,HOSTS}.md docs/design/*.md
made=$(mktemp -d)
trap 'rm -rf "$made"' EXIT
wrong=0
failed() {
    echo "wrong: $*"
    wrong=1
}

# the names in a text, one a line; a name may have hyphens inside, as laws do
names() { grep -o -E '[A-Za-z][A-Za-z0-9_]*(-[A-Za-z0-9_]+)*' | sort -u; }
{
    find crates -name '*.antt' -exec sed -E 's/(^|[ \t])--.*//' {} +
    find crates -name '*.rt' -exec sed -E 's,//.*,,; s/"[^"]*"//g' {} +
    find include host bench tests -name '*.[ch]' -exec cat {} + | sed -z -E 's,/\*([^*]|\*+[^*/])*\*+/, ,g' | sed -E 's/"[^"]*"//g'
    sed -E 's/(^|[ \t])#.*//; s/"[^"]*"//g' Makefile crates.txt lembikat.pc.in .ci/run tests/*.sh
    find . -path ./.git -prune -o -path ./target -prune -o -type f -print | tr '/.' '\n'
} | names >"$made/tree"

is_path() {
    local at
    for at in "$1" "crates/$1" "crates/${1%%/*}/must-fail/${1#*/}.edit" "tests/$1.edit"; do
        compgen -G "$at" >/dev/null && return
    done
    return 1
}

for page in "$@"; do
    sed '/^```/,/^```/d' "$page" >"$made/text"
    awk -F '`' 'NF > 0 && NF % 2 == 0 { print; odd = 1 } END { exit odd }' "$made/text" || failed "$page: a span goes over a line's end"
    while read -r span; do
        case $span in
        /*) failed "$page: $span is a path of some machine" ;;
        */*) is_path "$span" || failed "$page: no path $span" ;;
        *) for name in $(names <<<"$span" | comm -23 - "$made/tree"); do failed "$page: no name $name"; done ;;
        esac
    done < <(grep -o -E '`[^`]+`' "$made/text" | tr -d '`' | tr ' ' '\n' | sort -u)
done

# the headings of a page as links name them
headings() { sed -n 's/^##* //p' "$1" | tr -d "\`.,:()'" | tr 'A-Z ' 'a-z-'; }
for page in README.md docs/*.md docs/*/*.md bench/results/*.md; do
    for link in $(sed '/^```/,/^```/d' "$page" | grep -o -E '\]\([^)]+\)' | sed 's/^](//; s/)$//' | grep -v '://' | sort -u); do
        file=$(dirname "$page")/${link%%#*}
        [ -n "${link%%#*}" ] || file=$page
        [ -e "$file" ] || { failed "$page: no $link"; continue; }
        case $link in *'#'*) headings "$file" | grep -q -x -e "${link#*#}" || failed "$page: no heading $link" ;; esac
    done
done
echo "$# pages, $(wc -l <"$made/tree") names of the tree"
exit "$wrong"
