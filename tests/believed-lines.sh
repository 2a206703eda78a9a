#!/usr/bin/env bash
# How many lines of definitions a reader must believe, and whether the README says so and lists them.
#
# Believed are the files crates/*/specs/*.antt but for Lib.antt, which only lists the others, and for those whose header says that none of
# it is needed to believe a contract of a service. Of a believed file every line counts that is not blank, not a comment, not an import
# (`use`) and not an `unfolding` line: those name what a definition may look into and say nothing.
# It fails where the README gives another number, where a row of its list does not name exactly the definitions of its file, and where
# a believed file imports one that is not believed. With `-l` it lists the files, each with its number of lines.
set -eu
cd "$(dirname "$0")/.."

# the lines of the files given that count
lines() {
    awk '/^[ \t]*$/ || /^[ \t]*--/ || /^use / || /^[ \t]*unfolding( |$)/ { next } { n++ } END { print n + 0 }' "$@"
}

# the definitions of a file, as the README's list names them
definitions() {
    sed -nE 's/^(unfoldable pub|abbrev pub|pub record|pub data) ([^ ]+).*/`\2`/p' "$1" | paste -sd, | sed 's/,/, /g'
}

believed=()
others=()
for file in crates/*/specs/*.antt; do
    case $file in */Lib.antt) continue ;; esac
    if grep -q '^--.*none of this is needed to believe' "$file"; then others+=("$file"); else believed+=("$file"); fi
done

wrong=0
for file in "${believed[@]}"; do
    if ! grep -qF "| ${file#crates/} | $(definitions "$file") |" README.md; then
        echo "the README's list should say: | ${file#crates/} | $(definitions "$file") |"
        wrong=1
    fi
done
for other in "${others[@]}"; do
    crate=${other#crates/} name=$(basename "$other" .antt)
    crate=${crate%%/*}
    if grep -l "^use Rattle\.$crate\.specs\.$name\." "${believed[@]}"; then
        echo "imports $other, which need not be believed"
        wrong=1
    fi
done

if [ "${1-}" = -l ]; then
    for file in "${believed[@]}"; do printf '%4d %s\n' "$(lines "$file")" "$file"; done
fi
count=$(lines "${believed[@]}")
said=$(sed -n 's/.*definitions that a reader must believe are \([0-9]*\) lines.*/\1/p' README.md)
rows=$(grep -c '^| [a-z_]*/specs/[A-Za-z]*\.antt | ' README.md)
echo "$count lines to believe in ${#believed[@]} files"
if [ "$count" != "$said" ] || [ "${#believed[@]}" != "$rows" ]; then
    echo "the README says '$said' lines and lists $rows files"
    wrong=1
fi
exit "$wrong"
