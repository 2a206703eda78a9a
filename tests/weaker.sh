#!/usr/bin/env bash
# Weaker promises: each tests/weaker/*.edit makes a definition or a theorem say less, or ask for more, in such a way that its own crate is still
# proved. crates/known_answers says each promise in the papers' words, and each part of it by itself: the statements that the edit's line
# `refused:` names must be refused there, by errors of their own, and no other one may be.
#
# An edit has the form of those in crates/*/must-fail, with paths from the top of the repository: a `file:` line holds for the `old:` and `new:`
# pairs after it. All edits are made at once on a copy of the crates, since no two are refused by the same part of a promise; with names of edits
# as arguments only these are made, and what the prover says is shown. The copy has no out/: a check in it begins with what checks in other
# folders of this machine have kept of the same crates, where there are such, and else proves them anew.
set -u
cd "$(dirname "$0")/.." || exit 1
user=known_answers
copy=$(mktemp -d)
trap 'rm -rf "$copy"' EXIT
edits=(tests/weaker/*.edit)
if [ $# -gt 0 ]; then
    edits=("${@/#/tests/weaker/}")
    edits=("${edits[@]/%/.edit}")
fi

# nothing REASON: no edit is refused as it must be
nothing() {
    echo "FAILED: $1"
    echo "0 passed, ${#edits[@]} failed"
    exit 1
}

# apply EDIT: the edit is made on the copy
apply() {
    local file='' old='' line
    while IFS= read -r line; do
        case $line in
        'file: '*) file=$copy/${line#file: } ;;
        'old: '*) old=${line#old: } ;;
        'new:'*)
            line=${line#new:}
            OLD=$old NEW=${line# } awk '
                { text = text $0 "\n" }
                END {
                    old = ENVIRON["OLD"]
                    at = index(text, old)
                    rest = substr(text, at + length(old))
                    if (old == "" || !at || index(rest, old)) exit 1
                    printf "%s%s%s", substr(text, 1, at - 1), ENVIRON["NEW"], rest
                }' "$file" >"$copy/edited" || nothing "$1: '$old' does not stand exactly once in ${file#"$copy"/}"
            mv "$copy/edited" "$file"
            ;;
        esac
    done <"$1"
}

tar -c --exclude='crates/*/out' crates crates.txt | tar -x -C "$copy"
for edit in "${edits[@]}"; do apply "$edit"; done

# rt lib builds a library only of a crate that is proved, and `rt check` above takes that library
for crate in $(sed -n 's,^file: crates/\([a-z_]*\)/.*,\1,p' "${edits[@]}" | sort -u); do
    (cd "$copy/crates/$crate" && rt lib) >"$copy/log" 2>&1 && continue
    cat "$copy/log"
    nothing "$crate itself is refused"
done
(cd "$copy/crates/$user" && rt check) >"$copy/log" 2>&1
[ $# -eq 0 ] || cat "$copy/log"
# without this line the prover has not come to the statements
grep -q '^logic=not-proved' "$copy/log" || { cat "$copy/log"; nothing "$user is not refused"; }

failed=0
# Each error is of a statement by itself, or says that what cites a refused one was not checked. Another one may stand for an error of a
# statement, so it counts as one that no edit names.
at='^(\./)?[^ :]+:[0-9]+:[0-9]+: error: '
refused=$(sed -n -E "s,$at\`([^\`]*)\`:.*,\2,p" "$copy/log" | sort -u)
named=$(sed -n 's/^refused: //p' "${edits[@]}" | tr ' ' '\n' | sort -u)
for other in $(comm -23 <(echo "$refused") <(echo "$named")); do
    echo "FAILED: $other is refused, and no edit names it"
    failed=${#edits[@]}
done
others=$(grep -E '^([^ ]+:[0-9]+:[0-9]+: )?error|is not admitted' "$copy/log" |
    grep -v -E "$at(\`[^\`]*\`:|[0-9]+ declarations? that depends? on \`)")
if [ -n "$others" ]; then
    echo "FAILED: what is refused here is no statement: $others"
    failed=${#edits[@]}
fi
for edit in "${edits[@]}"; do
    name=$(basename "$edit" .edit)
    statements=$(sed -n 's/^refused: //p' "$edit")
    missed=$(comm -23 <(tr ' ' '\n' <<<"$statements" | sort) <(echo "$refused") | tr '\n' ' ')
    if [ -z "$statements" ] || [ -n "$missed" ]; then
        echo "FAILED: $name is not refused at ${missed:-any statement}"
        [ "$failed" -eq "${#edits[@]}" ] || failed=$((failed + 1))
    else
        echo "weaker $name: refused, as it must be, at $statements"
    fi
done
echo "$((${#edits[@]} - failed)) passed, $failed failed"
[ "$failed" -eq 0 ]
