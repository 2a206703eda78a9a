#!/usr/bin/env bash
# What the compilers make of the library: the program `vectors` as LLVM builds it and as Rattle's own compiler does at its levels 0, 2 and 3, each
# held to the stored lines of the stored stream and to the examples of docs/STREAM.md, and then by `rt try`, which has LLVM compile the same
# text with checks and also runs it on an interpreter, which compiles nothing. The interpreter ends at twenty million steps: enough for the
# examples, and the stored stream is too long for it.
set -u
cd "$(dirname "$0")/.." || exit 1
made=$(mktemp -d)
trap 'rm -rf "$made"' EXIT
vectors=crates/vectors
unset RT_BACKEND

# each case is a file of standard input, with what must come out beside it
mkdir "$made/cases"
cp "$vectors/stdin" "$made/cases/stored"
cp "$vectors/stdout" "$made/cases/stored.stdout"
# a record is a line of the page in hexadecimal, and the line that comes out of it stands below
sed -n -E 's/^    ([0-9a-f]{2}( [0-9a-f]+)*)$/\1/p' docs/STREAM.md | tr -d ' \n' | sed 's/../\\x&/g' >"$made/hex"
printf "$(cat "$made/hex")" >"$made/cases/examples"
grep '^    ' docs/STREAM.md | grep -v -E '^    [0-9a-f]{2}( [0-9a-f]+)*$' | sed 's/^    //' >"$made/cases/examples.stdout"

wrong=0

# built NAME WORD FLAG..: the program built by `rt run` with these flags, which must say that WORD built it, and run on both cases
built() {
    local name=$1 word=$2
    shift 2
    if ! (cd "$vectors" && rt run "$@" <"$made/cases/examples") >"$made/said" 2>"$made/log" || ! grep -q -a -e "$word" "$made/log"; then
        cat "$made/log"
        echo "wrong: $name did not build it, or it did not end well"
        wrong=1
        return
    fi
    cmp "$made/said" "$made/cases/examples.stdout" || { echo "wrong: the examples of docs/STREAM.md, $name"; wrong=1; }
    "$vectors/out/vectors" <"$made/cases/stored" | cmp - "$made/cases/stored.stdout" || { echo "wrong: the stored stream, $name"; wrong=1; }
}

for level in 0 2 3; do
    built "Rattle's own compiler at level $level" "^built: backend=rattle opt-level=$level " --backend rattle --opt-level $level
done
# last, so that this build is the one that stays
built "LLVM" "^linked "

(cd "$vectors" && rt try --cases "$made/cases") >"$made/said" 2>"$made/log" || wrong=1
for line in 'case=examples run=ended status=0 runners=2 output=expected proved=no' \
    'case=stored run=ended status=0 runners=[12] output=expected proved=no'; do
    if ! grep -q -a -x "$line" "$made/log"; then
        cat "$made/log"
        echo "wrong: rt try should say $line"
        wrong=1
    fi
done
echo "$(wc -l <"$made/cases/stored.stdout") stored lines five ways, $(wc -l <"$made/cases/examples.stdout") examples six ways"
exit "$wrong"
