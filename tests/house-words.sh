#!/usr/bin/env bash
# The 256 house words through the program `vectors`, against GUAVA's list. Where GUAVA found one pattern with the fewest ones, the nearest
# word is a codeword, the pattern that leads to it has as few ones, and as many bits are told to be changed. Where it found more than one,
# a tie, the word stays and no bit is told to be changed. There are 112 ties: a list without them would not test the second half.
set -u
cd "$(dirname "$0")/.." || exit 1
make -s crates/vectors/out/vectors || exit 1

# one record of service 1 for each word: the sheet's 10 bytes behind their length, the word as 8 bytes
stream() {
    local word
    for word in $(seq 0 255); do
        printf '\x01\x00\x00\x00\x0a\x08\x04\x00\xff\x00\x0f\x00\x33\x00\x55\x00\x00\x00\x00\x00\x00\x00'
        printf "\\x$(printf '%02x' "$word")"
    done
}

stream | crates/vectors/out/vectors | paste - tests/house-words-guava.jsonl | awk '
    # the exclusive-or and the ones of numbers below 256
    function xor(a, b,    r, w) {
        for (w = 1; w < 256; w *= 2) if (int(a / w) % 2 != int(b / w) % 2) r += w
        return r + 0
    }
    function ones(a,    n) { for (; a > 0; a = int(a / 2)) n += a % 2; return n + 0 }
    BEGIN {
        words[0] = 0; count = 1
        split("255 15 51 85", row, " ")
        for (i = 1; i <= 4; i++) { for (m = 0; m < count; m++) words[count + m] = xor(words[m], row[i]); count *= 2 }
        for (m = 0; m < count; m++) codeword[words[m]] = 1
    }
    {
        match($0, /"word": [0-9]+/); word = substr($0, RSTART + 8, RLENGTH - 8) + 0
        match($0, /"fewest": [0-9]+/); fewest = substr($0, RSTART + 10, RLENGTH - 10) + 0
        match($0, /"ways": [0-9]+/); ways = substr($0, RSTART + 8, RLENGTH - 8) + 0
        # the word and the bits changed are compared as text, so that a missing word is not taken for 0
        if (ways == 1) {
            right = ($2 in codeword) && ones(xor(word, $2 + 0)) == fewest && $3 "" == fewest ""
        } else {
            right = ways > 1 && !(word in codeword) && $2 "" == word "" && $3 "" == "0"
            ties++
        }
        if (!right || $1 != "ok" || word != NR - 1) { print "wrong: " $0; wrong++ }
    }
    END {
        if (NR != 256 || ties != 112) { print NR " words and " ties + 0 " ties, not 256 and 112"; wrong++ }
        exit (wrong > 0)
    }'
