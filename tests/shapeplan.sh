#!/usr/bin/env bash
# Tries the built program `shapeplan` and compares what it prints, byte for byte, with document 01, "Printer".
# Usage: tests/shapeplan.sh PROGRAM, as target/bin/shapeplan after tools/build.
set -euo pipefail

[ $# -eq 1 ] || { sed -n 2,3p "$0"; exit 2; }
[ -x "$1" ] || { echo "shapeplan.sh: $1 is no program"; exit 2; }
program=$(cd "$(dirname "$1")" && pwd)/$(basename "$1")
room=$(mktemp -d)
trap 'rm -rf "$room"' EXIT
passed=0

# compare NAME: what stands in $room/printed is what stands in $room/expected
compare() {
    if ! cmp -s "$room/printed" "$room/expected"; then
        printf 'shapeplan: %s: differs\nexpected:\n' "$1"
        head -c 2000 "$room/expected" | cat -A
        printf 'came:\n'
        head -c 2000 "$room/printed" | cat -A
        exit 1
    fi
    passed=$((passed + 1))
}

# expect NAME TEXT: the program prints TEXT for the file $room/input
expect() {
    printf "$2" >"$room/expected"
    "$program" <"$room/input" >"$room/printed" || { echo "shapeplan: $1: the program ended with status $?"; exit 1; }
    compare "$1"
}

# reads NAME INPUT TEXT: INPUT and TEXT are formats of printf
reads() {
    printf "$2" >"$room/input"
    expect "$1" "$3"
}

# lines N WORD: the word on N lines
lines() { awk -v n="$1" -v w="$2" 'BEGIN { for (i = 0; i < n; i++) print w }'; }

# the shape list of the full window
window() {
    echo 10000000
    local y
    for y in 0 1 2 3 4 5 6 7 8 9 a b c d e f; do echo "200${y}ffff"; done
}

row='10000000\n2000000f\n'
plan='30000002\n40000f0f\n50000003\n50000005\n'
bad='unreadable\n'

# ---- lines
reads 'row of four cells' "$row" "$plan"
reads 'empty input' '' 'refused 1\n'
reads 'one word' '10000000\n' 'refused 1\n'
reads 'no last line feed' '10000000\n2000000f' "$bad"
reads 'one word without line feed' '10000000' "$bad"
reads 'a last line begun' "${row}1" "$bad"
reads 'upper-case digit' '10000000\n2000000F\n' "$bad"
reads 'upper-case digits' '10000000\n2000ABCD\n' "$bad"
reads 'carriage returns' '10000000\r\n2000000f\r\n' "$bad"
reads 'a carriage return alone' '10000000\r2000000f\r' "$bad"
reads 'seven digits' '1000000\n2000000f\n' "$bad"
reads 'nine digits' '10000000\n02000000f\n' "$bad"
reads 'nine digits, the last too many' '10000000\n2000000f0\n' "$bad"
reads 'sixteen digits' '100000002000000f\n' "$bad"
reads 'an empty line' '10000000\n\n2000000f\n' "$bad"
reads 'an empty line alone' '\n' "$bad"
reads 'an empty line at the end' "${row}\n" "$bad"
reads 'a space before' ' 10000000\n2000000f\n' "$bad"
reads 'a space after' '10000000 \n2000000f\n' "$bad"
reads 'a prefix' '0x100000\n2000000f\n' "$bad"
reads 'a letter past f' '10000000\n2000000g\n' "$bad"
reads 'bytes beside the digits' '1000000/\n2000000:\n' "$bad"
reads 'bytes beside the letters' '1000000`\n2000000f\n' "$bad"
reads 'a zero byte' '10000000\n2000000\000\n' "$bad"
reads 'a bad line and then good ones' "x\n${row}" "$bad"
reads 'highest word' 'ffffffff\nffffffff\n' 'refused 2\n'
reads 'columns 0 and 3' '10000000\n20000009\n' 'refused 10\n'

# ---- many lines
window >"$room/input"
expect '17 lines, the full window' '30000008\n40000f0f\n5000001b\n50000145\n50000145\n50000145\n50000145\n50000145\n50000145\n50000145\n'
{ window; echo 2000ffff; } >"$room/input"
expect '18 lines' 'refused 1\n'
{ window; lines 2 2000ffff; } >"$room/input"
expect '19 lines' 'refused 1\n'
{ window; echo 2000fff; } >"$room/input"
expect '17 good lines and a bad one' "$bad"
lines 100000 2000000f >"$room/input"
expect '100,000 good lines' 'refused 1\n'
{ lines 100000 2000000f; echo 2000000F; } >"$room/input"
expect 'a bad line after 100,000 good ones' "$bad"
{ lines 100000 2000000f; printf 2000000f; } >"$room/input"
expect 'no last line feed after 100,000 good lines' "$bad"

# ---- other input
awk 'BEGIN { srand(1); for (i = 0; i < 200000; i++) printf "%c", int(rand() * 256) }' >"$room/input"
expect 'noise' "$bad"
head -c 300000 "$program" >"$room/input"
expect 'the program itself' "$bad"
head -c 100000 /dev/zero >"$room/input"
expect 'zero bytes' "$bad"

printf "$bad" >"$room/expected"
"$program" <&- >"$room/printed" || { echo "shapeplan: closed input: the program ended with status $?"; exit 1; }
compare 'closed input'
"$program" <"$room" >"$room/printed" || { echo "shapeplan: a folder as input: the program ended with status $?"; exit 1; }
compare 'a folder as input'

# drip: standard input to standard output, a byte at a time
drip() {
    local byte
    while IFS= read -r -n 1 byte; do
        if [ -n "$byte" ]; then printf '%s' "$byte"; else printf '\n'; fi
        sleep 0.01
    done
}
printf "$plan" >"$room/expected"
printf "$row" | drip | "$program" >"$room/printed"
compare 'byte by byte through a pipe'
{ printf '10000000\n2000'; sleep 0.1; printf '000f\n'; } | "$program" >"$room/printed"
compare 'a line in two parts'

echo "shapeplan: $passed cases passed"
