#!/bin/sh
# page/quendaric.html is what page/make makes of page/, of the unit and, where the same wasi-libc is installed, of the tools; page and
# worker are short; each rule of docs/PAGE.md names tests that page/test.mjs has.
set -eu
cd "$(dirname "$0")/.."
export LC_ALL=C

fail() {
    echo "page: $1"
    exit 1
}

page/make
cmp target/page/quendaric.html page/quendaric.html ||
    fail "page/quendaric.html is not what page/make makes (page/make write)"
lines=$(cat page/page.html page/worker.js | wc -l)
[ "$lines" -le 450 ] || fail "page.html and worker.js have $lines lines"
! awk 'length > 140 { print FILENAME ":" FNR ": " length " characters" }' page/page.html page/worker.js | grep . ||
    fail "lines are too long"

# The names behind each rule, between *( and )*.
rules=0
sed -n 's/^[0-9]*\. \*\*.*\*(\(.*\))\*$/\1/p' docs/PAGE.md >target/page/rules.txt
while read -r names; do
    rules=$((rules + 1))
    echo "$names" | tr ';' '\n' | sed 's/^ //' >target/page/names.txt
    while read -r name; do
        grep -qF "\"$name" page/test.mjs || fail "page/test.mjs has no test: $name"
    done <target/page/names.txt
done <target/page/rules.txt
[ "$rules" -eq "$(grep -c '^[0-9]*\. \*\*' docs/PAGE.md)" ] || fail "a rule of docs/PAGE.md names no test"
echo "page: page/quendaric.html is what page/make makes, in $lines lines; $rules rules name their tests"
