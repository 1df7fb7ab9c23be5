#!/bin/sh
# Whole outputs of `listing` and `maker`, by seven bits and by eight: tables, other inputs, arguments, reads and writes that
# fail or are interrupted.
#
# Drawn inputs are in tests/host/tests/listing.rs. Run it after `tools/programs`.
# shellcheck source=tests/cases.sh
. "$(dirname "$0")/cases.sh"

"$root/target/bin/maker" >"$work/found"
same 'the maker writes the kept table' "$kept"

names='row column digit divisor remainder'
first='1 87 0 1242993497154256896 3314649325744685056'
prints 'a table that passes' listing "$kept" "$names"
prints 'the table that is made for seven bits' listing "$root/tables/kept-seven-bits.table" "$names"
prints 'the table that Clarke and Zhao print' listing "$root/tables/clarke-zhao-1995.table" "$names"

changed "$kept" 215 002
prints "the specification's example" listing "$work/changed" "$names
$first"

prints "the 1994 Pentium's table" listing "$pentium" "$names
$first
4 91 0 1459166279268040704 3891110078048108544
7 95 0 1675339061381824512 4467570830351532032
10 99 0 1891511843495608320 5044031582654955520
13 103 0 2107684625609392128 5620492334958379008"

"$root/target/bin/listing" <"$root/tests/data/all-bad.table" >"$work/found"
same 'every cell with a point is bad' "$root/tests/data/all-bad.listing"

refuses listing

{ head -c 1000 "$kept"; sleep 1; tail -c +1001 "$kept"; } | "$root/target/bin/listing" >"$work/found"
echo "$names" >"$work/expected"
same 'a table that comes in two parts' "$work/expected"

loses listing "$kept"
loses maker /dev/null
unread listing

# for a divider that adds seven bits, and for one that adds eight
"$root/target/bin/maker" 7 >"$work/found"
same 'the maker for seven bits' "$root/tables/kept-seven-bits.table"
"$root/target/bin/maker" 8 >"$work/found"
same 'the maker for eight bits' "$kept"
while read -r table seven eight; do
    for bits in 7 8; do
        "$root/target/bin/listing" "$bits" <"$root/tables/$table.table" | awk 'END { print NR - 1 }' >"$work/found"
        if [ "$bits" = 7 ]; then echo "$seven"; else echo "$eight"; fi >"$work/expected"
        same "$table, for $bits bits" "$work/expected"
    done
done <<'TABLES'
kept 17 0
kept-seven-bits 0 0
clarke-zhao-1995 5 0
pentium-1994 24 5
TABLES
"$root/target/bin/listing" 7 <"$kept" | head -n 2 >"$work/found"
printf '%s\n' "$names" '1 68 0 1224979098644774912 816652732429849942' >"$work/expected"
same 'the first bad cell of the kept table for seven bits' "$work/expected"
"$root/target/bin/listing" <"$pentium" >"$work/expected"
"$root/target/bin/listing" 8 <"$pentium" >"$work/found"
same 'no argument is eight bits' "$work/expected"

use='usage: listing [7|8] < TABLE'
for argument in "$kept" '' 6 9 77 07 263; do
    misused listing "$use" "$argument"
done
misused listing "$use" 7 8
use='usage: maker [7|8] > TABLE'
for argument in made.table '' 6 9 87; do
    misused maker "$use" "$argument"
done
misused maker "$use" 7 7

interrupts listing "$root/tests/data/all-bad.table"
interrupts maker /dev/null
echo 'listing: not all was read' >"$work/expected"
READS=2000 LD_PRELOAD=$work/interrupted.so "$root/target/bin/listing" <"$kept" >"$work/found" 2>&1
same 'reads that are interrupted without end' "$work/expected"

ends listing 63
