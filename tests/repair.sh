#!/bin/sh
# Both outputs of `repair`, by seven bits and by eight: tables, other inputs, reads and writes that fail or are interrupted.
#
# A repaired table passes the check. Drawn inputs are in tests/host/tests/repair.rs. Run it after `tools/programs`.
# shellcheck source=tests/cases.sh
. "$(dirname "$0")/cases.sh"

names='row column byte new'

# The case $1: on the input $2, with the argument $5 if there is one, the program writes the file $3, and says the text $4, each line ended.
repairs() {
    "$root/target/bin/repair" ${5:+"$5"} <"$2" >"$work/found" 2>"$work/said"
    same "$1: the table" "$3"
    cp "$work/said" "$work/found"
    printf '%s\n' "$4" >"$work/expected"
    same "$1: the text" "$work/expected"
}

repairs 'a table that passes' "$kept" "$kept" "$names
changes 0 for 8 bits"
repairs 'another that passes' "$root/tables/clarke-zhao-1995.table" "$root/tables/clarke-zhao-1995.table" "$names
changes 0 for 8 bits"

# the specification's example, and the kept table comes back
changed "$kept" 215 002
repairs 'a bad cell' "$work/changed" "$kept" "$names
1 87 2 4
changes 1 for 8 bits"

# a byte above 4 in cells without a point, which allow every digit: the first and the last
changed "$kept" 0 011
repairs 'a byte above 4 in a cell without a point' "$work/changed" "$kept" "$names
0 0 9 2
changes 1 for 8 bits"
changed "$kept" 2047 377
repairs 'the last byte' "$work/changed" "$kept" "$names
15 127 255 2
changes 1 for 8 bits"

# the other cells of this table stay as they are, allowed and not the made ones
five='1 87 2 4
4 91 2 4
7 95 2 4
10 99 2 4
13 103 2 4
changes 5 for 8 bits'
cp "$pentium" "$work/right"
for place in 215 603 991 1379 1767; do
    printf '\004' | dd of="$work/right" bs=1 seek="$place" conv=notrunc 2>/dev/null
done
repairs "the 1994 Pentium's table" "$pentium" "$work/right" "$names
$five"

# what was read back, listed, repaired and listed again
"$root/target/bin/repair" <"$pentium" 2>/dev/null | "$root/target/bin/listing" >"$work/found"
echo 'row column digit divisor remainder' >"$work/expected"
same 'a repaired table has no bad cell' "$work/expected"

{ head -c 1000 "$pentium"; sleep 1; tail -c +1001 "$pentium"; } | "$root/target/bin/repair" >"$work/found" 2>/dev/null
same 'a table that comes in two parts' "$work/right"

# another length: no table, and the two lines of the refusal
refusal='refusal place
8 0'
repairs 'no bytes' /dev/null /dev/null "$refusal"
head -c 2047 "$kept" >"$work/input"
repairs '2,047 bytes' "$work/input" /dev/null "$refusal"
{ cat "$kept"; printf '\002'; } >"$work/input"
repairs '2,049 bytes' "$work/input" /dev/null "$refusal"

unread repair

# the text comes first, so it stands before what is said of a table that cannot be written
printf '%s\n' "$names
$five
repair: not all was written" >"$work/expected"
"$root/target/bin/repair" <"$pentium" 2>"$work/found" >/dev/full
same 'its output is full' "$work/expected"
"$root/target/bin/repair" <"$pentium" 2>"$work/found" >&-
same 'its output is closed' "$work/expected"

# where the text cannot be told, there is no table
"$root/target/bin/repair" <"$pentium" >"$work/found" 2>/dev/full
same 'its text is lost: full' /dev/null
"$root/target/bin/repair" <"$pentium" >"$work/found" 2>&-
same 'its text is lost: closed' /dev/null

# for a divider that adds seven bits: the kept table becomes the one that is made for it, with a line for each of the 17 cells in which they differ
seven=$root/tables/kept-seven-bits.table
{
    echo "$names"
    cmp -l "$kept" "$seven" | awk '{ k = $1 - 1; print int(k / 128), k % 128, $2, $3 }'
    echo 'changes 17 for 7 bits'
} >"$work/lines"
[ "$(wc -l <"$work/lines")" -eq 19 ] || echo 'FAILED: the two tables do not differ in 17 cells'
repairs 'the kept table for seven bits' "$kept" "$seven" "$(cat "$work/lines")" 7
repairs 'the table of seven bits for seven' "$seven" "$seven" "$names
changes 0 for 7 bits" 7
repairs 'the table of seven bits for eight' "$seven" "$seven" "$names
changes 0 for 8 bits" 8
repairs "the 1994 Pentium's table, asked for eight" "$pentium" "$work/right" "$names
$five" 8
for table in clarke-zhao-1995:5 pentium-1994:24; do
    "$root/target/bin/repair" 7 <"$root/tables/${table%:*}.table" 2>"$work/said" | "$root/target/bin/listing" 7 >"$work/found"
    tail -n 1 "$work/said" >>"$work/found"
    printf '%s\n' 'row column digit divisor remainder' "changes ${table#*:} for 7 bits" >"$work/expected"
    same "${table%:*} repaired for seven bits" "$work/expected"
done

use='usage: repair [7|8] < TABLE > REPAIRED'
for argument in "$pentium" '' 6 9 78; do
    misused repair "$use" "$argument"
done
misused repair "$use" 8 8

interrupts repair "$pentium"

ends repair 50
