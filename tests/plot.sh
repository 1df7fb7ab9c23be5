#!/bin/sh
# The pictures in docs/ are those that `plot` draws; refusals, arguments and lost outputs are told.
#
# Whether a picture is its table's is asked by tests/host/tests/plot.rs. Run it after `tools/programs`.
# shellcheck source=tests/cases.sh
. "$(dirname "$0")/cases.sh"

for table in kept pentium-1994; do
    "$root/target/bin/plot" <"$root/tables/$table.table" >"$work/found"
    same "$table" "$root/docs/$table.svg"
done
"$root/target/bin/plot" visits <"$kept" >"$work/found"
same 'the visits of the kept table' "$root/docs/visits.svg"
"$root/target/bin/plot" visits <"$pentium" >"$work/found"
printf 'refusal place\n10 215\n' >"$work/expected"
same 'the visits of a table with a bad cell' "$work/expected"
refuses plot
unread plot
loses plot "$pentium"

# A file that may not grow to the picture's end: a limit in blocks of 512 bytes, and a write past it fails.
size=$(wc -c <"$root/docs/pentium-1994.svg")
blocks=$(((size - 1) / 512))
(trap '' XFSZ && ulimit -f "$blocks" && "$root/target/bin/plot" <"$pentium" >"$work/found" 2>"$work/said")
cat "$work/said" >>"$work/found"
{ head -c $((blocks * 512)) "$root/docs/pentium-1994.svg"; echo 'plot: not all was written'; } >"$work/expected"
same 'a picture cut short' "$work/expected"

# for a divider that adds seven bits, and for one that adds eight: the heading, and the line below it
while read -r table bits verdict; do
    "$root/target/bin/plot" "$bits" <"$root/tables/$table.table" | sed -n "s/^<text x='100' y='\(32\|60\)'[^>]*>\(.*\)<\/text>\$/\2/p" >"$work/found"
    case $bits in 7) word=seven ;; *) word=eight ;; esac
    printf '%s\n' "P-D plot by $word bits: the quotient digit in each cell of the table" "$verdict" >"$work/expected"
    same "$table, for $bits bits" "$work/expected"
done <<'TABLES'
kept 7 Bad cells: 17; the first is row 1, column 68
kept 8 The table passes the check: no bad cell.
kept-seven-bits 7 The table passes the check: no bad cell.
pentium-1994 7 Bad cells: 24; the first is row 0, column 51
TABLES
"$root/target/bin/plot" 8 <"$pentium" >"$work/found"
same 'no argument is eight bits' "$root/docs/pentium-1994.svg"

use='usage: plot [7|8|visits] < TABLE'
for argument in digits '' visit visitss 6 9 77; do
    misused plot "$use" "$argument"
done
misused plot "$use" visits visits
misused plot "$use" 7 visits

interrupts plot "$pentium"

ends plot 38
