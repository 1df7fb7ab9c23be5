#!/bin/sh
# The commands of TABLE-MAKER.md print what it says, and the files that they write hold the table's bytes.
#
# What is burned is the made table, what is read back is the Pentium's; all in a folder of their own. Run it after `tools/programs`
# and `tools/archive`.
# shellcheck source=tests/cases.sh
. "$(dirname "$0")/cases.sh"
page=$root/docs/TABLE-MAKER.md
for name in include examples tools target tables; do
    ln -s "$root/$name" "$work/$name"
done
cd "$work" || exit 1

# Where the seven bits as they stand are the address: that of column c is c XOR 64, byte by byte.
by_bits() {
    od -An -v -tu1 "$1" | awk '
        { for (i = 1; i <= NF; i++) byte[n++] = $i }
        END { for (k = 0; k < n; k++) { c = k % 128; print byte[k - c + (c < 64 ? c + 64 : c - 64)] } }'
}

# Each command is a case: what it prints is what stands below it.
runs_commands <"$page"

# What the commands wrote, by other means.
cp build/made.table found && same 'the made table is the kept one' "$kept"
words() {
    tr -s ' ' '\n' | sed '/^$/d'
}
od -An -v -tu1 build/made.table | words >made.txt
by_bits build/made.table >made-rom.txt
by_bits build/repaired.table >repaired.txt
for name in made.hex:made.txt made-rom.hex:made-rom.txt repaired.hex:repaired.txt again.hex:repaired.txt; do
    objcopy -I ihex -O binary "build/${name%:*}" image && od -An -v -tu1 image | words >found && same "${name%:*}, by objcopy" "${name#*:}"
done
printf '%s\n' '#include "build/made.h"' '#include <stdio.h>' 'int main(void) { return fwrite(table, 1, sizeof table, stdout) != 2048; }' >array.c
gcc -std=c99 -Wall -Wextra -Werror -pedantic array.c -o array && ./array >found && same 'the C array has the bytes of the table' build/made.table
words <build/made.mem | awk '
    function digit(at) { return index("0123456789abcdef", substr($1, at, 1)) - 1 }
    { print length($1) == 2 ? 16 * digit(1) + digit(2) : "no byte" }' >found
same 'the file for readmemh has the bytes of the table' made.txt
cp build/readback.table found && same 'what was read back' "$pentium"
build/rom write --halves build/readback.table build/readback.hex 2>/dev/null
cp build/readback.hex found && same 'what was read back, written again' "$root/tables/readback.hex"
cp build/readback.svg found && same 'its picture' "$root/docs/pentium-1994.svg"
"$root/target/bin/plot" visits <build/repaired.table >expected
cp build/visits.svg found && same 'the visits of the repaired table' expected

[ "$count" -gt 0 ] || echo 'FAILED: no command on the page'
ends table-maker $((count + 11))
