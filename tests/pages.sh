#!/bin/sh
# The commands of README.md (docking stations) and ONE-WRONG-CELL.md print what the pages say.
#
# They are run in a folder of their own. Run it after `tools/archive`.
# shellcheck source=tests/cases.sh
. "$(dirname "$0")/cases.sh"
for name in include examples tools target tables; do
    ln -s "$root/$name" "$work/$name"
done
cd "$work" || exit 1

# The lines of the page $1 below the heading $2.
section() {
    awk -v heading="## $2" '/^## / { inside = $0 == heading } inside' "$root/$1"
}

total=0
for place in 'README.md:In a docking station' 'docs/ONE-WRONG-CELL.md:Which records it made wrong'; do
    section "${place%%:*}" "${place#*:}" >page
    runs_commands <page
    [ "$count" -gt 0 ] || echo "FAILED: no command in ${place%%:*}"
    total=$((total + count))
done
cp build/season.svg found && same 'the picture of the sample' "$root/docs/season.svg"
ends pages $((total + 1))
