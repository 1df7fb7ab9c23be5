# What the tests of programs and pages share.
# shellcheck shell=sh
set -u
root=$(cd "$(dirname "$0")/.." && pwd)
kept=$root/tables/kept.table
pentium=$root/tables/pentium-1994.table
work=$(mktemp -d) || exit 1
trap 'rm -rf "$work"' EXIT
passed=0
failed=0

# The case $1: what it has put into $work/found is the file $2.
same() {
    if cmp "$work/found" "$2" >"$work/why" 2>&1; then
        passed=$((passed + 1))
    else
        failed=$((failed + 1))
        echo "FAILED: $1: $(cat "$work/why")"
        diff "$2" "$work/found" | head -5
    fi
}

# The case $1: the program $2 on the input $3 prints the text $4, each line ended.
prints() {
    "$root/target/bin/$2" <"$3" >"$work/found"
    printf '%s\n' "$4" >"$work/expected"
    same "$1" "$work/expected"
}

# The inputs that are no table, and what the program $1 prints on each.
refuses() {
    prints 'no bytes' "$1" /dev/null 'refusal place
8 0'
    head -c 2047 "$kept" >"$work/input"
    prints '2,047 bytes' "$1" "$work/input" 'refusal place
8 0'
    { cat "$kept"; printf '\002'; } >"$work/input"
    prints '2,049 bytes' "$1" "$work/input" 'refusal place
8 0'
    changed "$pentium" 1500 005
    prints 'a byte above 4 behind a bad cell' "$1" "$work/changed" 'refusal place
9 1500'
}

# Where its output is full or closed, the program $1 on the input $2 says so.
loses() {
    echo "$1: not all was written" >"$work/expected"
    "$root/target/bin/$1" <"$2" 2>"$work/found" >/dev/full
    same "$1: its output is full" "$work/expected"
    "$root/target/bin/$1" <"$2" 2>"$work/found" >&-
    same "$1: its output is closed" "$work/expected"
}

# The program $1 says that a read failed, and prints nothing: its input is a folder, or closed.
unread() {
    echo "$1: not all was read" >"$work/expected"
    "$root/target/bin/$1" <"$work" >"$work/found" 2>&1
    same "$1: its input is a folder" "$work/expected"
    "$root/target/bin/$1" <&- >"$work/found" 2>&1
    same "$1: its input is closed" "$work/expected"
}

# The program $1 with the arguments from $3 on, which are not its own, says the line of use $2, prints nothing and reads nothing.
misused() {
    program=$1
    echo "$2" >"$work/expected"
    shift 2
    { "$root/target/bin/$program" "$@" >"$work/printed" 2>"$work/found"; cat >>"$work/printed"; } <"$pentium"
    same "$program '$*': the line of use" "$work/expected"
    mv "$work/printed" "$work/found"
    same "$program '$*': nothing is printed, nothing is read" "$pentium"
}

# The program $1 on the input $2, with the arguments that follow, prints the same where signals interrupt its calls. Where they do so without end, it
# says so and ends.
interrupts() {
    program=$1
    input=$2
    shift 2
    [ -e "$work/interrupted.so" ] || gcc -shared -fPIC "$root/tests/c/interrupted.c" -o "$work/interrupted.so" || exit 1
    "$root/target/bin/$program" "$@" <"$input" >"$work/expected" 2>"$work/said"
    cat "$work/said" >>"$work/expected"
    OPENS=3 READS=3 WRITES=3 LD_PRELOAD=$work/interrupted.so "$root/target/bin/$program" "$@" <"$input" >"$work/found" 2>"$work/said"
    cat "$work/said" >>"$work/found"
    same "$program: interrupted calls are made again" "$work/expected"
    echo "$program: not all was written" >"$work/expected"
    WRITES=2000 LD_PRELOAD=$work/interrupted.so "$root/target/bin/$program" "$@" <"$input" 2>"$work/said" >"$work/found"
    tail -n 1 "$work/said" >>"$work/found"
    same "$program: writes that are interrupted without end" "$work/expected"
}

# A copy of the table $1 whose byte at the index $2 is the octal $3, in $work/changed.
changed() {
    cp "$1" "$work/changed"
    printf "\\$3" | dd of="$work/changed" bs=1 seek="$2" conv=notrunc 2>/dev/null
}

# The commands on standard input, each behind `    $ `, are a case each, but for those that build what is proved: what it prints is
# what stands below it, indented. Sets count to their number.
runs_commands() {
    count=0
    while IFS= read -r line; do
        case $line in
        '    $ rt '* | '    $ tools/archive'* | '    $ tools/programs'*) ;;
        '    $ '*)
            count=$((count + 1))
            echo "${line#    $ }" >"command.$count"
            : >"printed.$count"
            ;;
        '    '*) [ "$count" -eq 0 ] || echo "${line#    }" >>"printed.$count" ;;
        esac
    done
    at=1
    while [ "$at" -le "$count" ]; do
        sh "./command.$at" >found 2>&1 || echo "status $?" >>found
        same "$(cat "command.$at")" "printed.$at"
        at=$((at + 1))
    done
}

# The last line of the tests named $1, of which there are $2.
ends() {
    [ $((passed + failed)) -eq "$2" ] || echo "FAILED: $1: $2 cases were to run"
    echo "$1: $passed passed, $failed failed"
    [ "$passed" -eq "$2" ] && [ "$failed" -eq 0 ]
}
