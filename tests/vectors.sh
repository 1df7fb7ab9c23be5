#!/bin/sh
# `vectors` counts or tells each damage of twenty changed files.
#
# It is seen in the file's line and in the total. Run it after `tools/programs`.
# shellcheck source=tests/cases.sh
. "$(dirname "$0")/cases.sh"

# The case $1: in a folder of the files with `llvm` as file $2, the program prints its stored output changed by the sed commands $3,
# and says the line $4, if any, on standard error.
runs() {
    rm -rf "$work/data"
    cp -r "$root/crates/vectors/data" "$work/data"
    rm "$work/data/div-llvm.txt"
    [ ! -e "$2" ] || cp -r "$2" "$work/data/div-llvm.txt"
    { sed "$3" "$root/crates/vectors/stdout"; [ $# -lt 4 ] || echo "$4"; } >"$work/expected"
    (cd "$work/data" && "$root/target/bin/vectors" >"$work/found" 2>"$work/said")
    cat "$work/said" >>"$work/found"
    same "$1" "$work/expected"
}

llvm=$root/crates/vectors/data/div-llvm.txt
one='s/\(llvm.txt 28\) 0/\1 1/; s/\(total 9724\) 0/\1 1/'
runs 'the files as they are' "$llvm" ''
# Lines of 56 bytes: operands at 0 and 17, direction at 34, pattern at 36, flags at 53.
sed '7s/[0-9][0-9]$/31/' "$llvm" >"$work/flags"
runs 'other flags' "$work/flags" "$one"
sed '28s/^\(.\{51\}\)./\1b/' "$llvm" >"$work/pattern"
runs 'the last digit of a pattern' "$work/pattern" "$one"
sed '1s/0/g/' "$llvm" >"$work/hex"
runs 'a byte that is no hexadecimal digit' "$work/hex" "$one"
sed '1s/ /0/' "$llvm" >"$work/space"
runs 'fields that are not parted' "$work/space" "$one"
head -c -1 "$llvm" >"$work/short"
runs 'a last line cut short' "$work/short" "$one"
sed '4d' "$llvm" >"$work/fewer"
runs 'a line left out' "$work/fewer" 's/llvm.txt 28/llvm.txt 27/; s/total 9724/total 9723/'

# A root's line has no second operand.
roots=$root/crates/vectors/data/sqrt-glibc.txt
more='s/llvm.txt 28 0/llvm.txt 29 0/; s/total 9724 0/total 9725 0/'
{ cat "$llvm"; tail -n 1 "$roots"; } >"$work/root"
runs 'a root among quotients' "$work/root" "$more"
sed '29s/  /0 /' "$work/root" >"$work/filled"
runs 'half a second operand' "$work/filled" "$more; s/\(29\|9725\) 0/\1 1/"

# In each direction, of a quotient and of a root, flags that are wrong alone.
for file in div-testfloat sqrt-testfloat; do
    for direction in 0 1 2 3; do
        { cat "$llvm"; awk -v direction="$direction" 'substr($0, 35, 1) == direction {
            print substr($0, 1, 53) (substr($0, 54) == "00" ? "01" : "00")
            exit
        }' "$root/crates/vectors/data/$file.txt"; } >"$work/direction"
        runs "other flags of $file in direction $direction" "$work/direction" "$more; s/\(29\|9725\) 0/\1 1/"
    done
done

without='/llvm/d; s/total 9724 0/total 9696 0, files not read: 1/'
runs 'no file' "$work/none" "$without" 'div-llvm.txt: No such file or directory'
mkdir "$work/folder"
runs 'a folder' "$work/folder" "$without" 'div-llvm.txt: Is a directory'
yes "$(head -n 1 "$llvm")" | head -n 16000 >"$work/long"
runs '16,000 lines' "$work/long" 's/llvm.txt 28/llvm.txt 16000/; s/total 9724/total 25696/'
head -n 1 "$llvm" >>"$work/long"
runs '16,001 lines' "$work/long" "$without" 'div-llvm.txt: more than 16000 lines'

# where its files are not, the program says where it runs, and prints no total
mkdir "$work/empty"
(cd "$work/empty" && "$root/target/bin/vectors" >"$work/found" 2>&1)
echo 'vectors: no div-testfloat.txt here; run it in crates/vectors/data' >"$work/expected"
same 'in another folder' "$work/expected"

# where no file can be read, the total says so
for file in "$work/data"/*.txt; do
    rm -r "$file" && mkdir "$file"
done
(cd "$work/data" && "$root/target/bin/vectors" >"$work/found" 2>"$work/said")
printf '%s\n' 'file run differ' 'total 0 0, files not read: 7' >"$work/expected"
same 'folders in place of all files' "$work/expected"
cp "$work/said" "$work/found"
for file in div-testfloat div-glibc div-llvm div-mpfr div-nan sqrt-testfloat sqrt-glibc; do
    echo "$file.txt: Is a directory"
done >"$work/expected"
same 'folders in place of all files: each is told' "$work/expected"

cd "$root/crates/vectors/data" || exit 1
loses vectors /dev/null
misused vectors 'usage: vectors (in crates/vectors/data)' div-llvm.txt
misused vectors 'usage: vectors (in crates/vectors/data)' ''
interrupts vectors /dev/null

ends vectors 32
