#!/bin/sh
# In a copy of the repository, with no `rt` on the PATH: README's three lines, `make check`, what `make install` puts where, a program
# from the installed library, the build.rs and the CMake lines of FROM-C.md, `make clean`; by gcc, and by clang where it is.
#
# It builds in a folder of its own, and needs nothing that was built before.
set -eu
cd "$(dirname "$0")/.."
export LC_ALL=C
command -v make >/dev/null || { echo "makefile: NOT RUN, for want of make"; exit 0; }
copy=$(mktemp -d)
trap 'rm -rf "$copy"' EXIT
mkdir "$copy/bin" "$copy/clone"
tar cf - --exclude=./target --exclude=./build --exclude=./.git --exclude='./crates/*/out' . | tar xf - -C "$copy/clone"

fail() {
    echo "makefile: $1"
    exit 1
}

# Each folder of the PATH that has an rt is left out, and its other programs are linked.
path=
IFS=:
for folder in $PATH; do
    if [ -e "$folder/rt" ]; then
        for program in "$folder"/*; do
            case ${program##*/} in rt | rattle*) ;; *) ln -sf "$program" "$copy/bin" ;; esac
        done
        folder=$copy/bin
    fi
    path=$path${path:+:}$folder
done
unset IFS
PATH=$path
! command -v rt || fail "the kit is still there"
unset MAKEFLAGS MFLAGS CC CFLAGS
cd "$copy/clone"

# The lines below the heading $2 of the page $1 that stand in by four spaces.
lines_below() {
    awk -v heading="## $2" '/^## / { here = $0 == heading } here' "$1" | sed -n 's/^    //p'
}

lines_below README.md 'Without the kit' >"$copy/lines"
[ "$(wc -l <"$copy/lines")" -eq 3 ] || fail "README has not three lines"
status=0
while read -r line; do
    sh -c "$line" </dev/null >"$copy/said" 2>&1 || status=$((status + $?))
    last=$(tail -n 1 "$copy/said")
done <"$copy/lines"
# the second line finds a bad table, the third ends with a reading
[ "$status $last" = '1 reading 12' ] || { cat "$copy/said"; fail "README's lines: status $status, $last"; }
make >"$copy/said" 2>&1
! grep -w cc "$copy/said" || fail "a second make builds again"

major=$(sed -n 's/^#define QUENDARIC_VERSION_MAJOR //p' dist/quendaric.h)
objdump -p build/libquendaric.so | grep -q " SONAME *libquendaric\.so\.$major$" || fail "another SONAME than for version $major"

for compiler in gcc clang; do
    command -v "$compiler" >/dev/null || { echo "  $compiler: NOT RUN, for want of it"; continue; }
    make clean >"$copy/said"
    make check CC="$compiler" >"$copy/said" 2>&1 || { tail -n 20 "$copy/said"; fail "make check CC=$compiler"; }
    echo "  $compiler: make check passes"
done

make install DESTDIR="$copy/root" PREFIX=/opt/q >"$copy/said" 2>&1 || { cat "$copy/said"; fail "make install"; }
{
    for tool in tools/*.c; do echo "./bin/quendaric-$(basename "$tool" .c)"; done
    printf '%s\n' ./include/quendaric.h ./lib/libquendaric.a ./lib/libquendaric.so "./lib/libquendaric.so.$major" \
        ./lib/pkgconfig/quendaric.pc
} | sort >"$copy/wanted"
(cd "$copy/root/opt/q" && find . ! -type d | sort) | diff "$copy/wanted" - || fail "make install puts other files"
[ "$(ls "$copy/root")" = opt ] || fail "make install writes elsewhere"
"$copy/root/opt/q/bin/quendaric-check" tables/kept-seven-bits.table >"$copy/said" || fail "an installed tool"
pc=$copy/root/opt/q/lib/pkgconfig/quendaric.pc
grep -qx "Version: $(sed -n 's/^#define QUENDARIC_VERSION "\(.*\)"$/\1/p' dist/quendaric.h)" "$pc" || fail "another version in quendaric.pc"
flags="-I$copy/root/opt/q/include -L$copy/root/opt/q/lib -lquendaric"
if command -v pkg-config >/dev/null; then
    flags=$(PKG_CONFIG_PATH=$(dirname "$pc") pkg-config --define-variable=prefix="$copy/root/opt/q" --cflags --libs quendaric)
else
    echo "  quendaric.pc: NOT READ, for want of pkg-config"
fi
# shellcheck disable=SC2086
gcc examples/reading.c $flags -Wl,-rpath,"$copy/root/opt/q/lib" -o "$copy/reading"

# The lines of docs/FROM-C.md: those for a CMakeLists.txt, and those for a build.rs, up to its last brace.
lines_below docs/FROM-C.md 'Without the kit' >"$copy/lines"
mkdir -p "$copy/crate/src"
cp -r dist "$copy/crate"
cp examples/reading.rs "$copy/crate/src/main.rs"
awk '/^use std/ { inside = 1 } inside' "$copy/lines" >"$copy/crate/build.rs"
printf '[package]\nname = "reading"\nversion = "0.0.0"\nedition = "2021"\n' >"$copy/crate/Cargo.toml"
programs=$copy/reading
if command -v cargo >/dev/null; then
    cargo build --offline --quiet --manifest-path "$copy/crate/Cargo.toml" --target-dir "$copy/cargo"
    programs="$programs $copy/cargo/debug/reading"
else
    echo "  build.rs: NOT RUN, for want of cargo"
fi
if command -v cmake >/dev/null; then
    {
        printf 'cmake_minimum_required(VERSION 3.10)\nproject(reading C)\n'
        grep '^[a-z_]*(quendaric ' "$copy/lines"
        printf 'add_executable(reading examples/reading.c)\ntarget_link_libraries(reading quendaric)\n'
    } >CMakeLists.txt
    cmake -S . -B "$copy/cmake" >"$copy/said"
    cmake --build "$copy/cmake" >"$copy/said"
    programs="$programs $copy/cmake/reading"
else
    echo "  CMake: NOT RUN, for want of it"
fi
for program in $programs; do
    # reading.rs takes no table
    case $program in */debug/*) table= ;; *) table=tables/kept.table ;; esac
    said=$("$program" $table 8400 700 | tail -n 1 | cut -d, -f1)
    [ "$said" = 'reading 12' ] || fail "$program: $said"
done

make clean >"$copy/said"
[ ! -e build ] || fail "make clean leaves build/"
echo "makefile: README's lines, make check, make install and FROM-C.md's lines, without the kit"
