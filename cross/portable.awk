# Makes the kit's module fit for another target: reads its text (LLVM IR) and writes it again with these changes and no
# other.
#   1. The target's name and data layout go: the compiler puts in those of the target.
#   2. The processor's name goes, and the probing of the stack.
#   3. Each of the functions that the exports wrap, "quendaric_c::quendaric_X", is no longer internal, and is called
#      quendaric_proved_X. Where its answer comes in two words, it stays as it is, and behind it stands quendaric_proved_X, which calls
#      it and stores the two words.
#   4. The exports themselves go. They are made for the calls of x86-64; cross/calls.c stands in for them. Before that it is
#      made sure that each does nothing but call its function, with what it was given, in the same order. (A list without a place
#      gets one there, which its function never asks for.)
#   5. `zeroext` goes from definitions. No call in the module has it, and a definition may not count on what no call does.
#   6. A byte and a pointer, which an option of a reference is, are loaded one by one: as a pair in memory the pointer would stand where
#      the target's width puts it.
# It fails where the number of functions is not `calls`, and on any line whose form is not listed below: of these forms
# none says how wide a pointer is, in which order bytes stand, or how arguments travel. A list is 16 bytes, its pointer at
# 0 and its length, of 64 bits, at 8, also where it is loaded as a pair (cross/target.h): of each pair that is listed the second part
# stands at 8. Every other place in memory is a number of bytes from the start of its object. A variable that holds a pointer is as wide
# as a pointer, so it is only loaded and stored as one.
# The proved functions are written to the file `heads` as cross/calls.c has to declare them.
function fail(text) {
    print "portable: " FILENAME ":" FNR ": " text > "/dev/stderr"
    bad = 1
    exit 1
}
# 1
/^target (datalayout = "e-|triple = "x86_64-unknown-linux-gnu"$)/ { named++; next }
# 2
/^attributes #[0-2] = / { sub(/ "probe-stack"="inline-asm" "stack-probe-size"="[0-9]+" "target-cpu"="x86-64"/, "") }
# 3
function declared(head) {
    gsub(/, ptr noundef %a[0-9]+/, ", const void *", head)
    gsub(/, i1 noundef zeroext %a[0-9]+/, ", bool", head)
    gsub(/, i8 noundef (zeroext )?%a[0-9]+/, ", uint8_t", head)
    gsub(/, i64 noundef %a[0-9]+/, ", uint64_t", head)
    sub(/\) #0 \{$/, ");", head)
    print head > heads
    proved++
}
/^define internal void @"quendaric_c::quendaric_[a-z0-9_]+"\(/ {
    sub(/internal void @"quendaric_c::quendaric_/, "void @quendaric_proved_")
    sub(/"\(/, "(")
    head = $0
    if (!sub(/^define void @/, "void ", head) || !sub(/\(ptr noundef %a0/, "(void *", head)) fail("a function without an answer")
    declared(head)
}
# what is called behind a function whose answer comes in two words: its parameters are one further
/^define internal noundef \{ i64, i64 \} @"quendaric_c::quendaric_[a-z0-9_]+"\(/ {
    name = parameters = $0
    gsub(/^[^@]*@|\(.*/, "", name)
    short = name
    gsub(/^"quendaric_c::quendaric_|"$/, "", short)
    gsub(/^[^(]*\(|\) #0 \{$/, "", parameters)
    n = split(parameters, part, ", ")
    head = "(ptr noundef %a0"
    given = ""
    for (i = 1; i <= n; i++) {
        sub(/%a[0-9]+$/, "%a" i, part[i])
        head = head ", " part[i]
        sub(/ noundef( zeroext)?/, "", part[i])
        given = given (i > 1 ? ", " : "") part[i]
    }
    behind = "\ndefine void @quendaric_proved_" short head ") #0 {\nstart:\n" \
        "  %r0 = call { i64, i64 } @" name "(" given ")\n" \
        "  %r1 = extractvalue { i64, i64 } %r0, 0\n  %r2 = extractvalue { i64, i64 } %r0, 1\n" \
        "  store i64 %r1, ptr %a0, align 8\n  %r3 = getelementptr i8, ptr %a0, i64 8\n  store i64 %r2, ptr %r3, align 8\n  ret void\n}"
    gsub(/ zeroext/, "", behind)
    sub(/^\(ptr noundef %a0/, "(void *", head)
    declared("void quendaric_proved_" short head ") #0 {")
}
behind != "" && /^}$/ { print $0 "\n" behind; behind = ""; starting = 0; next }
# 4
/^define (noundef ptr|\{ i64, i64 \}) @quendaric_[a-z0-9_]+\(/ {
    wrapped++
    wrapping = $0
    sub(/\(.*/, "", wrapping)
    in_registers = sub(/^define \{ i64, i64 \} @/, "", wrapping)
    sub(/^define noundef ptr @/, "", wrapping)
    parameters = gsub(/ %a[0-9]+/, "")
    split("", room)
    split("", is_null)
    split("", one)
    split("", page)
    split("", place)
    split("", pointer)
    split("", behind_of)
    split("", lent)
    split("", start_of)
    split("", length_of)
    split("", word)
    split("", stored)
    answer = joined = ""
    called = returned = 0
    next
}
wrapping != "" && /^(start:)?$/ { next }
wrapping != "" && /^}$/ {
    if (called != 1 || returned != 1) fail(wrapping " does not call its function once")
    wrapping = ""
    next
}
wrapping != "" {
    line = $0
    gsub(/[,()]/, " ", line)
    n = split(line, w, " ")
    # a list: two arguments that follow one another, in a room of 16 bytes; a pointer that is null becomes 4096
    if (/^  %r[0-9]+ = alloca \[16 x i8\], align 8$/) { room[w[1]] = 1; next }
    if (/^  %r[0-9]+ = icmp eq ptr %a[0-9]+, null$/) { is_null[w[1]] = w[6]; next }
    if (/^  %r[0-9]+ = zext i1 %r[0-9]+ to i64$/ && w[5] in is_null) { one[w[1]] = is_null[w[5]]; next }
    if (/^  %r[0-9]+ = mul i64 %r[0-9]+, 4096$/ && w[5] in one) { page[w[1]] = one[w[5]]; next }
    if (/^  %r[0-9]+ = getelementptr i8, ptr %a[0-9]+, i64 %r[0-9]+$/ && page[w[8]] == w[6]) { place[w[1]] = substr(w[6], 3); next }
    if (/^  store ptr %r[0-9]+, ptr %r[0-9]+, align 8$/ && w[3] in place && w[5] in room && !(w[5] in pointer)) { pointer[w[5]] = place[w[3]]; next }
    if (/^  %r[0-9]+ = getelementptr i8, ptr %r[0-9]+, i64 8$/ && w[6] in room) { behind_of[w[1]] = w[6]; next }
    if (/^  store i64 %a[0-9]+, ptr %r[0-9]+, align 8$/ && w[5] in behind_of && behind_of[w[5]] in pointer && !(behind_of[w[5]] in lent)) {
        if (substr(w[3], 3) != pointer[behind_of[w[5]]] + 1) fail(wrapping " exchanges arguments")
        lent[behind_of[w[5]]] = 1
        next
    }
    if (/^  %r[0-9]+ = load ptr, ptr %r[0-9]+, align 1$/ && w[6] in lent) { start_of[w[1]] = w[6]; next }
    if (/^  %r[0-9]+ = load i64, ptr %r[0-9]+, align 1$/ && w[6] in behind_of && behind_of[w[6]] in lent) { length_of[w[1]] = behind_of[w[6]]; next }
    # the call of its function; an answer in two words is stored in a room of its own and loaded from there
    if (/^  (%r[0-9]+ = call \{ i64, i64 \}|call void) @"quendaric_c::quendaric_[a-z0-9_]+"\(((ptr|i1|i8|i64) %[ar][0-9]+(, )?)*\)$/) {
        i = 3
        if (in_registers) { answer = w[1]; i = 8 }
        if (called++ || w[i] != "@\"quendaric_c::" wrapping "\"") fail(wrapping " calls another function")
        at = 0
        for (i += 2; i <= n; i += 2)
            if (w[i] ~ /^%a/) { if (w[i] != "%a" at++) fail(wrapping " exchanges arguments") }
            else if (!(w[i] in start_of) || length_of[w[i + 2]] != start_of[w[i]] || pointer[start_of[w[i]]] != at) fail(wrapping " exchanges arguments")
            else { at += 2; i += 2 }
        if (at != parameters) fail(wrapping " leaves out arguments")
        next
    }
    if (called && !in_registers && $0 == "  ret ptr %a0") { returned++; next }
    if (called && in_registers && /^  %r[0-9]+ = extractvalue \{ i64, i64 \} %r[0-9]+, [01]$/ && w[8] == answer) { word[w[1]] = w[9]; next }
    if (called && in_registers && /^  store i64 %r[0-9]+, ptr %r[0-9]+, align 1$/ && w[3] in word) {
        if (word[w[3]] == 0 && w[5] in room && !(w[5] in pointer)) { joined = w[5]; stored[0] = w[5]; next }
        if (word[w[3]] == 1 && w[5] in behind_of && behind_of[w[5]] == joined) { stored[1] = joined; next }
    }
    if (called && in_registers && /^  %r[0-9]+ = load \{ i64, i64 \}, ptr %r[0-9]+, align 8$/ && w[9] == joined && stored[0] == joined && stored[1] == joined) { loaded = w[1]; next }
    if (called && in_registers && loaded != "" && $0 == "  ret { i64, i64 } " loaded) { returned++; loaded = ""; next }
    fail(wrapping " does more than call its function: " $0)
}
# 5
/^define / { gsub(/ zeroext/, "") }
# 6
/^  %r[0-9]+ = load \{ i8, ptr \}, ptr %[ar][0-9]+, align 8$/ {
    to = substr($1, 3) + 0
    from = $9
    sub(/,$/, "", from)
    if (to >= 1000000) fail("too many values")
    print "  %r" to + 1000000 " = load i8, ptr " from ", align 1"
    print "  %r" to + 2000000 " = getelementptr i8, ptr " from ", i64 8"
    print "  %r" to + 3000000 " = load ptr, ptr %r" to + 2000000 ", align 8"
    print "  %r" to + 4000000 " = insertvalue { i8, ptr } poison, i8 %r" to + 1000000 ", 0"
    print "  %r" to " = insertvalue { i8, ptr } %r" to + 4000000 ", ptr %r" to + 3000000 ", 1"
    next
}
{ print }

# The forms.
/^(; .*)?$/ || $0 == "source_filename = \"rattle\"" || /^}$/ || /^[a-z]+\.[0-9]+:( .*)?$/ { starting = 0; next }
$0 == "start:" { starting = 1; next }
# bytes that never change, as the kept table
/^@static\.[0-9]+ = private unnamed_addr constant \[[0-9]+ x i8\] (zeroinitializer|c"[^"]*"), align 1$/ { next }
/^!llvm\.ident = !\{!0\}$/ || /^!0 = !\{!"rattle logic=[0-9a-f]+"\}$/ || $0 == "!1 = !{}" || $0 == "!2 = !{i8 0, i8 2}" { next }
/^attributes #[0-2] = \{ ((inlinehint|noinline) )?nounwind \}$/ || /^attributes #[1-9] = \{ ((nocallback|nofree|nosync|nounwind|willreturn|speculatable|cold|noreturn|memory\([a-z: ]+\)) )+\}$/ { next }
/^declare void @llvm\.mem(move\.p0\.p0|set\.p0)\.i64\(/ || /^declare i64 @llvm\.ctlz\.i64\(i64, i1 immarg\) / ||
    /^declare void @llvm\.trap\(\) / { next }
/^define (internal )?(noundef )?(void|ptr|i1|i8|i16|i32|i64|\{ ((ptr|double|i8|i16|i32|i64), (i64|double)|(i64|double), i(8|16|32)|i8, ptr) \}) @("[^"]+"|quendaric_proved_[a-z0-9_]+)\(((ptr|double|i1|i8|i16|i32|i64) (noundef )?%a[0-9]+(, )?)*\) #[0-2] \{$/ {
    split("", pointers)
    next
}
{ sub(/^ +/, "") }
/^%r[0-9]+ = alloca (ptr|double|i8|i16|i32|i64|\[[0-9]+ x i8\]), align [1248]$/ && starting {
    if ($4 == "ptr,") pointers[$1] = 1
    next
}
{ sub(/^%r[0-9]+ = /, "") }
{
    # what is left of the line when a pointer is loaded from a variable of pointers, or stored there
    line = $0 " "
    if (/^(load ptr, ptr|store ptr (%[ar]|@static\.)[0-9]+, ptr) %r[0-9]+,/) sub(/ptr %r[0-9]+, align/, "", line)
    gsub(/[,()]/, " ", line)
    n = split(line, w, " ")
    for (i = 1; i <= n; i++) if (w[i] in pointers) fail("a pointer is used as bytes: " $0)
}
/^load (ptr|double|i8|i16|i32|i64), ptr %[ar][0-9]+, align [1248](, !range !2)?(, !noundef !1)?$/ { next }
/^load \{ ((ptr|double|i8|i16|i32|i64), (i64|double)|(i64|double), i(8|16|32)) \}, ptr %[ar][0-9]+, align 8$/ || /^extractvalue \{ ((ptr|double|i8|i16|i32|i64), (i64|double)|(i64|double), i(8|16|32)|i8, ptr) \} %r[0-9]+, [01]$/ { next }
/^store (ptr|double|i8|i16|i32|i64) (%[ar]|@static\.)?-?[0-9]+, ptr %[ar][0-9]+, align [1248]$/ { next }
/^getelementptr (inbounds nuw )?i8, ptr (%[ar]|@static\.)[0-9]+, i64 (%[ar])?[0-9]+$/ { next }
/^(add|sub|mul|udiv|urem|shl|lshr|and|or|xor)( nuw| nsw)? i(8|16|32|64) (%[ar])?-?[0-9]+, (%[ar])?-?[0-9]+$/ { next }
/^(xor|and|or) i1 %[ar][0-9]+, (%[ar][0-9]+|true|false)$/ { next }
/^icmp (eq|ne|ult|ule|ugt|uge|slt|sle|sgt|sge) i(1|8|16|32|64) (%[ar])?-?[0-9]+, (%[ar])?-?[0-9]+$/ { next }
/^(zext|trunc|trunc nuw) i(1|8|16|32|64) (%[ar][0-9]+|true|false) to i(1|8|16|32|64)$/ { next }
/^bitcast (i64 %[ar][0-9]+ to double|double %[ar][0-9]+ to i64)$/ { next }
/^call void @llvm\.mem(move\.p0\.p0|set\.p0)\.i64\(ptr %[ar][0-9]+, (ptr %[ar][0-9]+|i8 [0-9]+), i64 [0-9]+, i1 false\)$/ { next }
/^call i64 @llvm\.ctlz\.i64\(i64 %[ar][0-9]+, i1 false\)$/ || /^call void @llvm\.trap\(\)$/ { next }
/^call (void|ptr|i1|i8|i16|i32|i64|\{ ((ptr|double|i8|i16|i32|i64), (i64|double)|(i64|double), i(8|16|32)|i8, ptr) \}) @"[^"]+"\((((ptr|i1|i8|i16|i32|i64) ((%[ar]|@static\.)?-?[0-9]+|true|false)|double %[ar][0-9]+)(, )?)*\)$/ { next }
/^br label %[a-z0-9.]+$/ || /^br i1 %[ar][0-9]+, label %[a-z0-9.]+, label %[a-z0-9.]+$/ { next }
/^switch i(8|16|32|64) %[ar][0-9]+, label %[a-z0-9.]+ \[$/ || /^i(8|16|32|64) -?[0-9]+, label %[a-z0-9.]+$/ || /^\]$/ { next }
/^ret (void|ptr %[ar][0-9]+|i(1|8|16|32|64) (%[ar])?-?[0-9]+|\{ ((ptr|double|i8|i16|i32|i64), (i64|double)|(i64|double), i(8|16|32)|i8, ptr) \} %r[0-9]+)$/ || /^ret i1 (true|false)$/ || /^unreachable$/ { next }
{ fail("a form that is not listed: " $0) }
END {
    if (!bad && (named != 2 || proved != calls || wrapped != calls || calls == 0)) {
        print "portable: " named " lines name the target, " proved " functions, " wrapped " exports; " calls " calls" > "/dev/stderr"
        bad = 1
    }
    exit bad
}
