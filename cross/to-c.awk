# Writes the module that cross/after-passes.awk has written again as C99, for compilers other than the kit's: a statement for each line.
#
#     awk -f cross/to-c.awk plain.ll plain.ll
#
# It reads the forms of that script, and fails on any other. Sums, differences and products are C's, of unsigned
# numbers, so that none of them is undefined. Memory is bytes, read and written by memcpy (cross/one-file.c calls it q_copy,
# memmove q_move, memset q_fill); what may lie at any address is read byte by byte. What cannot be reached is an endless loop. Five things are for the sake of speed and of the stack:
#   1. A scalar that is only loaded and stored as what it is becomes a variable of C, and no bytes.
#   2. A move is memcpy, which gcc sees through where it does not see through memmove, if its two places cannot overlap: one
#      is in a variable of this function, the other in another one or handed in by the caller. Any other is memmove.
#   3. One of two words is chosen by a mask: gcc would make a jump of it, which depends on a digit.
#   4. A variable of at most 64 bytes is set to zeros, and moved as a whole to another, by words: gcc keeps in memory what memset has seen.
#   5. What is true or false is a byte, 1 or 0: gcc does not join bools of a loop side by side.
# No pointer is `restrict`: an answer may be written to the place of an argument (state = state.next()).
# The module is read twice. The first time it is noted what is used, and how, and which labels are jumped to.
function fail(text) {
    print "to-c: " FILENAME ":" FNR ": " text > "/dev/stderr"
    bad = 1
    exit 1
}
# Two parts that travel together, as { i64, i8 }, are a struct: list where the first is a pointer, found where the second is one, and else pair. Here the type is i64_i8.
function width(type) {
    if (type !~ /^(ptr|double|i1|i8|i16|i32|i64)$/) fail("no C is known for the type " type)
    return type == "ptr" ? "ptr" : type == "double" ? 64 : type == "i1" ? 8 : substr(type, 2) + 0
}
function c_type(type) { return type == "i1" ? "uint8_t" : type == "ptr" ? "bytes" : type == "void" ? "void" : type ~ /_/ ? (type ~ /^ptr_/ ? "list" : type ~ /_ptr$/ ? "found" : "pair") : "uint" width(type) "_t" }
# the type of part 0 or 1
function part_of(type, which) { if (which) sub(/^.*_/, "", type); else sub(/_.*/, "", type); return type }
# @"a::b" as a name of C
function c_name(name) {
    if (name !~ /^@("[A-Za-z0-9_:]+"|quendaric_proved_[a-z0-9_]+)$/) fail("no C is known for the name " name)
    gsub(/[@"]/, "", name)
    if (name ~ /^quendaric_proved_/) return name
    gsub(/::/, "_", name)
    return "q_" name
}
# What a generic function is made for stands in angle brackets behind its name: here a number stands for it.
function plain_name(name, short) {
    if (name in named_as) return named_as[name]
    short = name
    sub(/::<.*/, "", short)
    gsub(/[^A-Za-z0-9_:]+/, "_", short)
    return named_as[name] = short "_" ++instances[short]
}
# bytes that never change
function constant(text) { sub(/^@static\./, "static_", text); return text }
# an operand of a type
function value(type, text) {
    if (text ~ /^@static\./) return "(bytes)" constant(text)
    if (text == "null") return "(bytes)0"
    if (text ~ /^%/ || text == "true" || text == "false") return text ~ /^%/ ? substr(text, 2) : text
    if (text ~ /^-/) return "(" c_type(type) ")-" substr(text, 2) (width(type) == 64 ? "ull" : "")
    return width(type) == 64 ? text "ull" : text
}
function turned(type, text) { return "(" c_type(type) ")(" value(type, text) " ^ " (width(type) == 64 ? "0x8000000000000000ull" : width(type) == 32 ? "0x80000000u" : width(type) == 16 ? "0x8000u" : "0x80u") ")" }
function label(text) { sub(/^%/, "", text); sub(/,$/, "", text); gsub(/\./, "_", text); return text }
# a variable, declared in a line with fifteen others of its type
function declare(type, name) { names[type] = names[type] (declared[type]++ % 16 ? ", " : (names[type] == "" ? "" : ";\n") "  " type " ") name }
function set(type, text) {
    if (!(result in typed)) { declare(c_type(type), result); typed[result] = type }
    body = body "  " result " = " text ";\n"
}
# a function of those at the end of this file
function helper(name) { needed[name] = 1; return name }
function arguments(text, n, i, part, each) {
    sub(/^[^(]*\(/, "", text)
    sub(/\).*$/, "", text)
    n = split(text, part, ", ")
    text = ""
    for (i = 1; i <= n; i++) {
        split(part[i], each, " ")
        text = text (i > 1 ? ", " : "") value(each[1], each[2])
    }
    return text
}
function store(type, place, text) {
    if ((at, place) in plain) body = body "  v" substr(place, 3) " = " text ";\n"
    else body = body "  " helper("store_" width(type)) "(" value("ptr", place) ", " text ");\n"
}
# The variable in which a pointer lies, "caller" for an argument, or nothing where neither is known.
function origin(name) { return name ~ /^a/ ? "caller" : base[name] }
function apart(to, from) { return origin(to) != "" && origin(from) != "" && origin(to) != origin(from) }

{
    while (match($0, /@"[A-Za-z0-9_:]*[^A-Za-z0-9_:"][^"]*"/))
        $0 = substr($0, 1, RSTART + 1) plain_name(substr($0, RSTART + 2, RLENGTH - 3)) substr($0, RSTART + RLENGTH - 1)
    while (match($0, /\{ [a-z0-9]+, [a-z0-9]+ \}/)) {
        pair = substr($0, RSTART + 2, RLENGTH - 4)
        sub(/, /, "_", pair)
        $0 = substr($0, 1, RSTART - 1) pair substr($0, RSTART + RLENGTH)
    }
}

# ---- First reading
NR == FNR && /^define / { at++; next }
NR == FNR && /^[a-z]+(\.[0-9]+)?:/ { next }
NR == FNR && / = alloca (double|ptr|i[0-9]+), / { sub(/,$/, "", $4); plain[at, $1] = $4; next }
NR == FNR {
    line = $0
    while (match(line, /label %[a-z0-9.]+/)) {
        jumped[at, label(substr(line, RSTART + 6, RLENGTH - 6))] = 1
        line = substr(line, RSTART + RLENGTH)
    }
    line = $0
    made = ""
    if (match(line, /^ *%r[0-9]+ = /)) { made = line; gsub(/^ *| = .*/, "", made) }
    sub(/^ *(%r[0-9]+ = )?/, "", line)
    gsub(/[,()]/, " ", line)
    n = split(line, w, " ")
    # a value that is only made is used where what is made of it is used
    if (made != "" && w[1] !~ /^(call|alloca)$/) { made_of[at, ++values[at]] = line; value_of[at, values[at]] = made }
    else for (i = 1; i <= n; i++) used[at, w[i]] = 1
    if ($0 ~ /^}/) {
        do {
            more = 0
            for (k = values[at]; k > 0; k--) if (!((at, k) in counted) && (at, value_of[at, k]) in used) {
                counted[at, k] = more = 1
                n_parts = split(made_of[at, k], parts, " ")
                for (i = 1; i <= n_parts; i++) used[at, parts[i]] = 1
            }
        } while (more)
    }
    for (i = 1; i <= n; i++) {
        if ((at, w[i]) in plain && !((w[1] == "load" && i == 4 || w[1] == "store" && i == 5) && plain[at, w[i]] == w[2]))
            delete plain[at, w[i]]
    }
    next
}

# ---- Second reading
/^(;.*)?$/ || /^(source_filename|attributes|declare|!)/ { next }
/^@static\.[0-9]+ = / {
    name = constant($1)
    size = $0
    sub(/^[^[]*\[/, "", size)
    size += 0
    text = $0
    if ($0 ~ /x i64\]/) {
        sub(/^[^]]*\] \[/, "", text)
        sub(/\].*/, "", text)
        gsub(/i64 -/, "(uint64_t)-", text)
        gsub(/i64 /, "", text)
        gsub(/,/, "ull,", text)
        constants = constants "static const uint64_t " name "[" size "] = {\n  " text "ull\n};\n\n"
        next
    }
    # a list of no bytes has one that nothing reads
    if (!sub(/^[^"]*"/, "", text)) text = "0"
    else {
        sub(/".*/, "", text)
        left = text
        text = ""
        for (i = 0; left != ""; i++) {
            if (left !~ /^\\/) fail("a constant with a byte that is not written by its number")
            text = text (i ? i % 32 ? ", " : ",\n  " : "") "0x" tolower(substr(left, 2, 2))
            left = substr(left, 4)
        }
        if (i != size) fail("a constant of another length")
    }
    constants = constants "static const unsigned char " name "[" (size ? size : 1) "] = {\n  " text "\n};\n\n"
    next
}
/^define / {
    head = $0
    internal = sub(/^define internal /, "", head) || 0
    sub(/^define /, "", head)
    sub(/^noundef /, "", head)
    type = head
    sub(/ .*/, "", type)
    name = head
    sub(/^[^@]*/, "", name)
    sub(/\(.*/, "", name)
    parameters = head
    sub(/^[^(]*\(/, "", parameters)
    sub(/\).*/, "", parameters)
    gsub(/ noundef/, "", parameters)
    n = split(parameters, part, ", ")
    parameters = locals = body = ""
    pointers = ""
    rooms_here = 0
    split("", names)
    split("", declared)
    split("", base)
    at = ++functions
    for (i = 1; i <= n; i++) {
        split(part[i], each, " ")
        # as cross/calls.c declares them: the answer, and what is only lent
        given = c_type(each[1]) " " substr(each[2], 2)
        if (!internal && each[1] == "ptr") {
            given = (i > 1 ? "const " : "") "void *p" substr(each[2], 3)
            locals = locals "  const bytes " substr(each[2], 2) " = (bytes)p" substr(each[2], 3) ";\n"
        }
        parameters = parameters (i > 1 ? ", " : "") given
        if (!((at, each[2]) in used)) body = body "  (void)" substr(each[2], 2) ";\n"
    }
    heads[at] = "static " (internal ? "inline " : "") c_type(type) " " c_name(name) "(" (n ? parameters : "void") ")"
    split("", typed)
    next
}
/^}/ {
    for (i = 1; i <= rooms_here; i++) {
        to = room_at[i]
        if (body ~ ("(^|[^A-Za-z0-9_])" to "([^A-Za-z0-9_]|$)")) pointers = pointers "  const bytes " to " = m" substr(to, 2) ".bytes;\n"
    }
    n = split("list found pair bytes uint64_t uint32_t uint16_t uint8_t", order, " ")
    for (i = 1; i <= n; i++) if (order[i] in names) locals = locals names[order[i]] ";\n"
    bodies[at] = "{\n" locals pointers body "}\n"
    next
}
/^[a-z]+(\.[0-9]+)?:/ {
    sub(/:.*/, "")
    if ((at, label($0)) in jumped) body = body label($0) ":;\n"
    next
}
{
    line = $0
    sub(/^ +/, "", line)
    result = ""
    if (line ~ /^%r[0-9]+ = /) { result = line; sub(/ = .*/, "", result); result = substr(result, 2); sub(/^%r[0-9]+ = /, "", line) }
    gsub(/, ![a-z]+ ![0-9]+/, "", line)
    n = split(line, w, " ")
    op = w[1]
    if (result != "" && op !~ /^(call|alloca)$/ && !((at, "%" result) in used)) next
}
op == "alloca" {
    type = line
    sub(/^alloca /, "", type)
    sub(/, align.*/, "", type)
    if (!((at, "%" result) in used)) next
    memory = "m" substr(result, 2)
    if ((at, "%" result) in plain) declare(c_type(type), "v" substr(result, 2))
    else if (type ~ /^\[/) {
        size = substr(type, 2) + 0
        rooms[size] = 1
        room[at, result] = size
        locals = locals "  room_" size " " memory ";\n"
        room_at[++rooms_here] = result
    } else
        locals = locals "  " c_type(type) " " memory ";\n  const bytes " result " = (bytes)&" memory ";\n"
    typed[result] = "ptr"
    base[result] = result
    next
}
op == "load" {
    sub(/,$/, "", w[2]); sub(/,$/, "", w[4])
    if (w[2] ~ /_/) {
        declare(c_type(w[2]), result)
        typed[result] = w[2]
        place = value("ptr", w[4])
        body = body "  " result ".first = " helper("load_" width(part_of(w[2], 0))) "(" place ");\n"
        body = body "  " result ".second = " helper("load_" width(part_of(w[2], 1))) "(" place " + 8);\n"
        next
    }
    if ((at, w[4]) in plain) set(w[2], "v" substr(w[4], 3))
    # a place of any address: a library's memcpy may read it by words, which a processor can be set to refuse
    else if (w[2] ~ /^i(16|32|64)$/ && w[6] == 1) set(w[2], helper("read_" width(w[2])) "(" value("ptr", w[4]) ")")
    else set(w[2], helper("load_" width(w[2])) "(" value("ptr", w[4]) ")")
    next
}
op == "extractvalue" {
    sub(/,$/, "", w[3])
    type = part_of(w[2], w[4])
    set(type, (type == "ptr" || width(type) == 64 ? "" : "(" c_type(type) ")") substr(w[3], 2) (w[4] == 0 ? ".first" : ".second"))
    next
}
op == "insertvalue" {
    # of nothing and the first part, then of that and the second
    sub(/,$/, "", w[3]); sub(/,$/, "", w[5])
    if (!(result in typed)) { declare(c_type(w[2]), result); typed[result] = w[2] }
    if (w[3] == "poison" && w[6] == 0) body = body "  " result ".first = " value(w[4], w[5]) ";\n"
    else if (w[3] != "poison" && w[6] == 1) body = body "  " result ".first = " substr(w[3], 2) ".first;\n  " result ".second = " value(w[4], w[5]) ";\n"
    else fail("no C is known for: " line)
    next
}
op == "store" { sub(/,$/, "", w[3]); sub(/,$/, "", w[5]); store(w[2], w[5], value(w[2], w[3])); next }
op == "getelementptr" {
    if (!sub(/^getelementptr i8, ptr /, "", line)) fail("no C is known for: " line)
    split(line, w, ", i64 ")
    set("ptr", value("ptr", w[1]) " + (size_t)" value("i64", w[2]))
    base[result] = origin(value("ptr", w[1]))
    next
}
op ~ /^(add|sub|mul|udiv|urem|shl|lshr|and|or|xor)$/ {
    sub(/^[a-z]+ /, "", line)
    split(line, w, " ")
    sub(/,$/, "", w[2])
    # true and false have no sum
    if (w[1] == "i1" && op !~ /^(and|or|xor)$/) fail("no C is known for: " op " " line)
    sign = op == "add" ? "+" : op == "sub" ? "-" : op == "mul" ? "*" : op == "udiv" ? "/" : op == "urem" ? "%" : op == "shl" ? "<<" : op == "lshr" ? ">>" : op == "and" ? "&" : op == "or" ? "|" : "^"
    wide = width(w[1]) < 64 ? "(uint32_t)" : ""
    set(w[1], (width(w[1]) < 64 ? "(" c_type(w[1]) ")(" wide : "") value(w[1], w[2]) " " sign " " wide value(w[1], w[3]) (width(w[1]) < 64 ? ")" : ""))
    next
}
op == "icmp" {
    sub(/,$/, "", w[4])
    sign = w[2] ~ /lt$/ ? "<" : w[2] ~ /le$/ ? "<=" : w[2] ~ /gt$/ ? ">" : w[2] ~ /ge$/ ? ">=" : w[2] == "eq" ? "==" : w[2] == "ne" ? "!=" : ""
    if (sign == "") fail("no C is known for: " line)
    # signed numbers compare as unsigned ones do when the sign bit of both is turned over
    if (w[2] ~ /^s/ && w[3] !~ /^i(8|16|32|64)$/) fail("no C is known for: " line)
    if (w[2] == "slt" && w[5] == "0") set("i1", value(w[3], w[4]) " >> " width(w[3]) - 1)
    else if (w[2] ~ /^s/) set("i1", turned(w[3], w[4]) " " sign " " turned(w[3], w[5]))
    else set("i1", value(w[3], w[4]) " " sign " " value(w[3], w[5]))
    next
}
op == "zext" || op == "trunc" {
    if (w[5] == "i1") set("i1", "(" value(w[2], w[3]) " & 1) != 0")
    else set(w[5], "(" c_type(w[5]) ")" value(w[2], w[3]))
    next
}
# one of two values; of the two parts that travel together as well
op == "select" {
    sub(/,$/, "", w[3]); sub(/,$/, "", w[5])
    if (w[2] != "i1" || w[4] != w[6]) fail("no C is known for: " line)
    if (w[4] == "i64") set(w[4], helper("either") "(" value("i1", w[3]) ", " value(w[4], w[5]) ", " value(w[4], w[7]) ")")
    else set(w[4], value("i1", w[3]) " ? " value(w[4], w[5]) " : " value(w[4], w[7]))
    next
}
# the sign moves in from above
op == "ashr" {
    sub(/,$/, "", w[3])
    if (w[4] !~ /^[0-9]+$/ || w[4] == 0) fail("no C is known for: " line)
    wide = width(w[2]) < 64 ? "(uint32_t)" : ""
    x = value(w[2], w[3])
    sign = "0 - (" wide x " >> " width(w[2]) - 1 ")"
    set(w[2], "(" c_type(w[2]) ")(" (w[4] == width(w[2]) - 1 ? sign : wide x " >> " w[4] " | (" sign ") << " width(w[2]) - w[4]) ")")
    next
}
op == "ptrtoint" && w[5] == "i64" { set("i64", "(uint64_t)(size_t)" value("ptr", w[3])); next }
op == "inttoptr" && w[2] == "i64" { set("ptr", "(bytes)(size_t)" value("i64", w[3])); next }
# any value where the module has none that means something; here each has one
op == "freeze" { set(w[2], value(w[2], w[3])); next }
op == "bitcast" { set(w[5], value(w[2], w[3])); next }
op == "call" && /@llvm\.mem(move|set)/ {
    split(arguments(line), w, ", ")
    sub(/ull$/, "", w[3])
    # as a number: as texts 8 is not below 16
    w[3] += 0
    # a whole variable, by words
    if ((at, w[1]) in room && room[at, w[1]] == w[3] && w[3] <= 64) {
        if (/@llvm\.memset/ && w[2] == 0) {
            body = body " "
            for (i = 0; 8 * i < w[3]; i++) body = body " m" substr(w[1], 2) ".words[" i "] ="
            body = body " 0;\n"
            next
        }
        if (/@llvm\.memmove/ && (at, w[2]) in room && room[at, w[2]] == w[3]) { body = body "  m" substr(w[1], 2) " = m" substr(w[2], 2) ";\n"; next }
    }
    body = body "  " (/@llvm\.memset/ ? "q_fill" : apart(w[1], w[2]) ? "q_copy" : "q_move") "(" w[1] ", " w[2] ", " w[3] ");\n"
    next
}
op == "call" && /@llvm\.ctlz/ { split(arguments(line), w, ", "); set("i64", helper("leading_zeros") "(" w[1] ")"); next }
op == "call" && /@llvm\.trap/ { body = body "  for (;;) {\n  }\n"; next }
op == "call" {
    name = line
    sub(/^[^@]*/, "", name)
    sub(/\(.*/, "", name)
    text = c_name(name) "(" arguments(line) ")"
    if (w[2] == "void") body = body "  " text ";\n"
    else set(w[2], text)
    next
}
op == "br" && w[2] == "label" { body = body "  goto " label(w[3]) ";\n"; next }
op == "br" {
    sub(/,$/, "", w[3])
    body = body "  if (" value("i1", w[3]) ")\n    goto " label(w[5]) ";\n  goto " label(w[7]) ";\n"
    next
}
op == "switch" { sub(/,$/, "", w[3]); body = body "  switch (" value(w[2], w[3]) ") {\n  default: goto " label(w[5]) ";\n"; next }
op == "]" { body = body "  }\n"; next }
op ~ /^i(8|16|32|64)$/ { sub(/,$/, "", w[2]); body = body "  case " value(op, w[2]) ": goto " label(w[4]) ";\n"; next }
op == "ret" { body = body (w[2] == "void" ? "  return;\n" : "  return " value(w[2], w[3]) ";\n"); next }
op == "unreachable" { body = body "  for (;;) {\n  }\n"; next }
{ fail("no C is known for: " line) }

function print_access(size, type) {
    if (("load_" size) in needed)
        printf "static inline %s load_%s(const unsigned char *at) {\n  %s word;\n  q_copy(&word, at, sizeof word);\n  return word;\n}\n", type, size, type
    if (("store_" size) in needed)
        printf "static inline void store_%s(unsigned char *at, %s word) {\n  q_copy(at, &word, sizeof word);\n}\n", size, type
}
function print_bytes(size, type, i, text) {
    if (!(("read_" size) in needed)) return
    for (i = 0; i < size / 8; i++) text = text (i ? " | " : "") "(" type ")at[" i "]" (i ? " << " 8 * i : "")
    printf "static inline %s read_%s(const unsigned char *at) {\n  return (%s)(%s);\n}\n", type, size, type, text
}
END {
    if (bad) exit 1
    print "typedef unsigned char *bytes;"
    print "typedef struct {\n  uint64_t first, second;\n} pair;\ntypedef struct {\n  bytes first;\n  uint64_t second;\n} list;\ntypedef struct {\n  uint64_t first;\n  bytes second;\n} found;\n"
    for (size in rooms) sizes[++n_sizes] = size + 0
    for (i = 1; i <= n_sizes; i++)
        for (j = i; j > 1 && sizes[j - 1] > sizes[j]; j--) { size = sizes[j]; sizes[j] = sizes[j - 1]; sizes[j - 1] = size }
    # what has no bytes gets one, which nothing reads
    for (i = 1; i <= n_sizes; i++) print "typedef union {\n  uint64_t words[" int((sizes[i] + 7) / 8) + !sizes[i] "];\n  unsigned char bytes[" sizes[i] + !sizes[i] "];\n} room_" sizes[i] ";"
    for (size = 8; size <= 64; size *= 2) print_access(size, "uint" size "_t")
    print_access("ptr", "bytes")
    for (size = 16; size <= 64; size *= 2) print_bytes(size, "uint" size "_t")
    if ("leading_zeros" in needed)
        print "static inline uint64_t leading_zeros(uint64_t word) {\n  unsigned count = 64, half;\n  for (half = 32; half > 0; half /= 2)\n    if (word >> half != 0) {\n      count -= half;\n      word >>= half;\n    }\n  return count - word;\n}"
    if ("either" in needed)
        print "static inline uint64_t either(uint8_t first, uint64_t x, uint64_t y) {\n  return y ^ ((x ^ y) & (0 - (uint64_t)first));\n}"
    printf "%s", constants
    for (i = 1; i <= functions; i++) {
        name = heads[i]
        sub(/\(.*/, "", name)
        sub(/.* /, "", name)
        if (name in named) { print "to-c: two functions are called " name > "/dev/stderr"; exit 1 }
        named[name] = 1
        print heads[i] ";"
    }
    for (i = 1; i <= functions; i++) printf "\n%s %s", heads[i], bodies[i]
}
