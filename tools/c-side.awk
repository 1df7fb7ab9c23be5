# Writes the header anew, cross/calls.c, tests/cross/turns.h, ignored.c, overlap.c and layout.h of tests/c from what tools/exports.awk has read.

# The type in C. In Rust a type of Rattle has the same name.
function c_type(type) {
    if (type == "usize") return "size_t"
    if (type == "bool") return "bool"
    if (type ~ /^[ui](8|16|32|64)$/) return (type ~ /^u/ ? "uint" : "int") substr(type, 2) "_t"
    fail("no C type is known for " type)
    return type
}
# The length of the call's list i.
function length_of(call, i) { return arg_count[call] == 1 ? "length" : arg_name[call, i] "_length" }

# head, the n parts with commas between them, and the tail, in lines of at most 120 columns; a further line begins below the first part.
function wrapped(head, part, n, tail,    i, line, all, next_part) {
    if (n == 0) return head tail
    line = head
    for (i = 1; i <= n; i++) {
        next_part = part[i] (i < n ? "," : tail)
        if (i > 1 && length(line) + 1 + length(next_part) > 120) {
            all = all line "\n"
            line = sprintf("%" length(head) "s", "") next_part
        } else line = line (i > 1 ? " " : "") next_part
    }
    return all line
}
# The parameters of a call in C, into part; their number.
function parameters(call, part,    i, n, type, name) {
    for (i = 1; i <= arg_count[call]; i++) {
        type = c_type(arg_type[call, i])
        name = arg_name[call, i]
        if (arg_shape[call, i] == "number") part[++n] = type " " name
        if (arg_shape[call, i] == "fixed") part[++n] = "const " type " " name "[" arg_extent[call, i] "]"
        if (arg_shape[call, i] == "read") part[++n] = "const " type " *" name
        if (arg_shape[call, i] == "written") part[++n] = type " *QUENDARIC_RESTRICT " name
        if (arg_shape[call, i] ~ /read|written/) part[++n] = "size_t " length_of(call, i)
    }
    if (n == 0) part[++n] = "void"
    return n
}
# What is passed to a call, behind the n parts: a list's start and its length by the two patterns, in which NAME and LENGTH stand for theirs.
function passed(call, part, n, start, size,    i) {
    for (i = 1; i <= arg_count[call]; i++) {
        if (arg_shape[call, i] !~ /read|written/) { part[++n] = arg_name[call, i]; continue }
        part[++n] = filled(start, call, i)
        if (size != "") part[++n] = filled(size, call, i)
    }
    return n
}
function filled(pattern, call, i) {
    gsub(/NAME/, arg_name[call, i], pattern)
    gsub(/LENGTH/, length_of(call, i), pattern)
    return pattern
}
# The head of a function with the call's answer and parameters.
function head_of(call, name, tail,    part, n) {
    n = parameters(call, part)
    return wrapped("quendaric_" answer_of[call] " " name "(", part, n, tail)
}

# ---- The header

function c_comment(text) {
    sub(/\n$/, " */", text)
    gsub(/\n/, "\n   ", text)
    return "/* " text
}
function typedef(of,    i, text) {
    for (i = 1; i <= field_count[of]; i++)
        text = text "  " c_type(field_type[of, i]) " " field_name[of, i] (field_extent[of, i] == "" ? "" : "[" field_extent[of, i] "]") ";\n"
    return c_comment(answer_comment[of]) "\ntypedef struct {\n" text "} quendaric_" of ";\n"
}
function prototype(call) { return c_comment(call_comment[call]) "\nQUENDARIC_ANSWER\n" head_of(call, "quendaric_" call, ");") "\n" }
# Version, names for other targets, answers and calls are replaced, each where it stands.
FNR == 1 { header_made = made "/quendaric.h" }
FNR == 1 && split(version, part, ".") != 3 { fail("the changelog has no version") }
/^#define QUENDARIC_NAME\(call\)/ { sub(/_cross_[0-9]+_[0-9]+_[0-9]+_/, "_cross_" part[1] "_" part[2] "_" part[3] "_") }
/^#define QUENDARIC_VERSION/ {
    versions++
    sub(/".*"/, "\"" version "\"")
    if ($2 ~ /_MAJOR$/) sub(/[0-9]+$/, part[1])
    if ($2 ~ /_MINOR$/) sub(/[0-9]+$/, part[2])
    if ($2 ~ /_PATCH$/) sub(/[0-9]+$/, part[3])
}
# The call that is named after the version: where the header refers to it, and in the exports.
FNR == 1 {
    for (i = 1; i <= number; i++) if (calls[i] ~ /^version_/) named_version = calls[i]
    if (named_version != "version_" part[1] "_" part[2] "_" part[3]) fail("crates/quendaric and crates/callers name another version: quendaric_" named_version)
}
{ gsub(/quendaric_version_[0-9]+_[0-9]+_[0-9]+/, "quendaric_" named_version) }
/^#define quendaric_[a-z0-9_]+ QUENDARIC_NAME/ {
    if (!named++) for (i = 1; i <= number; i++) print "#define quendaric_" calls[i] " QUENDARIC_NAME(" calls[i] ")" >header_made
    next
}
/^\/\* ---- Answers and calls/ {
    print $0 "\n" >header_made
    for (i = 1; i <= answers; i++) print typedef(answer[i]) >header_made
    for (i = 1; i <= number; i++) print prototype(calls[i]) >header_made
    inside = 1
}
inside && /^#ifdef __cplusplus$/ { inside = 0; behind = 1 }
!inside { print >header_made }
END {
    if (!versions || !named || !behind) fail("the header lacks its version, the names for other targets, or the place of the calls")
}

# ---- cross/calls.c

# The parameter in the proved function: a length is 64 bits wide, and stands behind its list.
function proved_type(call, i) {
    if (arg_shape[call, i] != "number") return "const void *" (arg_shape[call, i] ~ /read|written/ ? ", uint64_t" : "")
    return arg_type[call, i] == "usize" ? "uint64_t" : c_type(arg_type[call, i])
}
function crossed(call,    i, text, part, n) {
    text = "void quendaric_proved_" call "(void *"
    for (i = 1; i <= arg_count[call]; i++) text = text ", " proved_type(call, i)
    text = text ");\n" head_of(call, "quendaric_" call, ") {") "\n  quendaric_" answer_of[call] " answer;\n"
    part[1] = "&answer"
    n = passed(call, part, 1, "NAME", "LENGTH")
    return text wrapped("  quendaric_proved_" call "(", part, n, ");") "\n  return answer;\n}\n"
}
END {
    file = made "/calls.c"
    print "/* The calls of include/quendaric.h over the proved functions, for the archives that cross/build makes. tools/prototypes" >file
    print "   makes this file: do not edit it. */\n\n#include \"target.h\"" >file
    for (i = 1; i <= number; i++) printf "\n%s", crossed(calls[i]) >file
}

# ---- tests/cross/turns.h

function drawn(call, i,    type, name) {
    type = c_type(arg_type[call, i])
    name = arg_name[call, i]
    if (arg_shape[call, i] == "fixed") return "const " type " *" name " = drawn_packed(\"" name "\", " arg_extent[call, i] ");"
    if (arg_shape[call, i] != "number")
        return "const lent " name " = drawn_list(\"" name "\", sizeof(" type "), " (arg_shape[call, i] == "written" ? "true" : "false") ");"
    if (type == "bool") return "const bool " name " = drawn_number(\"" name "\") % 2 == 1;"
    # a size has 32 bits at least on every target
    return "const " type " " name " = " (type == "uint64_t" ? "" : type == "size_t" ? "(uint32_t)" : "(" type ")") "drawn_number(\"" name "\");"
}
function noted(of, i,    name) {
    name = field_name[of, i]
    if (field_extent[of, i] != "") return "note_bytes(r." name ", sizeof r." name ");"
    return "note(" (field_type[of, i] == "u64" ? "" : "(uint64_t)") "r." name ");"
}
function turn(call,    i, of, text, part, n) {
    of = answer_of[call]
    text = "static void turn_" call "(void) {\n"
    for (i = 1; i <= arg_count[call]; i++) text = text "  " drawn(call, i) "\n"
    n = passed(call, part, 0, "NAME.start", "NAME.length")
    text = text "  before_call();\n" wrapped("  const quendaric_" of " r = quendaric_" call "(", part, n, ");") "\n  after_call();\n"
    for (i = 3; i <= field_count[of]; i++) text = text "  " noted(of, i) "\n"
    return text "  end(r.refusal, r.place);\n}\n"
}
# Does the call go over a whole table?
function whole_table(call,    i) {
    for (i = 1; i <= arg_count[call]; i++) if (arg_name[call, i] == "table") return 1
    return call ~ /_table$/
}
function lists_of(call,    i, lists) {
    for (i = 1; i <= arg_count[call]; i++) lists += is_list(call, i)
    return lists
}
END {
    file = made "/turns.h"
    print "/* A turn of each call: operands by their names (draw.h), every field of the answer.\n   tools/prototypes makes this file: do not edit it. */\n/* clang-format off */" >file
    for (i = 1; i <= number; i++) printf "\n%s", turn(calls[i]) >file
    printf "\n#define EACH_TURN(TURN)" >file
    for (i = 1; i <= number; i++) {
        printf " \\\n  TURN(%s, %s)", calls[i], whole_table(calls[i]) ? "TABLE_SETS" : "SETS" >file
        if (lists_of(calls[i]) > most_lists) most_lists = lists_of(calls[i])
    }
    printf "\n\ntypedef char enough_lists[LISTS >= %d ? 1 : -1];\n", most_lists >file
}

# ---- tests/c/ignored.c

function ignored(call,    part, n, head) {
    n = parameters(call, part)
    head = wrapped("void ignored_" call "(", part, n, ") {")
    split("", part)
    n = passed(call, part, 0, "NAME", "LENGTH")
    return head "\n" wrapped("  quendaric_" call "(", part, n, ");") "\n}\n"
}
END {
    file = made "/ignored.c"
    print "/* The compiler warns of each call whose answer is ignored.\n" >file
    print "   Compiled by tests/c/run, never linked. tools/prototypes makes this file: do not edit it. */\n/* clang-format off */\n\n#include \"quendaric.h\"" >file
    for (i = 1; i <= number; i++) printf "\n%s", ignored(calls[i]) >file
}

# ---- tests/c/overlap.c

function is_list(call, i) { return arg_shape[call, i] != "number" }
function is_written(call, i) { return arg_shape[call, i] == "written" }
function writes(call,    i) {
    for (i = 1; i <= arg_count[call]; i++) if (is_written(call, i)) return 1
}
# A line with the call: in place of list i it is lent the text.
function lent_so(call, i, text,    j, line) {
    for (j = 1; j <= arg_count[call]; j++)
        line = line (j > 1 ? ", " : "") (!is_list(call, j) ? "1" : (j == i ? text : arg_name[call, j]) (arg_shape[call, j] == "fixed" ? "" : ", 1"))
    return "  refusals += quendaric_" call "(" line ").refusal;"
}
# Once nothing overlaps. Then each pair of lists of one type is the same list, which is to be warned of where one is written; before that the
# two are parts of one list.
function overlapping(call,    i, j, text, name) {
    text = lent_so(call, 0) "\n"
    for (i = 1; i <= arg_count[call]; i++)
        for (j = 1; j < i; j++) {
            if (!is_list(call, i) || !is_list(call, j) || arg_type[call, i] != arg_type[call, j]) continue
            name = arg_name[call, j]
            if (is_written(call, i) || is_written(call, j))
                text = text lent_so(call, i, name " + 4096") "\n" lent_so(call, i, name) " /* overlaps */\n"
            else text = text lent_so(call, i, name) "\n"
        }
    return text
}
function overlap(call,    i, head) {
    for (i = 1; i <= arg_count[call]; i++)
        if (is_list(call, i)) head = head (head == "" ? "" : ", ") c_type(arg_type[call, i]) " *" arg_name[call, i]
    return "uint64_t overlap_" call "(" head ") {\n  uint64_t refusals = 0;\n" overlapping(call) "  return refusals;\n}\n"
}
END {
    file = made "/overlap.c"
    print "/* gcc warns of each call whose pointers overlap, and of no other line.\n" >file
    print "   A line each, marked; -Wrestrict is a part of -Wall. Compiled by tests/c/run, never linked. tools/prototypes makes this file: do not" >file
    print "   edit it. */\n/* clang-format off */\n\n#include \"quendaric.h\"" >file
    for (i = 1; i <= number; i++) if (writes(calls[i]) || lists_of(calls[i]) > 1) printf "\n%s", overlap(calls[i]) >file
}

# ---- tests/c/layout.h

# Bytes of a type of fixed width, to a multiple of which it is aligned.
function width(type,    bits) {
    bits = type
    if (!sub(/^[ui]/, "", bits) || bits !~ /^(8|16|32|64)$/) fail(type " has no fixed width: no answer has one")
    return bits / 8
}
function rounded_up(offset, to) { return int((offset + to - 1) / to) * to }
# Offset and size of each field by C's rules, and the size of the whole.
function layout(of,    i, each, size, offset, widest, text) {
    for (i = 1; i <= field_count[of]; i++) {
        each = width(field_type[of, i])
        size = field_extent[of, i] == "" ? each : each * field_extent[of, i]
        if (each > widest) widest = each
        offset = rounded_up(offset, each)
        text = text "FIELD(quendaric_" of ", " field_name[of, i] ", " offset ", " size ");\n"
        offset += size
    }
    return text "SIZE(quendaric_" of ", " rounded_up(offset, widest) ");\n"
}
END {
    file = made "/layout.h"
    print "/* Offset and size of each field, and the size of each answer, by C's rules. layout.c has each compiler compare them." >file
    print "   tools/prototypes makes this file: do not edit it. */\n/* clang-format off */" >file
    for (i = 1; i <= answers; i++) printf "\n%s", layout(answer[i]) >file
}
