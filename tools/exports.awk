# Reads the exports of crates/quendaric/src/lib.rt, the structs that they return, and the comments of both.
#
# tools/prototypes runs it ahead of the scripts that write. It leaves, by a call's or an answer's name without quendaric_:
#
#     number, calls[i], call_comment[call]             the calls, in the order of the exports
#     answer_of[call], struct_of[answer]               the answer's name in C, its struct in Rattle
#     answers, answer[i], answer_comment[answer]       the answers, in the order of their first calls
#     field_count[answer], field_name[answer, i], field_type[..], field_extent[..]    an array has an extent
#     arg_count[call], arg_name[call, i], arg_type[..], arg_shape[..], arg_extent[..]
#
# The shape of an argument is number, read, written or fixed; of a list the type is its element's. The lines of a comment end with newlines.

function fail(text) {
    print "prototypes: " text
    bad = 1
}
function trimmed(text) {
    gsub(/^[ \n]+|[ \n]+$/, "", text)
    return text
}
# The two sides of `name: type`.
function left_of(text) { return trimmed(substr(text, 1, index(text, ":") - 1)) }
function right_of(text) { return trimmed(substr(text, index(text, ":") + 1)) }
# The element of [T] or [T; n], and its n.
function element(type) {
    gsub(/^\[|;.*|\]$/, "", type)
    return type
}
function extent(type) {
    if (type !~ /;/) return ""
    gsub(/^.*; *|\]$/, "", type)
    return type
}
# The C name of a struct, and CamelCase of a C name.
function snake(name,    i, letter, text) {
    for (i = 1; i <= length(name); i++) {
        letter = substr(name, i, 1)
        text = text (i > 1 && letter ~ /[A-Z]/ ? "_" : "") tolower(letter)
    }
    return text
}
function camel(name,    words, word, w, text) {
    words = split(name, word, "_")
    for (w = 1; w <= words; w++) text = text toupper(substr(word[w], 1, 1)) substr(word[w], 2)
    return text
}

function add_argument(call, text,    i, type) {
    i = ++arg_count[call]
    type = right_of(text)
    arg_name[call, i] = left_of(text)
    arg_shape[call, i] = type !~ /^&/ ? "number" : type ~ /^&mut / ? "written" : type ~ /;/ ? "fixed" : "read"
    sub(/^&(mut )?/, "", type)
    arg_type[call, i] = element(type)
    arg_extent[call, i] = extent(type)
}
# The fields of an answer, in the order of its struct: those of a refusal stand in its place, and its number has the name refusal.
function add_fields(answer, struct,    each, n, i, name, type) {
    if (!(struct in body)) fail("no struct " struct " below crates/")
    if (!(struct in laid)) fail(struct " has no #[repr(C)]")
    n = split(body[struct], each, ",")
    for (i = 1; i <= n; i++) {
        if (trimmed(each[i]) == "") continue
        name = left_of(each[i])
        type = right_of(each[i])
        if (type == "Refusal") add_fields(answer, type)
        else add_field(answer, struct == "Refusal" && name == "number" ? "refusal" : name, type)
    }
}
function add_field(answer, name, type,    i) {
    i = ++field_count[answer]
    field_name[answer, i] = name
    field_type[answer, i] = element(type)
    field_extent[answer, i] = extent(type)
}
# A mere refusal has its name in C, and once its comment, from the line `-> quendaric_name: comment` of the call.
function add_answer(call, struct,    of) {
    of = snake(struct)
    if (struct == "Refusal") {
        of = returned
        sub(/:.*/, "", of)
        if (of == "") fail(call " does not say how C names its answer: // -> quendaric_name: comment")
        if (returned ~ /: /) answer_comment[of] = right_of(returned) "\n"
    } else answer_comment[of] = comment_of[struct]
    answer_of[call] = of
    if (of in struct_of) return
    struct_of[of] = struct
    answer[++answers] = of
    if (answer_comment[of] == "") fail("quendaric_" of " has no comment")
}
# The head of an export: quendaric_name(arguments) -> Type
function add_call(head,    call, arguments, part, n, i) {
    call = head
    sub(/\(.*/, "", call)
    sub(/^quendaric_/, "", call)
    calls[++number] = call
    call_comment[call] = comment
    if (comment == "") fail(call " has no comment")
    arguments = head
    sub(/^[^(]*\(/, "", arguments)
    sub(/\).*/, "", arguments)
    sub(/, *$/, "", arguments)
    # [u8; 8] has no comma, so a comma parts two arguments
    n = split(arguments, part, ",")
    for (i = 1; i <= n; i++) add_argument(call, part[i])
    add_answer(call, trimmed(substr(head, index(head, "->") + 2)))
}

# The structs of the layers.
FILENAME !~ /quendaric\/src/ && FILENAME != header {
    if (/^#\[repr\(C\)\]$/) { repr = 1; next }
    if (/^pub struct [A-Za-z0-9]+ \{$/) {
        struct = $3
        body[struct] = ""
        if (repr) laid[struct] = 1
        next
    }
    if (!/^#\[/) repr = 0
    if (/^}/) struct = ""
    if (struct != "" && /^    pub /) body[struct] = body[struct] substr($0, length("    pub ") + 1)
    next
}
# The exports, and the comments above them and above the `use` of a struct.
FILENAME != header {
    if (/^\/\/ -> quendaric_/) returned = substr($0, length("// -> quendaric_") + 1)
    else if (/^\/\//) comment = comment substr($0, 4) "\n"
    if (/^use /) { used = $2; gsub(/^.*::|;$/, "", used); comment_of[used] = comment }
    if (/^pub extern "C" fn /) { head = ""; in_head = 1; sub(/^pub extern "C" fn /, "") }
    if (in_head) {
        if (/^    (ensures|requires)|^{/) { in_head = 0; add_call(head) }
        else head = head $0
    } else if (!/^(\/\/|#\[)/) comment = returned = ""
    next
}
# The header: every struct has been read.
FNR == 1 { for (i = 1; i <= answers; i++) add_fields(answer[i], struct_of[answer[i]]) }
