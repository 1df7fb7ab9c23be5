# Writes tests/host/src/exports.rs from what tools/exports.awk has read: the answers, the declarations and a safe function for each call.

# head, the n parts and the tail as rustfmt has them: on one line, or each part on a line of its own, so deep.
function listed(head, part, n, tail, deep,    i, line, space) {
    line = head
    for (i = 1; i <= n; i++) line = line (i > 1 ? ", " : "") part[i]
    if (length(line tail) <= 120) return line tail
    space = sprintf("%" deep "s", "")
    line = head "\n"
    for (i = 1; i <= n; i++) line = line space "    " part[i] ",\n"
    return line space tail
}
function rust_struct(of,    i, text) {
    for (i = 1; i <= field_count[of]; i++)
        text = text "    pub " field_name[of, i] ": " \
            (field_extent[of, i] == "" ? field_type[of, i] : "[" field_type[of, i] "; " field_extent[of, i] "]") ",\n"
    return "#[repr(C)]\n#[derive(Clone, Copy, Debug, Default, PartialEq, Eq)]\npub struct " camel(of) " {\n" text "}\n"
}
function declaration(call,    i, n, part, name, pointer) {
    for (i = 1; i <= arg_count[call]; i++) {
        name = arg_name[call, i]
        pointer = arg_shape[call, i] == "number" ? "" : arg_shape[call, i] == "written" ? "*mut " : "*const "
        part[++n] = name ": " pointer arg_type[call, i]
        if (arg_shape[call, i] ~ /read|written/) part[++n] = length_of(call, i) ": usize"
    }
    return listed("    pub fn quendaric_" call "(", part, n, ") -> " camel(answer_of[call]) ";", 4)
}
# The parameter of the safe function: a reference for a pointer and a length.
function reference(call, i,    type) {
    type = arg_type[call, i]
    if (arg_shape[call, i] == "number") return type
    if (arg_shape[call, i] == "fixed") return "&[" type "; " arg_extent[call, i] "]"
    return (arg_shape[call, i] == "written" ? "&mut [" : "&[") type "]"
}
# What it passes on.
function handed(call, i, part, n,    name) {
    name = arg_name[call, i]
    part[++n] = arg_shape[call, i] == "number" ? name : name (arg_shape[call, i] == "written" ? ".as_mut_ptr()" : ".as_ptr()")
    if (arg_shape[call, i] ~ /read|written/) part[++n] = name ".len()"
    return n
}
function unsafe_call(call,    i, n, part, text, line) {
    for (i = 1; i <= arg_count[call]; i++) n = handed(call, i, part, n)
    text = listed("quendaric_" call "(", part, n, ")", 8)
    if (text !~ /\n/ && length(text) + length("    let answer = unsafe {  };") <= 120) return "unsafe { " text " }"
    text = listed("        quendaric_" call "(", part, n, ")", 8)
    return "unsafe {\n" text "\n    }"
}
function safe(call,    i, n, part, before, after) {
    for (i = 1; i <= arg_count[call]; i++) {
        part[++n] = arg_name[call, i] ": " reference(call, i)
        if (arg_shape[call, i] !~ /read|fixed/) continue
        before = before "    let " arg_name[call, i] "_before = " arg_name[call, i] ".to_vec();\n"
        after = after "    left(" arg_name[call, i] ", &" arg_name[call, i] "_before);\n"
    }
    before = listed("pub fn " call "(", part, n, ") -> " camel(answer_of[call]) " {", 0) "\n" before
    if (after == "") return before "    " unsafe_call(call) "\n}\n"
    return before "    let answer = " unsafe_call(call) ";\n" after "    answer\n}\n"
}
END {
    file = made "/exports.rs"
    print "//! The calls of the archive, with slices for pointers and lengths. tools/prototypes makes this file: do not edit it." >file
    print "\nuse crate::calls::left;" >file
    for (i = 1; i <= answers; i++) printf "\n%s", rust_struct(answer[i]) >file
    printf "\nextern \"C\" {\n" >file
    for (i = 1; i <= number; i++) print declaration(calls[i]) >file
    print "}" >file
    for (i = 1; i <= number; i++) printf "\n%s", safe(calls[i]) >file
    print "prototypes: " number " calls"
    exit bad || !number
}
