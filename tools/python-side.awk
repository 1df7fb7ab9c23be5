# Writes python/quendaric/exports.py from what tools/exports.awk has read, and from the header's refusals.
#
# It stands before rust-side.awk, which ends the run. A number or a list of u64 is of the kind binary64 where it has the bits of such numbers:
# the lists of samples, and a and b of a call that answers with a pattern. Python passes floats there, and refuses whole numbers.

function kind_of(call, i) {
    if (arg_type[call, i] != "u64") return arg_type[call, i]
    if (arg_name[call, i] ~ /^(currents|sensitivities|concentrations)$/) return "binary64"
    return answer_of[call] == "binary64" && arg_name[call, i] ~ /^[ab]$/ ? "binary64" : "u64"
}
# The text as a string of Python, in lines.
function python_text(text) {
    sub(/\n$/, "", text)
    if (text ~ /\\|"""|"$/) fail("a comment has a backslash, three quotes, or a quote at its end")
    return "\"\"\"" text "\"\"\""
}
function python_answer(of,    i, text) {
    for (i = 1; i <= field_count[of]; i++)
        text = text (i > 1 ? ", " : "") "(\"" field_name[of, i] "\", \"" field_type[of, i] "\", " field_extent[of, i] + 0 ")"
    return "    \"" of "\": (\n        " python_text(answer_comment[of]) ",\n        [" text "],\n    ),"
}
function python_call(call,    i, text) {
    for (i = 1; i <= arg_count[call]; i++)
        text = text (i > 1 ? ", " : "") "(\"" arg_name[call, i] "\", \"" arg_shape[call, i] "\", \"" kind_of(call, i) "\", " arg_extent[call, i] + 0 ")"
    return "    \"" call "\": (\n        \"" answer_of[call] "\",\n        " python_text(call_comment[call]) ",\n        [" text "],\n    ),"
}
# The refusals of the header: a number and its comment, which may go on in further lines.
/^#define QUENDARIC_REFUSED_/ { refusal[++refusals] = $3; meaning[refusals] = ""; in_refusal = 1 }
in_refusal {
    line = $0
    sub(/^#define [^*]*\/\* /, "", line)
    gsub(/^ +| *\*\/$/, "", line)
    meaning[refusals] = meaning[refusals] (meaning[refusals] == "" ? "" : " ") line
    if (/\*\/$/) in_refusal = 0
}
END {
    file = made "/exports.py"
    print "\"\"\"The calls of include/quendaric.h. tools/prototypes makes this file: do not edit it.\"\"\"\n" >file
    print "VERSION = \"" version "\"\n\n# What each refusal means.\nREFUSALS = {" >file
    for (i = 1; i <= refusals; i++) print "    " refusal[i] ": " python_text(meaning[i]) "," >file
    print "}\n\n# What each answer tells, and its fields: name, kind, and the length of an array or 0.\nANSWERS = {" >file
    for (i = 1; i <= answers; i++) print python_answer(answer[i]) >file
    print "}\n\n# The answer of each call, what it does, and its arguments: name, shape, kind, and the length of an array or 0.\nCALLS = {" >file
    for (i = 1; i <= number; i++) print python_call(calls[i]) >file
    print "}" >file
    if (!refusals) fail("the header has no refusal")
}
