# Writes the module that the kit's clang has passed (cross/build says how) again, in the forms that cross/to-c.awk reads.
#
#     awk -f cross/after-passes.awk passed.ll
#
#   1. Values and labels get short names.
#   2. What only helps the compiler goes: attributes, metadata, flags of sums, lifetimes, what it may assume. memcpy is memmove again: of two
#      places to-c.awk sees for itself whether they are apart.
#   3. A value that the block before chooses (phi) is loaded from a variable, which each of those blocks stores last. All such values of a block
#      are loaded before one is used, so that two may exchange their places.
#   4. A maximum, a minimum, a difference that stops at 0 and a distance from 0 become a comparison and a choice.
#   5. A place that is counted in words is counted in bytes.
#   6. For what has no meaning stands 0.
# It fails on what would be counted in pointers, whose width is the target's. Any other line is written as it is, for to-c.awk to refuse.
function fail(text) {
    print "after-passes: " FILENAME ":" FNR ": " text > "/dev/stderr"
    bad = 1
    exit 1
}
# 2
function clean(line) {
    sub(/ *;.*/, "", line)
    gsub(/, ![a-z.]+ ![0-9]+/, "", line)
    gsub(/ (range|captures|dereferenceable)\([^)]*\)/, "", line)
    gsub(/ initializes\((\([0-9]+, [0-9]+\)(, )?)+\)/, "", line)
    gsub(/ (noundef|nonnull|writeonly|readonly|readnone|zeroext|noalias|local_unnamed_addr|unnamed_addr|fastcc|inbounds|nuw|nsw|nneg|disjoint|exact|samesign)/, "", line)
    gsub(/ptr align [0-9]+ /, "ptr ", line)
    sub(/(tail|musttail|notail) call /, "call ", line)
    if (line ~ /^  /) sub(/ #[0-9]+$/, "", line)
    gsub(/@llvm\.memcpy\./, "@llvm.memmove.", line)
    return line
}
# 1
function value_name(name) {
    if (!(name in values)) values[name] = "%r" ++n_values
    return values[name]
}
function label_name(name) {
    if (!(name in labels)) labels[name] = "b." ++n_labels
    return labels[name]
}
function renamed(line, out, name, before) {
    out = ""
    while (match(line, /%("[^"]*"|[-A-Za-z0-9$._]+)/)) {
        before = substr(line, 1, RSTART - 1)
        name = substr(line, RSTART + 1, RLENGTH - 1)
        line = substr(line, RSTART + RLENGTH)
        out = out before (before ~ /label $/ || (in_phi && line ~ /^ \]/ && before ~ /, $/) ? "%" label_name(name) : value_name(name))
    }
    return out line
}
function fresh() { return "%r" ++n_values }
function put(line) { lines[++n_lines] = line; block_of[n_lines] = block }
# the two operands of a call: their type, x and y
function operands(text, part, first, second) {
    sub(/^.*@llvm\.[a-z.]+\.i[0-9]+\(/, "", text)
    sub(/\)$/, "", text)
    split(text, part, ", ")
    split(part[1], first, " ")
    split(part[2], second, " ")
    type = first[1]
    x = first[2]
    y = second[2]
}
# 3: what the block `from` stores last, for the value that is loaded from `slot`
function at_end(from, line) { edges[from, ++n_edges[from]] = line }
function chosen(slot, type, what, from, part, a, b, place) {
    if (type !~ /^\{/) {
        if (what == "undef" || what == "poison") what = type == "ptr" ? "null" : 0
        at_end(from, "  store " type " " what ", ptr " slot ", align 8")
        return
    }
    if (what == "undef" || what == "poison") return
    split(type, part, /[{}, ]+/)
    a = fresh(); b = fresh(); place = fresh()
    at_end(from, "  " a " = extractvalue " type " " what ", 0")
    at_end(from, "  " b " = extractvalue " type " " what ", 1")
    at_end(from, "  store " part[2] " " a ", ptr " slot ", align 8")
    at_end(from, "  " place " = getelementptr i8, ptr " slot ", i64 8")
    at_end(from, "  store " part[3] " " b ", ptr " place ", align 8")
}

/^define / {
    line = clean($0)
    split("", values); split("", labels); split("", lines); split("", slots); split("", edges); split("", n_edges); split("", block_of)
    n_values = n_labels = n_lines = n_slots = 0
    # the words before the name have no bracket in them; what stands behind it are the parameters
    match(line, /@("[^"]*"|[A-Za-z0-9_]+)\(/)
    head = substr(line, 1, RSTART + RLENGTH - 1)
    rest = substr(line, RSTART + RLENGTH)
    sub(/\)[^)]*\{$/, "", rest)
    n = split(rest, part, ", ")
    text = ""
    for (i = 1; i <= n; i++) {
        split(part[i], word, " ")
        values[substr(word[2], 2)] = "%a" (i - 1)
        text = text (i > 1 ? ", " : "") word[1] " noundef %a" (i - 1)
    }
    defined = head text ") #0 {"
    open = first = 1
    next
}
!open && /^(;.*)?$/ { next }
# words among which a branch of the source chose
!open && /^@switch\.table\./ {
    line = $0
    name = substr($1, 2)
    tables[name] = 1000 + ++n_tables
    sub(/^@[^ ]*/, "@static." tables[name], line)
    print line
    next
}
!open && /^target / { next }
!open { print; next }
/^}/ {
    print defined
    print "start:"
    for (i = 1; i <= n_slots; i++) print slots[i]
    for (i = 1; i <= n_lines; i++) {
        if (lines[i] ~ /^  (br|switch|ret|unreachable)/) for (k = 1; k <= n_edges[block_of[i]]; k++) print edges[block_of[i], k]
        print lines[i]
    }
    print "}\n"
    open = 0
    next
}
{ in_phi = / = phi / }
# a label
/^("[^"]*"|[-A-Za-z0-9$._]+):/ {
    line = $0
    sub(/:( *;.*)?$/, "", line)
    if (first) {
        labels[line] = block = "start"
        first = 0
        next
    }
    block = label_name(line)
    put(block ":")
    next
}
first { block = "start"; first = 0 }
/@llvm\.lifetime\./ || /@llvm\.assume\(/ || /@llvm\.experimental\.noalias/ { next }
{
    line = clean($0)
    for (name in tables) gsub("@" name, "@static." tables[name], line)
    line = renamed(line)
    n = split(line, w, " ")
}
in_phi {
    to = w[1]
    text = line
    sub(/^.* = phi /, "", text)
    match(text, /^(\{ [a-z0-9]+, [a-z0-9]+ \}|[a-z0-9]+)/)
    type = substr(text, 1, RLENGTH)
    text = substr(text, RLENGTH + 2)
    slot = fresh()
    slots[++n_slots] = "  " slot " = alloca " (type ~ /^\{/ ? "[16 x i8]" : type) ", align 8"
    pairs = split(text, pair, /\], \[|\[ | \]/)
    for (i = 1; i <= pairs; i++) {
        if (split(pair[i], part, /,? +/) < 2) continue
        k = part[1] == "" ? 2 : 1
        chosen(slot, type, part[k], substr(part[k + 1], 2))
    }
    put("  " to " = load " type ", ptr " slot ", align 8")
    next
}
# 6
{
    gsub(/ (undef|poison),/, " 0,", line)
    if (line ~ / insertvalue \{[^}]*\} 0,/) sub(/\} 0,/, "} poison,", line)
}
# 5
/ = getelementptr / {
    type = w[4]
    sub(/,$/, "", type)
    if (type !~ /^i(8|16|32|64)$/ || n != 8) fail("a place that is not counted in words: " line)
    if (type != "i8") {
        place = w[8]
        if (place ~ /^%/) {
            a = fresh()
            put("  " a " = mul i64 " place ", " substr(type, 2) / 8)
            place = a
        } else place = place * substr(type, 2) / 8
        line = "  " w[1] " = getelementptr i8, ptr " w[6] " i64 " place
    }
    put(line)
    next
}
# 4
/@llvm\.u(max|min)\./ {
    operands(line)
    a = fresh()
    put("  " a " = icmp " (/umax/ ? "ugt" : "ult") " " type " " x ", " y)
    put("  " w[1] " = select i1 " a ", " type " " x ", " type " " y)
    next
}
/@llvm\.usub\.sat\./ {
    operands(line)
    a = fresh(); b = fresh()
    put("  " a " = icmp ult " type " " x ", " y)
    put("  " b " = sub " type " " x ", " y)
    put("  " w[1] " = select i1 " a ", " type " 0, " type " " b)
    next
}
/@llvm\.abs\./ {
    operands(line)
    a = fresh(); b = fresh()
    put("  " a " = icmp slt " type " " x ", 0")
    put("  " b " = sub " type " 0, " x)
    put("  " w[1] " = select i1 " a ", " type " " b ", " type " " x)
    next
}
{ put(line) }
END { exit bad }
