# Declarations of the source, one a line, in the words of C: what include/fregnaul.h must say of them.

# RootRem8 is fregnaul_root_rem_u8, BatchAnswer is fregnaul_batch_answer
function snake(camel,    i, letter, out) {
    for (i = 1; i <= length(camel); i++) {
        letter = substr(camel, i, 1)
        out = out (letter ~ /[A-Z]/ ? "_" tolower(letter) : letter)
    }
    return out
}
function struct_name(name) {
    name = "fregnaul" snake(name)
    if (match(name, /[0-9]+$/)) name = substr(name, 1, RSTART - 1) "_u" substr(name, RSTART)
    return name
}

# a type that C cannot be given stays as it is, and so is found in no header
function c_type(type) {
    if (type ~ /^u(8|16|32|64)$/) return "uint" substr(type, 2) "_t"
    if (type == "usize") return "size_t"
    if (type ~ /^[A-Z][A-Za-z0-9]*$/) return struct_name(type)
    return type
}

# a slice passes as a pointer and then a length
function c_parameter(name, type,    constant) {
    if (type !~ /^&(mut )?\[.*\]$/) return c_type(type) " " name
    constant = type ~ /^&mut/ ? "" : "const "
    gsub(/^&(mut )?\[|\]$/, "", type)
    return constant c_type(type) " *" name ", size_t " name "_length"
}

function listed(text, between,    n, i, items, pair, out) {
    n = split(text, items, / *, */)
    for (i = 1; i <= n; i++) {
        if (items[i] == "") continue
        split(items[i], pair, /: */)
        out = out (out == "" ? "" : between) c_parameter(pair[1], pair[2])
    }
    return out
}

function inside(left, right,    from, text) {
    from = index($0, left) + 1
    text = substr($0, from, index($0, right) - from)
    gsub(/^ +| +$/, "", text)
    return text
}

part == "functions" {
    sub(/^.* fn /, "")
    name = substr($0, 1, index($0, "(") - 1)
    result = "void"
    if (match($0, /\) -> [A-Za-z0-9]+/)) result = c_type(substr($0, RSTART + 5, RLENGTH - 5))
    print "function " name ": " listed(inside("(", ")"), ", ") " -> " result
}

part == "structs" {
    sub(/^.* struct /, "")
    gsub(/pub /, "")
    print "struct " struct_name($1) ": " listed(inside("{", "}"), "; ") ";"
}

# not_normalised is FREGNAUL_NOT_NORMALIZED, spelt as the functions are
part == "refusals" {
    name = toupper($1)
    sub(/NORMALISED/, "NORMALIZED", name)
    print "refusal FREGNAUL_" name " = " $3
}
