# Writes what is declared of the library, one line for each call, struct and number, in the words of C without `const`:
#     call gridlay_hit uint8_t (gridlay * | int64_t x | int64_t y | size_t *)
#     struct gridlay_rect { int64_t x | int64_t y | int64_t width | int64_t height }
#     number GRIDLAY_OK 0
# so that the header, the exports and the declarations of the Rust example can be compared. -v language=c reads a header,
# -v language=rust the exports or the declarations. A parameter of a plain number has its name too, since its type does not tell
# which one it is. A field or a parameter of the type Global takes no bytes, and a ghost is none at all; both are left out.

BEGIN {
    split("u8 uint8_t u32 uint32_t u64 uint64_t i64 int64_t usize size_t bool bool", pairs, " ")
    for (i = 1; i in pairs; i += 2) type_of[pairs[i]] = pairs[i + 1]
    split("Slot gridlay Handle gridlay BoxRect gridlay_rect Rect gridlay_rect FaultAt gridlay_fault Fault gridlay_fault " \
        "Counts gridlay_counts", pairs, " ")
    for (i = 1; i in pairs; i += 2) type_of[pairs[i]] = pairs[i + 1]
    # what a struct has inside another one, which C sees as one struct
    inner["Handle"] = 1
}

# All of the text, without comments and attributes, on one line.
{
    sub(/\/\/.*/, "")
    if (language == "c") sub(/^#.*/, "")
    text = text " " $0
}

function trimmed(it) {
    gsub(/[ \t]+/, " ", it)
    sub(/^ /, "", it)
    sub(/ $/, "", it)
    return it
}

# ---- C

function c_comments(it,    from, to) {
    while ((from = index(it, "/*")) > 0) {
        to = index(substr(it, from), "*/")
        it = substr(it, 1, from - 1) " " substr(it, from + to + 1)
    }
    return it
}

# `const uint8_t *text` is `uint8_t *`, `int64_t x` stays.
function c_parameter(it) {
    it = trimmed(it)
    sub(/^const /, "", it)
    if (it ~ /\*/) sub(/\*.*/, "*", it)
    sub(/ \*/, " *", it)
    return it
}

function read_c(    parts, n, i, it, name, rest, k, list, values) {
    text = c_comments(text)
    sub(/extern "C" \{/, "", text)
    n = split(text, parts, ";")
    for (i = 1; i <= n; i++) {
        it = trimmed(parts[i])
        if (it ~ /^typedef struct [a-z_]+ \{/) {
            name = it
            sub(/^typedef struct /, "", name)
            sub(/ .*/, "", name)
            sub(/^[^{]*\{/, "", it)
            list = field(it)
            while (trimmed(parts[++i]) !~ /^\}/) list = list " | " field(parts[i])
            print "struct " name " { " list " }"
        } else if (it ~ /^enum \{/) {
            sub(/^enum \{/, "", it)
            sub(/\}.*/, "", it)
            k = split(it, values, ",")
            for (j = 1; j <= k; j++) {
                sub(/ *= */, " ", values[j])
                if (trimmed(values[j]) != "") print "number " trimmed(values[j])
            }
        } else if (it ~ /gridlay_[a-z_]+\(/) {
            name = it
            sub(/\(.*/, "", name)
            rest = it
            sub(/^[^(]*\(/, "", rest)
            sub(/\).*/, "", rest)
            k = split(rest, values, ",")
            list = c_parameter(values[1])
            for (j = 2; j <= k; j++) list = list " | " c_parameter(values[j])
            print "call " substr(name, index(name, " ") + 1) " " substr(name, 1, index(name, " ") - 1) " (" sized(list) ")"
        }
    }
}

function field(it) {
    it = trimmed(it)
    if (it ~ /\*/) { gsub(/ ?\* ?/, " *", it); sub(/\*/, "* ", it) }
    return trimmed(it)
}

# A length right after a pointer goes by the name `size` in all.
function sized(list) {
    gsub(/\* \| size_t (size|room_size)/, "* | size_t size", list)
    return list
}

# ---- Rust

function c_type(it) {
    it = trimmed(it)
    if (it ~ /^\*(mut|const) /) { sub(/^\*(mut|const) /, "", it); return c_type(it) " *" }
    if (it ~ /^&(mut )?\[/) { sub(/^&(mut )?\[/, "", it); sub(/\]$/, "", it); return c_type(it) " * | size_t size" }
    if (it ~ /^&/) { sub(/^&(mut )?/, "", it); return c_type(it) " *" }
    return it in type_of ? type_of[it] : it
}

function rust_parameter(it,    name, type) {
    it = trimmed(it)
    if (it == "") return ""
    name = trimmed(substr(it, 1, index(it, ":") - 1))
    type = trimmed(substr(it, index(it, ":") + 1))
    if (type == "Global") return ""
    type = c_type(type)
    return type ~ /\*/ ? type : type " " name
}

function joined(list, it) {
    return it == "" ? list : list == "" ? it : list " | " it
}

# What stands between the first opening mark and the one that closes it.
function enclosed(it, opening, closing,    i, depth, c) {
    for (i = 1; i <= length(it); i++) {
        c = substr(it, i, 1)
        if (c == opening) depth++
        if (c == closing && --depth == 0) return substr(it, index(it, opening) + 1, i - index(it, opening) - 1)
    }
    return it
}

# The fields of a struct; those of an inner one in its place, and raw pointers as `void *`.
function rust_fields(body,    parts, n, i, it, type, name, list) {
    gsub(/(pub )?ghost [^{]*\{[^}]*\}( by \{[^}]*\})?/, "", body)
    n = split(body, parts, ",")
    for (i = 1; i <= n; i++) {
        it = trimmed(parts[i])
        sub(/^pub /, "", it)
        if (it == "") continue
        name = trimmed(substr(it, 1, index(it, ":") - 1))
        type = trimmed(substr(it, index(it, ":") + 1))
        if (type == "Global") continue
        if (type in inner && type in bodies) { list = joined(list, rust_fields(bodies[type])); continue }
        list = joined(list, (type ~ /^\*/ ? "void *" : c_type(type)) " " name)
    }
    return list
}

function read_rust(    at, rest, name, list, params, n, i, result, values) {
    rest = text
    while (match(rest, /#\[repr\(C\)\]/)) {
        rest = substr(rest, RSTART + RLENGTH)
        name = rest
        sub(/^[^{]*struct /, "", name)
        sub(/[ {].*/, "", name)
        bodies[name] = enclosed(substr(rest, index(rest, "struct ")), "{", "}")
    }
    for (name in bodies)
        if (!(name in inner) || !("Slot" in bodies)) print "struct " type_of[name] " { " rust_fields(bodies[name]) " }"
    rest = text
    while (match(rest, /fn gridlay_[a-z_]+\(/)) {
        name = substr(rest, RSTART + 3, RLENGTH - 4)
        rest = substr(rest, RSTART + RLENGTH - 1)
        params = enclosed(rest, "(", ")")
        result = substr(rest, length(params) + 3, 10)
        n = split(params, values, ",")
        list = ""
        for (i = 1; i <= n; i++) list = joined(list, rust_parameter(values[i]))
        print "call " name " " (result ~ /^ *-> *u8/ ? "uint8_t" : "void") " (" sized(list) ")"
    }
    rest = text
    while (match(rest, /const [A-Z]+: u8 = [0-9]+/)) {
        split(substr(rest, RSTART, RLENGTH), values, /[ :=]+/)
        print "number GRIDLAY_" values[2] " " values[4]
        rest = substr(rest, RSTART + RLENGTH)
    }
}

END {
    if (language == "c") read_c()
    else read_rust()
}
