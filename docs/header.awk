# Holds include/louravela.h to the exported functions: the same functions, each with the same parameters and result,
# where a record is its fields by name and type, in their order, those of a record inside it in its place. Reads the
# sources of the crates and then the header; prints what differs.

function scalar(type) {
    if (type == "u64") return "uint64_t"
    if (type == "usize") return "size_t"
    if (type == "&[u8]") return "const uint8_t *, size_t"
    if (type == "&mut [u8]") return "uint8_t *, size_t"
    if (type == "&mut [u64]") return "uint64_t *, size_t"
    return ""
}

# The name that C gives a field: the crates write farClosed, since a definition has no plain name for far_closed.
function snake(name,    i, c, said) {
    for (i = 1; i <= length(name); i++) {
        c = substr(name, i, 1)
        said = said (c ~ /[A-Z]/ ? "_" tolower(c) : c)
    }
    return said
}

# Records that are lent, of one that is written out.
function lent(said) { return "{" said "} *" }

# A type of a crate, written out.
function of_crate(crate, type,    full, part, i, n, said) {
    if (scalar(type) != "") return scalar(type)
    if (type ~ /^&mut \[[A-Za-z]+\]$/) return lent(of_crate(crate, substr(type, 7, length(type) - 7))) ", size_t"
    full = type ~ /::/ ? type : (crate "::" type) in fields ? crate "::" type : used[crate, type]
    if (!(full in fields)) return "no record " type
    sub(/::.*/, "", full)
    crate = full
    sub(/.*::/, "", type)
    n = split(fields[crate "::" type], part, ",")
    for (i = 1; i < n; i += 2)
        said = said "; " (scalar(part[i + 1]) != "" ? scalar(part[i + 1]) " " snake(part[i]) : of_crate(crate, part[i + 1]))
    return substr(said, 3)
}

# A type of the header, written out.
function of_header(type,    part, i, n, said) {
    if (type ~ / [*]$/ && substr(type, 1, length(type) - 2) in members)
        return lent(of_header(substr(type, 1, length(type) - 2)))
    if (!(type in members)) return type
    n = split(members[type], part, ",")
    for (i = 1; i < n; i += 2)
        said = said "; " (part[i + 1] in members ? of_header(part[i + 1]) : part[i + 1] " " part[i])
    return substr(said, 3)
}

# The inside of the first parentheses.
function inside(text) {
    sub(/^[^(]*\(/, "", text)
    sub(/\).*/, "", text)
    return text
}

FNR == 1 {
    crate = FILENAME
    sub(/^crates\//, "", crate)
    sub(/\/.*/, "", crate)
    record = text = ""
}

# ---- the crates

FILENAME ~ /\.rt$/ {
    if (/^use [a-z_]+::/) using = " "
    if (using != "") {
        using = using $0 " "
        if (!/;/) next
        n = split(using, part, /use |::|[{},; ]+/)
        for (i = 4; i < n; i++) used[crate, part[i]] = part[3] "::" part[i]
        using = ""
    }
    if (/^#\[repr\(C\)\]/) shared = 1
    else if (shared && /^pub struct /) { record = crate "::" $3; shared = 0; fields[record] = "" }
    else if (/^}/) record = ""
    else if (record != "") {
        name = $2
        sub(/:/, "", name)
        type = $0
        sub(/^[^:]*: /, "", type)
        sub(/,$/, "", type)
        fields[record] = fields[record] name "," type ","
    }
    if (/^pub extern "C" fn /) text = " "
    if (/^    ensures / && text != "") { exported[++count] = text; home[count] = crate; text = "" }
    if (text != "") text = text $0 " "
    next
}

# ---- the header

/^struct louravela_[a-z_]+ [{]/ { record = "struct " $2; next }
/^};/ { record = ""; next }
record != "" && /;/ {
    type = $0
    sub(/;.*/, "", type)
    name = type
    sub(/.* /, "", name)
    sub(/ [^ ]*$/, "", type)
    sub(/^ +/, "", type)
    members[record] = members[record] name "," type ","
    next
}
/^[a-z].* louravela_[a-z_]+\(/ { text = ""; open = 1 }
open { text = text $0 " " }
open && /;/ {
    open = 0
    result = name = text
    sub(/\(.*/, "", name)
    sub(/.* /, "", name)
    sub(" " name "[(].*", "", result)
    n = split(inside(text), part, /, */)
    said = ""
    for (i = 1; i <= n; i++) {
        type = part[i]
        sub(/[a-z_]+ *$/, "", type)
        gsub(/^ +| +$/, "", type)
        if (type != "") said = said ", " of_header(type)
    }
    header[name] = substr(said, 3) " -> " of_header(result)
}

END {
    for (k = 1; k <= count; k++) {
        name = result = exported[k]
        sub(/\(.*/, "", name)
        sub(/.* /, "", name)
        sub(/.*-> /, "", result)
        gsub(/ /, "", result)
        n = split(inside(exported[k]), part, /, */)
        said = ""
        for (i = 1; i <= n; i++) {
            type = part[i]
            sub(/^[^:]*: /, "", type)
            gsub(/^ +| +$/, "", type)
            if (type != "") said = said ", " of_crate(home[k], type)
        }
        said = substr(said, 3) " -> " of_crate(home[k], result)
        if (!(name in header)) print "include/louravela.h: no " name
        else if (header[name] != said) print "include/louravela.h: " name " is\n  " header[name] "\nand in crate " home[k] "\n  " said
        delete header[name]
    }
    for (name in header) print "include/louravela.h: " name " is exported by no crate"
}
