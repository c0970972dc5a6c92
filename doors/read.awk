# Reads the header and prints what it says as plain records, a tab between fields, for the other scripts:
#
#   version    TEXT
#   constant   NAME VALUE TEXT
#   status     NAME VALUE TEXT
#   struct     NAME PARTS                             PARTS: 1 where the bare forms take its fields one by one, else 0
#   field      STRUCT NAME ELEMENT COUNT ROW TEXT     COUNT 0: no array; ROW, of an array of arrays: elements of each
#   door       NAME FORMS LINE                        FORMS: 2 with a bare form, 1 without
#   says       DOOR TEXT                              the door's comment, line by line
#   holder     DOOR NAME WAY STRUCT                   of the safe form, before the parameters that the bare form has for it
#   parameter  DOOR NAME WAY ELEMENT MANY COUNT ROLE HOLDER ROW
#              of the bare form, in the words of doors/door.rs. ELEMENT may be a struct's name. HOLDER and ROW are of a
#              holder's field, which may be a Value; where HOLDER is empty the safe form has the same parameter
#   refusal    DOOR NUMBER
#
# Variables: header, the file's name for messages; roles, the role words, a tab between them.

BEGIN {
    OFS = "\t"
    element["uint8_t"] = "U8"
    element["int16_t"] = "I16"
    element["uint16_t"] = "U16"
    element["int32_t"] = "I32"
    element["uint32_t"] = "U32"
    element["size_t"] = "Size"
    element["float"] = "F32"
    element["double"] = "F64"
    count = split(roles, word, "\t")
    for (i = 1; i <= count; i++) known[word[i]] = 1
    name_form = "^[a-z][a-z0-9_]*$"
}

function fail(line, why) {
    print header ":" line ": " why > "/dev/stderr"
    failed = 1
    exit 1
}

function trim(text) {
    gsub(/^[ \t]+/, "", text)
    gsub(/[ \t]+$/, "", text)
    return text
}

# A length: a number, or a constant of the header.
function length_of(text, line) {
    if (text ~ /^[0-9]+$/) return text
    if (!(text in value)) fail(line, "the length `" text "` is no number and no constant of this header")
    return value[text]
}

# ---- lines to comments and code

{
    rest = $0
    if (!commenting && code == "" && rest ~ /^[ \t]*#/) {
        read_directive(trim(rest))
        next
    }
    if (skipping) next
    while (rest != "") {
        if (commenting) {
            at = index(rest, "*/")
            if (index(at ? substr(rest, 1, at - 1) : rest, "/*")) fail(FNR, "the comment before this one has no end")
            comment[++comments] = said(at ? substr(rest, 1, at - 1) : rest)
            rest = at ? substr(rest, at + 2) : ""
            if (at) commenting = 0
        } else {
            if (index(rest, "//")) fail(FNR, "a comment opens with `/*` here")
            at = index(rest, "/*")
            piece = trim(at ? substr(rest, 1, at - 1) : rest)
            if (piece != "") {
                if (code == "") began = FNR
                code = code == "" ? piece : code " " piece
            }
            rest = at ? substr(rest, at + 2) : ""
            if (at) {
                if (inside == "" && code != "") fail(FNR, "a comment inside a prototype")
                commenting = 1
                comments = 0
                rest = " *" rest
            }
        }
    }
    if (code == "") next
    if (inside == "enum") read_enumerator()
    else if (inside == "struct") read_field()
    else read_statement()
}

# A comment's line without the star before it.
function said(text) {
    sub(/^[ \t]*\*/, "", text)
    sub(/^ /, "", text)
    sub(/[ \t]+$/, "", text)
    return text
}

function read_directive(text) {
    if (text ~ /^#ifdef __cplusplus/) skipping = 1
    else if (text ~ /^#endif/) skipping = 0
    else if (text ~ /^#define G7231_VERSION "[^"]*"$/) {
        split(text, word, "\"")
        print "version", word[2]
    }
}

# ---- enums and structs, a line at a time

function read_enumerator(  list, text) {
    if (commenting) fail(FNR, "what an enumerator means stands on its line")
    if (code ~ /^[}] *;$/) inside = ""
    else {
        text = code
        sub(/,$/, "", text)
        if (split(text, list, / *= */) != 2 || list[1] !~ /^[A-Z][A-Z0-9_]*$/ || list[2] !~ /^[0-9]+$/ || comments != 1)
            fail(FNR, "an enumerator has the form `NAME = NUMBER, /* what it means */`")
        if (list[1] ~ /_DONE$/) statuses = 1
        else if (enumerators == 0) statuses = 0
        enumerators++
        value[list[1]] = list[2]
        if (statuses) status_name[list[2]] = list[1]
        print (statuses ? "status" : "constant"), list[1], list[2], trim(comment[1])
    }
    code = ""
    comments = 0
}

function read_field(  n, name) {
    if (commenting) fail(FNR, "what a field means stands on its line")
    if (code ~ /^[}] *[a-z0-9_]+ *;$/) {
        name = code
        gsub(/[} ;]/, "", name)
        print "struct", name, apart
        for (n = 1; n <= fields; n++) print "field", name, field_text[n]
        element[name] = name
        if (apart) keep_parts(name)
        inside = ""
    } else {
        read_member(code)
    }
    code = ""
    comments = 0
}

function read_member(type,  form, list, n, size) {
    form = "a field has the form `TYPE NAME;`, `TYPE NAME[LENGTH];` or `TYPE NAME[ROWS][LENGTH];`"
    if (type !~ /;$/) fail(FNR, form)
    sub(/ *;$/, "", type)
    for (n = 0; match(type, /\[[^]]*\]$/); n++) {
        size[n] = length_of(substr(type, RSTART + 1, RLENGTH - 2), FNR)
        type = substr(type, 1, RSTART - 1)
    }
    if (n > 2 || split(type, list, / +/) != 2 || !(list[1] in element) || list[2] !~ name_form) fail(FNR, form)
    if (list[1] in parts) fail(FNR, list[1] " is taken in parts, so that it can be no field")
    field_name[++fields] = list[2]
    field_type[fields] = list[1]
    field_count[fields] = n == 0 ? 0 : n == 1 ? size[0] : size[0] * size[1]
    field_row[fields] = n == 2 ? size[0] : 0
    field_text[fields] = list[2] OFS element[list[1]] OFS field_count[fields] OFS field_row[fields] OFS \
        (comments ? trim(comment[1]) : "")
}

# The fields of a struct that the bare forms take one by one.
function keep_parts(name,  n) {
    parts[name] = fields
    for (n = 1; n <= fields; n++) {
        part_name[name, n] = field_name[n]
        part_type[name, n] = field_type[n]
        part_count[name, n] = field_count[n]
        part_row[name, n] = field_row[n]
    }
}

# Whether the comment before a struct says so.
function is_apart(  i, text) {
    for (i = 1; i <= comments; i++) text = text " " comment[i]
    gsub(/ +/, " ", text)
    return text ~ /bare forms take its fields one by one/
}

# ---- everything else ends with a semicolon

function read_statement() {
    if (code ~ /^enum *[{]$/) {
        inside = "enum"
        enumerators = 0
        code = ""
        comments = 0
        return
    }
    if (code ~ /^typedef struct *[a-z0-9_]* *[{]$/) {
        inside = "struct"
        fields = 0
        apart = is_apart()
        code = ""
        comments = 0
        return
    }
    if (code !~ /;/) return
    if (code !~ /^[^;]*;$/) fail(FNR, "something follows a `;`")
    if (code != "const char *g7231_refusal(uint32_t status);") read_door()
    code = ""
    comments = 0
}

# `uint32_t g7231_NAME(PARAMETERS);` after its comment.
function read_door(  at, name, list, count, i) {
    if (code !~ /^uint32_t g7231_[a-z0-9_]+\(.*\);$/)
        fail(began, "this is no enum, no struct and no door: `uint32_t g7231_NAME(PARAMETERS);`")
    at = index(code, "(")
    name = substr(code, 16, at - 16)
    if (name ~ /^bare_/) fail(began, "the bare forms are made by doors/make: take this prototype out")
    if (name in doors) fail(began, "g7231_" name " stands here twice")
    doors[name] = 1
    if (comments == 0) fail(began, "g7231_" name " has no comment before it")
    forms = 2
    for (i in role) delete role[i]
    for (i in moved) delete moved[i]
    for (i in enough) delete enough[i]
    for (i in listed) delete listed[i]
    for (i in taken) delete taken[i]
    for (i in refused) delete refused[i]
    refusals = 0
    read_comment(name)
    print "door", name, forms, began
    for (i = 1; i <= comments; i++) print "says", name, comment[i]
    count = split(substr(code, at + 1, length(code) - at - 2), list, /,/)
    slice = ""
    for (i = 1; i <= count; i++) read_parameter(name, trim(list[i]), i < count ? trim(list[i + 1]) : "")
    for (i in listed)
        if (listed[i] != "met")
            fail(began, "g7231_" name ": its comment names `" i "`, which is no parameter and no part of one")
    for (i = 1; i <= refusals; i++) print "refusal", name, refusal[i]
}

# ---- the comment of a door

function read_comment(name,  i, block, text, told) {
    block = ""
    told = 0
    for (i = 1; i <= comments; i++) {
        text = comment[i]
        if (text ~ /[Hh]as no bare form/) forms = 1
        if (text == "Takes:" || text == "Makes:" || text == "Refuses:") {
            block = text
            if (text == "Refuses:") told = 1
        } else if (text == "Refuses: nothing") {
            told = 1
            block = ""
        } else if (text ~ /^Refuses/ || text ~ /^Takes/ || text ~ /^Makes/) {
            fail(began, "g7231_" name ": `" text "`: the line is `Takes:`, `Makes:`, `Refuses:` or `Refuses: nothing`")
        } else if (block != "" && text ~ /^   /) {
            continue
        } else if (block == "Refuses:" && text ~ /^  [^ ]/) {
            read_refusal(name, text)
        } else if (block != "" && text ~ /^  [^ ]/) {
            read_item(name, block, trim(text))
        } else {
            block = ""
        }
    }
    if (!told) fail(began, "g7231_" name ": its comment has no `Refuses:` (or `Refuses: nothing`)")
}

# `NUMBER NAME: when`, by the enum of statuses.
function read_refusal(name, text,  list) {
    text = trim(text)
    if (text !~ /^[0-9]+ [A-Z0-9_]+: ./) fail(began, "g7231_" name ": `" text "`: a refusal is `NUMBER NAME: when`")
    split(text, list, /[ :]/)
    if (!(list[1] in status_name) || list[1] == 0) fail(began, "g7231_" name ": " list[1] " is no refusal")
    if (status_name[list[1]] != list[2]) fail(began, "g7231_" name ": " list[1] " is " status_name[list[1]] ", not " list[2])
    # a refusal that two checks give stands here twice, and counts once
    if (list[1] in refused) return
    refused[list[1]] = 1
    refusal[++refusals] = list[1]
}

# `NAMES: role, anything` of what is taken, `NAMES: anything` of what is made.
function read_item(name, block, text,  at, names, list, count, i, what, it) {
    at = index(text, ":")
    if (!at) fail(began, "g7231_" name ": `" text "` has no colon after the parameter's name")
    names = substr(text, 1, at - 1)
    text = trim(substr(text, at + 1))
    what = text
    sub(/[,;].*$/, "", what)
    if (block == "Takes:" && !(what in known))
        fail(began, "g7231_" name ": no harness can make `" what "`: take another word (doors/make roles), or add " \
             "this one to `enum role` in doors/door.h and its makers to guard/inputs.c and oracle/src/makers.rs")
    count = split(names, list, / *, */)
    for (i = 1; i <= count; i++) {
        it = list[i]
        if (it in listed) fail(began, "g7231_" name ": its comment has `" it "` twice")
        listed[it] = block
        if (block == "Takes:") role[it] = what
        if (text ~ /moved on/) moved[it] = 1
        if (match(text, /[0-9][0-9,]*/)) {
            enough[it] = substr(text, RSTART, RLENGTH)
            gsub(/,/, "", enough[it])
        }
    }
}

# ---- a parameter

function read_parameter(door, text, following,  list, count, n, constant, type, pointer, it, many, fixed) {
    many = "One"
    fixed = 1
    if (match(text, /\[[^]]*\]$/)) {
        many = "Fixed"
        fixed = length_of(substr(text, RSTART + 1, RLENGTH - 2), began)
        text = substr(text, 1, RSTART - 1)
    }
    gsub(/\*/, " * ", text)
    count = split(trim(text), list, / +/)
    n = 1
    constant = pointer = 0
    if (list[n] == "const") { constant = 1; n++ }
    type = list[n++]
    if (list[n] == "*") { pointer = 1; n++ }
    it = list[n]
    if (n != count || it !~ name_form || (pointer && many == "Fixed"))
        fail(began, "g7231_" door ": `" trim(text) "` is not `TYPE NAME`, `TYPE *NAME` or `TYPE NAME[LENGTH]`")
    if (!(type in element))
        fail(began, "g7231_" door ": there is no type `" type "` here: uint8_t, int16_t, uint16_t, int32_t, uint32_t, " \
             "size_t, float, double, or a struct that this header has above")
    if (pointer && following ~ /^size_t +([a-z0-9_]*_)?len$/) many = "Slice"
    if (type in parts) {
        if (!pointer || many != "One") fail(began, "g7231_" door ": " it " is taken in parts: lend one, `" type " *" it "`")
        read_parts(door, type, it, constant)
    } else {
        tell(door, it, it, type, many, fixed, way_of(door, it, constant, pointer, many), "", 0)
    }
}

# A struct that the bare form takes in parts.
function read_parts(door, type, it, constant,  n, part, count) {
    if (forms == 1) fail(began, "g7231_" door ": " it " is taken in parts, which a door without a bare form cannot do")
    if (it in listed) fail(began, "g7231_" door ": " it " is taken in parts: name them, as `" it "." part_name[type, 1] "`")
    print "holder", door, it, constant ? "Read" : "Made", type
    for (n = 1; n <= parts[type]; n++) {
        part = part_name[type, n]
        count = part_count[type, n]
        tell(door, part, it "." part, part_type[type, n], count ? "Fixed" : "One", count ? count : 1,
             part_way(it "." part, constant, count == 0 && is_number(part_type[type, n])), it, part_row[type, n])
    }
}

# A struct of this header is an element by its own name.
function is_number(type) { return element[type] != type }

# How the bare form takes a field: a number that is read and not moved on by value, since no call alters it.
function part_way(known_as, constant, number) {
    if (number && known_as in role && !(known_as in moved)) return "Value"
    return lent_way(known_as, constant)
}

# How what is lent is used; `Takes:` has its name as `known_as`.
function lent_way(known_as, constant) {
    return constant ? "Read" : known_as in role ? "Kept" : "Made"
}

# How a parameter is passed that is no struct in parts.
function way_of(door, it, constant, pointer, many) {
    if (slice != "") return "Value"
    if (pointer || many != "One") return lent_way(it, constant)
    if (constant) fail(began, "g7231_" door ": " it ": a value needs no const")
    return "Value"
}

# Prints a parameter, after what its comment must say of it.
function tell(door, it, known_as, type, many, fixed, way, holder, row) {
    if (slice != "") many = "Length"
    slice = many == "Slice" ? it : ""
    if (it in taken) fail(began, "g7231_" door ": its bare form would have two parameters `" it "`")
    taken[it] = 1
    if (known_as in listed) listed[known_as] = "met"
    if ((way == "Value" && many != "Length" || way == "Read") && !(known_as in role))
        fail(began, "g7231_" door ": `Takes:` does not say what " known_as " holds")
    if ((many == "Length" || way == "Made") && known_as in role)
        fail(began, "g7231_" door ": `Takes:` has " known_as ", which is not read")
    if (way == "Kept" && !(known_as in moved))
        fail(began, "g7231_" door ": " known_as " is taken and is not const: say `moved on`, or take it out of `Takes:`")
    if (way != "Kept" && known_as in moved) fail(began, "g7231_" door ": " known_as " cannot be moved on")
    if (many == "Slice") {
        if (!(known_as in enough))
            fail(began, "g7231_" door ": how many elements of " known_as " are enough? Say it in `Takes:` or `Makes:`")
        fixed = enough[known_as]
    }
    print "parameter", door, it, way, element[type], many, fixed, (known_as in role ? role[known_as] : ""), holder, row
}

END {
    if (failed) exit 1
    if (commenting) fail(FNR, "a comment has no end")
    if (code != "") fail(began, "this has no end: " code)
}
