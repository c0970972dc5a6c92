# The table of doors in C (doors/door.h).

BEGIN {
    print "/* Made from include/g7231.h by doors/make table. */"
    print "#include \"table.h\"\n\n#include <string.h>\n\n#include \"g7231_bare.h\"\n"
    holds["U8"] = holds["U16"] = holds["U32"] = "number"
    holds["I16"] = holds["I32"] = "sign"
    holds["Size"] = "size"
    holds["F32"] = "single"
    holds["F64"] = "twice"
}

# The C argument that stands at a place of the list.
function given(at, way, element) {
    if (way != "Value") return "a[" at "].place"
    if (!(element in holds)) return "*(const " element " *)a[" at "].place"
    return (element ~ /16|U8/ ? "(" c_element(element) ")" : "") "a[" at "]." holds[element]
}

# Lays a field of a struct in parts out, and copies it back whatever the status: a refused call that alters one shows. One
# that goes by value has nowhere to be copied to: a call that alters it answers no status.
function lay(door, at, way, element, field,  value) {
    if (way == "Value") {
        value = given(at, way, element)
        before[door] = before[door] sprintf("    %s = %s;\n", field, value)
        after[door] = after[door] sprintf("    if (memcmp(&%s, &(%s){%s}, sizeof %s) != 0) return ALTERED;\n", field, \
            c_element(element), value, field)
        return
    }
    before[door] = before[door] sprintf("    memcpy(&%s, a[%d].place, sizeof %s);\n", field, at, field)
    if (way != "Read") after[door] = after[door] sprintf("    memcpy(a[%d].place, &%s, sizeof %s);\n", at, field, field)
}

# A call of one form. The safe form of a struct in parts is called on a struct of the call's own.
function call(form, door,  safe) {
    safe = form == 1
    printf "static uint32_t %s_%s(const union argument *a)\n{\n", safe ? "safe" : "bare", door
    if (safe && door in structs)
        printf "%s%s    const uint32_t status = g7231_%s(%s);\n%s    return status;\n}\n", structs[door], before[door], \
            door, safes[door], after[door]
    else printf "    return g7231_%s%s(%s);\n}\n", safe ? "" : "bare_", door, safe ? safes[door] : bares[door]
}

$1 == "door" { doors[++count] = $2; forms[$2] = $3 }
$1 == "holder" {
    structs[$2] = structs[$2] "    " $5 " " $3 ";\n"
    add(safes, $2, "&" $3)
}
$1 == "refusal" { refusals[$2] = refusals[$2] $3 ", " }
$1 == "parameter" {
    at = many[$2]++
    role = $8 == "" ? "NONE" : toupper($8)
    gsub(/ /, "_", role)
    rows[$2] = rows[$2] sprintf("    {\"%s\", %s, %s, sizeof(%s), %s, %d, %s},\n", $3, toupper($4), \
        ($5 in holds ? toupper($5) : "STRUCT"), c_element($5), toupper($6), $7, role)
    add(bares, $2, given(at, $4, $5))
    if ($9 == "") add(safes, $2, given(at, $4, $5))
    else lay($2, at, $4, $5, $9 "." $3)
}

END {
    for (i = 1; i <= count; i++) {
        door = doors[i]
        printf "static const struct parameter parameters_%s[] = {\n%s};\n", door, rows[door]
        printf "static const uint32_t refusals_%s[] = {%s0};\n", door, refusals[door]
        for (form = 1; form <= forms[door]; form++) call(form, door)
        print ""
    }
    print "const struct door doors[DOORS] = {"
    for (i = 1; i <= count; i++) {
        door = doors[i]
        printf "    {\"%s\", %d, parameters_%s, refusals_%s, safe_%s, %s_%s},\n", door, many[door], door, door, door, \
            (forms[door] == 2 ? "bare" : "safe"), door
    }
    print "};"
}
