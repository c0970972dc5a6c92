# The table of doors in Rust, for a module that has doors/door.rs and `doors/make rust` in it.

BEGIN {
    holds["U8"] = holds["U16"] = holds["U32"] = "number"
    holds["I16"] = holds["I32"] = "signed"
    holds["Size"] = "size"
    holds["F32"] = "single"
    holds["F64"] = "double"
    print "// Made from include/g7231.h by doors/make rust-table.\n"
}

# The argument that stands at a place of the list.
function given(at, way, element, many, count) {
    if (way != "Value") return "a[" at "].place as " rs_parameter(way, element, many, count)
    if (!(element in holds)) return "*(a[" at "].place as *const " element ")"
    # number and signed are wider than some of what they hold
    return "a[" at "]." holds[element] (element ~ /16|U8/ ? " as " rs_element(element) : "")
}

# Lays a field of a struct in parts out, and copies it back whatever the status: a refused call that alters one shows. One
# that goes by value has nowhere to be copied to: a call that alters it answers no status.
function lay(door, at, way, element, field,  copy, value) {
    if (way == "Value") {
        value = given(at, way, element)
        before[door] = before[door] sprintf("        %s = %s;\n", field, value)
        after[door] = after[door] sprintf("        if %s.to_ne_bytes() != (%s).to_ne_bytes() {\n", field, value)
        after[door] = after[door] "            return ALTERED;\n        }\n"
        return
    }
    copy = "        std::ptr::copy_nonoverlapping("
    before[door] = before[door] copy sprintf("a[%d].place.cast(), &mut %s, 1);\n", at, field)
    if (way != "Read") after[door] = after[door] copy sprintf("&%s, a[%d].place.cast(), 1);\n", field, at)
}

# A call of one form. The safe form of a struct in parts is called on a struct of the call's own.
function call(form, door,  safe) {
    safe = form == 1
    printf "unsafe fn %s_%s(a: &[Argument]) -> u32 {\n", safe ? "safe" : "bare", door
    if (safe && door in structs)
        printf "    unsafe {\n%s%s        let status = g7231_%s(%s);\n%s        status\n    }\n}\n\n", structs[door], \
            before[door], door, safes[door], after[door]
    else printf "    unsafe { g7231_%s%s(%s) }\n}\n\n", safe ? "" : "bare_", door, safe ? safes[door] : bares[door]
}

$1 == "door" { doors[++count] = $2; forms[$2] = $3 }
$1 == "refusal" { add(refusals, $2, $3) }
$1 == "holder" {
    structs[$2] = structs[$2] "        let mut " $3 ": " $5 " = std::mem::zeroed();\n"
    add(safes, $2, ($4 == "Read" ? "&" : "&mut ") $3)
}
$1 == "parameter" {
    at = places[$2]++
    element = $5 in holds ? $5 : "Struct(std::mem::size_of::<" $5 ">())"
    many = $6 == "Fixed" || $6 == "Slice" ? $6 "(" $7 ")" : $6
    row = "            Parameter { name: \"%s\", way: Way::%s, element: Element::%s, many: Many::%s, role: \"%s\" },\n"
    rows[$2] = rows[$2] sprintf(row, $3, $4, element, many, $8)
    add(bares, $2, given(at, $4, $5, $6, $7))
    if ($9 == "") add(safes, $2, given(at, $4, $5, $6, $7))
    else lay($2, at, $4, $5, $9 "." $3)
}

END {
    for (i = 1; i <= count; i++) {
        door = doors[i]
        for (form = 1; form <= forms[door]; form++) call(form, door)
    }
    printf "#[allow(dead_code)]\npub static DOORS: [Door; %d] = [\n", count
    for (i = 1; i <= count; i++) {
        door = doors[i]
        printf "    Door {\n        name: \"%s\",\n        parameters: &[\n%s        ],\n", door, rows[door]
        printf "        refusals: &[%s],\n        safe: safe_%s,\n        bare: %s_%s,\n    },\n", refusals[door], door, \
            (forms[door] == 2 ? "bare" : "safe"), door
    }
    print "];"
}
