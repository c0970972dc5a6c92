# Holds the header (the records of doors/read.awk) to the exported functions (those of doors/exported.awk, after them).
# Prints each difference.

function differs(name, what) {
    print header (name in line ? ":" line[name] : "") ": " name " " what
    differences++
}

# A parameter as both sides would write it for a reader.
function told(way, element, many, count) {
    return (way == "Value" ? "" : way == "Read" ? "&" : "&mut ") \
        (many == "Slice" ? "[" element "]" : many == "Fixed" ? "[" element "; " count "]" : element)
}

# A field likewise.
function member(name, element, count, row) {
    return name ":" element (count > 0 ? "[" count "]" : "") (row > 0 ? " in rows of " row : "")
}

$1 == "door" {
    name = "g7231_" ($3 == 2 ? "bare_" : "") $2
    doors[++count] = name
    export_of[$2] = name
    line[name] = $4
}
$1 == "parameter" && $6 != "Length" {
    name = export_of[$2]
    at = ++many[name]
    names[name, at] = $3
    texts[name, at] = told($4 == "Kept" || $4 == "Made" ? "Lent" : $4, $5, $6, $7)
}
# the fields of a struct in parts are parameters
$1 == "struct" { whole = !$3 }
$1 == "field" && whole { fields[$2] = fields[$2] " " member($3, $4, $5, $6) }

$1 == "exported" {
    if ($2 in exported) differs($2, "is exported twice")
    exported[$2] = 1
    order[++exports] = $2
}
$1 == "takes" {
    at = ++takes[$2]
    its_names[$2, at] = $3
    its_texts[$2, at] = told($4, $5, $6, $7)
}
$1 == "shape" { shapes[$2] = shapes[$2] " " member($3, $4, $5, $6) }

END {
    for (i = 1; i <= count; i++) {
        name = doors[i]
        here[name] = 1
        if (!(name in exported)) {
            differs(name, "is not exported")
            continue
        }
        if (many[name] != takes[name])
            differs(name, "has " many[name] + 0 " parameters, and the exported one " takes[name] + 0)
        for (at = 1; at <= many[name] && at <= takes[name]; at++) {
            mine = names[name, at]
            its = its_names[name, at]
            if (mine != its) differs(name, "has " mine " as parameter " at ", the exported one " its)
            if (texts[name, at] != its_texts[name, at])
                differs(name, "has " mine " as " texts[name, at] ", the exported one as " its_texts[name, at])
        }
    }
    for (i = 1; i <= exports; i++)
        if (!(order[i] in here)) differs(order[i], "is exported and does not stand here")
    for (name in fields)
        if (fields[name] != shapes[name])
            differs(name, "has the fields" fields[name] ", the exported one" (shapes[name] == "" ? " none" : shapes[name]))
    if (differences) exit 1
    print count " doors are as they are exported"
}
