# Reads the exported functions of a Rattle file, and the #[repr(C)] structs of any, and prints them as doors/read.awk
# prints the header's:
#
#   exported   NAME LINE
#   takes      NAME PARAMETER WAY ELEMENT MANY COUNT    WAY: Read, Lent (&mut) or Value; a slice is one parameter here
#   shape      STRUCT FIELD ELEMENT COUNT ROW
#
# Variable: exports, how the names of the files begin whose functions count, each with a tab after it.

BEGIN {
    OFS = "\t"
    element["u8"] = "U8"
    element["i16"] = "I16"
    element["u16"] = "U16"
    element["i32"] = "I32"
    element["u32"] = "U32"
    element["usize"] = "Size"
    element["f32"] = "F32"
    element["f64"] = "F64"
    places = split(exports, place, "\t") - 1
}

function fail(line, why) {
    print FILENAME ":" line ": " why > "/dev/stderr"
    failed = 1
    exit 1
}

# A type that is no number is a struct: `frame::CoderState` is g7231_coder_state to C.
function element_of(text) {
    if (text in element) return element[text]
    sub(/^.*::/, "", text)
    if (text !~ /^[A-Z][A-Za-z0-9]*$/) fail(FNR, "there is no type `" text "` for C")
    while (match(text, /[a-z0-9][A-Z]/)) text = substr(text, 1, RSTART) "_" substr(text, RSTART + 1)
    return "g7231_" tolower(text)
}

# `T`, `[T; N]` or `[[T; ROW]; N]`: sets kind, row and many.
function array_of(text,  list, n, i, size) {
    many = row = 0
    if (text ~ /^\[.*;.*\]$/) {
        gsub(/[][]/, "", text)
        n = split(text, list, / *; */)
        for (i = 2; i <= n; i++) {
            size = list[i] in number ? number[list[i]] : list[i]
            if (size !~ /^[0-9]+$/) fail(FNR, "the length `" size "` is no number and no const before it")
            many = many ? many * size : size
            if (n == 3 && i == 2) row = size
        }
        text = list[1]
    }
    kind = element_of(text)
}

# a const is its file's own
FNR == 1 {
    split("", number)
    counts = 0
    for (i = 1; i <= places; i++) if (index(FILENAME, place[i]) == 1) counts = 1
}
/^(pub )?const [A-Z0-9_]+: usize = [0-9]+;/ {
    sub(/^pub /, "")
    number[substr($2, 1, length($2) - 1)] = $5 + 0
}

/^#\[repr\(C\)\]/ { shaped = 1; next }
shaped && /^pub struct / { structure = element_of($3); shaped = 0; next }
shaped && !/^#\[/ { shaped = 0 }
structure != "" && /^[}]/ { structure = "" }
structure != "" && /^ *pub [a-z0-9_]+: / {
    text = $0
    sub(/^ *pub /, "", text)
    sub(/,? *(\/\/.*)?$/, "", text)
    at = index(text, ":")
    array_of(substr(text, at + 2))
    print "shape", structure, substr(text, 1, at - 1), kind, many, row
}

counts && /^pub extern "C" fn / { head = ""; began = FNR; reading = 1 }
reading {
    head = head " " $0
    if (head !~ /\) *-> *[a-z0-9]+/ && head !~ /\) *([{]|$)/) next
    reading = 0
    gsub(/[ \t]+/, " ", head)
    at = index(head, "(")
    name = substr(head, 1, at - 1)
    sub(/^.* /, "", name)
    if (head !~ /\) -> u32/) fail(began, name " answers something else than a status (u32)")
    print "exported", name, began
    head = substr(head, at + 1)
    head = substr(head, 1, index(head, ") -> u32") - 1)
    # commas stand only between parameters: an array has a semicolon
    count = split(head, list, /, ?/)
    for (i = 1; i <= count; i++) {
        text = list[i]
        gsub(/^ +| +$/, "", text)
        if (text == "") continue
        at = index(text, ":")
        it = substr(text, 1, at - 1)
        text = substr(text, at + 2)
        way = "Value"
        if (sub(/^&mut /, "", text)) way = "Lent"
        else if (sub(/^&/, "", text)) way = "Read"
        if (text ~ /^\[[^;]*\]$/) print "takes", name, it, way, element_of(substr(text, 2, length(text) - 2)), "Slice", 0
        else {
            array_of(text)
            print "takes", name, it, way, kind, (many ? "Fixed" : "One"), (many ? many : 1)
        }
    }
}

END { if (failed) exit 1 }
