# C's names for what doors/read.awk prints; read before the script that needs them.

BEGIN {
    FS = "\t"
    c_type["U8"] = "uint8_t"
    c_type["I16"] = "int16_t"
    c_type["U16"] = "uint16_t"
    c_type["I32"] = "int32_t"
    c_type["U32"] = "uint32_t"
    c_type["Size"] = "size_t"
    c_type["F32"] = "float"
    c_type["F64"] = "double"
}

# An element that is none of these is a struct, by its own name.
function c_element(element) { return element in c_type ? c_type[element] : element }

# A holder's field as the bare form takes it. The cast makes one buffer of an array of arrays: its first row would be a
# shorter one to the compiler.
function c_part(holder, name, way, element, many, row) {
    if (row > 0) return "(" (way == "Read" ? "const " : "") c_element(element) " *)" holder "->" name
    return (many == "One" && way != "Value" ? "&" : "") holder "->" name
}

# A parameter as a prototype has it.
function c_parameter(name, way, element, many, count) {
    return (way == "Read" ? "const " : "") c_element(element) " " (way != "Value" && many != "Fixed" ? "*" : "") name \
        (many == "Fixed" ? "[" count "]" : "")
}
