# Rust's names for what doors/read.awk prints; read before the script that needs them.

BEGIN {
    FS = "\t"
    rs_type["U8"] = "u8"
    rs_type["I16"] = "i16"
    rs_type["U16"] = "u16"
    rs_type["I32"] = "i32"
    rs_type["U32"] = "u32"
    rs_type["Size"] = "usize"
    rs_type["F32"] = "f32"
    rs_type["F64"] = "f64"
}

# An element that is none of these is a struct, by its own name.
function rs_element(element, many, count) {
    element = element in rs_type ? rs_type[element] : element
    return many == "Fixed" ? "[" element "; " count "]" : element
}

# What a parameter's type is; a reference is taken where a pointer is asked for.
function rs_parameter(way, element, many, count) {
    if (way == "Value") return rs_element(element)
    return (way == "Read" ? "*const " : "*mut ") rs_element(element, many, count)
}
