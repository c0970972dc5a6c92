# Rust's declarations of the doors, both forms, and of the header's constants and structs.

BEGIN { print "// Made from include/g7231.h by doors/make rust. For Rust 1.82 or later.\n" }

$1 == "version" { print "#[allow(dead_code)]\npub const G7231_VERSION: &str = \"" $2 "\";" }
$1 == "constant" { printf "/// %s\n#[allow(dead_code)]\npub const %s: usize = %d;\n", $4, $2, $3 }
$1 == "status" { printf "/// %s\n#[allow(dead_code)]\npub const %s: u32 = %d;\n", $4, $2, $3 }
$1 == "struct" { structs[++structures] = $2 }
$1 == "field" {
    type = $6 > 0 ? "[" rs_element($4, "Fixed", $6) "; " $5 / $6 "]" : rs_element($4, $5 > 0 ? "Fixed" : "One", $5)
    fields[$2] = fields[$2] ($7 == "" ? "" : "    /// " $7 "\n") sprintf("    pub %s: %s,\n", $3, type)
}
$1 == "door" { doors[++count] = $2; forms[$2] = $3 }
$1 == "says" { says[$2] = says[$2] "    ///" ($3 == "" ? "" : " ") $3 "\n" }
$1 == "holder" { add(safe, $2, $3 ": " rs_parameter($4, $5, "One")) }
$1 == "parameter" {
    it = $3 ": " rs_parameter($4, $5, $6, $7)
    add(bare, $2, it)
    if ($9 == "") add(safe, $2, it)
}

END {
    for (i = 1; i <= structures; i++) {
        print "\n#[allow(dead_code, non_camel_case_types)]\n#[repr(C)]\n#[derive(Clone, Copy, Debug)]"
        printf "pub struct %s {\n%s}\n", structs[i], fields[structs[i]]
    }
    print "\n#[allow(dead_code)]\nunsafe extern \"C\" {"
    print "    /// What a status means, in words; never null."
    print "    pub fn g7231_refusal(status: u32) -> *const std::ffi::c_char;"
    for (i = 1; i <= count; i++) {
        door = doors[i]
        printf "\n%s    pub fn g7231_%s(%s) -> u32;\n", says[door], door, safe[door]
        if (forms[door] == 1) continue
        printf "\n    /// The bare form of [`g7231_%s`].\n    pub fn g7231_bare_%s(%s) -> u32;\n", door, door, bare[door]
    }
    print "}"
}
