# g7231_bare.h, for hosts that own their thread's floating-point mode.

BEGIN {
    print "/* The bare forms of the doors in g7231.h: the same parameters, answers and refusals, and the same promise about"
    print " * buffers; where g7231.h says it of a struct, they take its fields one by one, an array of arrays as one buffer."
    print " * They do not look at the calling thread's floating-point mode, which must be IEEE's default: round to nearest,"
    print " * no flushing of subnormals, exceptions masked. In another one their bits change, or an exception stops the"
    print " * program; and a program that is linked with -ffast-math may start in another one.\n */"
    print "#ifndef G7231_BARE_H\n#define G7231_BARE_H\n\n#include \"g7231.h\"\n"
    print "#ifdef __cplusplus\nextern \"C\" {\n#endif\n"
}

$1 == "door" { doors[++count] = $2; forms[$2] = $3 }
$1 == "parameter" { piece[$2, ++many[$2]] = c_parameter($3, $4, $5, $6, $7) }

# In lines of at most 120 columns.
function prototype(door,  line, indent, i, it) {
    line = "uint32_t g7231_bare_" door "("
    indent = line
    gsub(/./, " ", indent)
    for (i = 1; i <= many[door]; i++) {
        it = piece[door, i] (i < many[door] ? "," : ");")
        if (length(line) + length(it) > 119) {
            sub(/ $/, "", line)
            print line
            line = indent
        }
        line = line it (i < many[door] ? " " : "")
    }
    print line
}

END {
    for (i = 1; i <= count; i++)
        if (forms[doors[i]] == 2) prototype(doors[i])
    print "\n#ifdef __cplusplus\n}\n#endif\n\n#endif"
}
