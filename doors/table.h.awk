# The numbers of the table, and the table's declaration.

$1 == "door" { doors++ }
$1 == "parameter" && ++many[$2] > most { most = many[$2] }
$1 == "status" && $3 + 0 > last { last = $3 + 0 }

END {
    print "/* Made from include/g7231.h by doors/make table.h. MOST is the greatest number of parameters. */"
    print "#ifndef TABLE_H\n#define TABLE_H\n\n#include \"door.h\"\n"
    printf "enum { DOORS = %d, MOST = %d, STATUSES = %d };\n\n", doors, most, last + 1
    print "extern const struct door doors[DOORS];\n\n#endif"
}
