# What follows doors/guard.c: a line for each door that has a bare form, and the words of the statuses.

$1 == "door" { doors[++count] = $2; forms[$2] = $3 }
$1 == "status" { words[$3] = $4; if ($3 + 0 > last) last = $3 + 0 }
$1 == "holder" { add(parameters, $2, c_parameter($3, $4, $5, "One")) }
$1 == "parameter" {
    if ($9 == "") add(parameters, $2, c_parameter($3, $4, $5, $6, $7))
    add(arguments, $2, $9 == "" ? $3 : c_part($9, $3, $4, $5, $6, $10))
}

END {
    print ""
    for (i = 1; i <= count; i++)
        if (forms[doors[i]] == 2) printf "SAFE(%s, (%s), (%s))\n", doors[i], parameters[doors[i]], arguments[doors[i]]
    print "\nconst char *g7231_refusal(uint32_t status)\n{\n    switch (status) {"
    for (i = 0; i <= last; i++)
        if (i in words) printf "    case %d: return \"%s\";\n", i, words[i]
    print "    default: return \"no status of this library\";\n    }\n}"
}
