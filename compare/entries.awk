# Writes, of the list that declared.awk makes of the header file, the part of entries.c that no struct, field, constant or entry is
# to be missing from:
#   put_STRUCT prints a struct with the names of its fields
#   call_ENTRY takes the parameters of an entry by their names, hands them on in the order of the declaration, and prints the
#              answer, then what the entry may have changed: memory, whose length is the next parameter, or a struct
#   layout     prints where each field lies, and each constant
function text(s) { print "    printf(\"" s "\");" }

function structure(name,   i, x) {
    print "static inline void put_" name "(" name " x) {"
    for (i = 1; i <= fields[name]; i++) {
        x = field[name, i]
        text((i == 1 ? "{" : " ") x "=")
        if (size[name, i] == "") print "    put_" type[name, i] "(x." x ");"
        else {
            print "    for (int i = 0; i < " size[name, i] "; i++) { printf(i == 0 ? \"[\" : \" \"); put_" type[name, i] "(x." x "[i]); }"
            text("]")
        }
    }
    text("}")
    print "}\n"
}

function layout(name,   i, x) {
    print "    printf(\"layout " name " size=%zu align=%zu\\n\", sizeof(" name "), _Alignof(" name "));"
    for (i = 1; i <= fields[name]; i++) {
        x = field[name, i]
        print "    printf(\"layout " name "." x " at=%zu size=%zu\\n\", offsetof(" name ", " x "), sizeof(((" name " *)0)->" x "));"
    }
}

function entry(name,   i, given) {
    print "struct arguments_" name " {"
    for (i = 1; i <= fields[name]; i++) {
        sub(/^const_/, "const ", type[name, i])
        print "    " type[name, i] " " field[name, i] ";"
        given = given (i > 1 ? ", " : "") "a." field[name, i]
    }
    print "};\nstatic inline " answer[name] " call_" name "(struct arguments_" name " a) {"
    print "    " answer[name] " answer = " name "(" given ");"
    text(name " ")
    print "    put_" answer[name] "(answer);"
    text("\\n")
    for (i = 1; i <= fields[name]; i++) if (type[name, i] ~ /^[^ ]*\*$/) changed(name, type[name, i], field[name, i], field[name, i + 1])
    print "    return answer;\n}\n"
}

function changed(name, type, x, next_one) {
    text(name " " x " ")
    sub(/\*$/, "", type)
    print "    " (type == "uint8_t" ? "put_bytes(a." x ", a." next_one ");" : "put_" type "(*a." x ");")
    text("\\n")
}

$1 == "struct" || $1 == "entry" || $1 == "constant" { kind[++count] = $1; named[count] = $2; answer[$2] = $3 }
$1 == "field" || $1 == "parameter" { i = ++fields[$2]; type[$2, i] = $3; field[$2, i] = $4; size[$2, i] = $5 }
END {
    for (n = 1; n <= count; n++) if (kind[n] == "struct") structure(named[n]); else if (kind[n] == "entry") entry(named[n])
    print "static void layout(void) {"
    for (n = 1; n <= count; n++) {
        if (kind[n] == "struct") layout(named[n])
        if (kind[n] == "constant") print "    printf(\"constant " named[n] "=%lld\\n\", (long long)" named[n] ");"
    }
    print "}"
}
