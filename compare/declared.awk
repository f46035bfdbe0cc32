# Reads the header file, as `gcc -E -P` hands it out (and `gcc -E -dM`, for constants by #define), and lists what it declares, a line each:
#   struct NAME                        entry NAME TYPE                    constant NAME
#   field STRUCT TYPE NAME [LENGTH]    parameter ENTRY TYPE NAME
# Fails at a declaration with hg_ or HG_ in it that it does not understand, and where there are none. `const uint8_t *` is one word,
# const_uint8_t*.
function fail(text) { print "declared: " text >"/dev/stderr"; failed = 1; exit 1 }
function trimmed(s) { gsub(/[ \t\n]+/, " ", s); sub(/^ /, "", s); sub(/ $/, "", s); return s }

# "uint8_t bytes[8]": uint8_t bytes 8
function typed(s,   type) {
    s = trimmed(s)
    if (!match(s, /[a-z_0-9]+(\[[A-Z_0-9]+\])?$/) || RSTART == 1) fail("not understood: " s)
    type = trimmed(substr(s, 1, RSTART - 1)); s = substr(s, RSTART)
    gsub(/ \*/, "*", type); gsub(/ /, "_", type); gsub(/[[\]]/, " ", s)
    return type " " s
}

# a declaration, up to its `;`
function declaration(s,   name, part, n, i) {
    if (s !~ /(^|[^A-Za-z_0-9])(hg|HG)_/ || s ~ /^_Static_assert/) return
    name = s
    if (s ~ /^typedef struct \{.*\} hg_[a-z_0-9]+$/) {
        sub(/^.*\} /, "", name); sub(/^typedef struct \{/, "", s); sub(/\}[^}]*$/, "", s)
        print "struct " name
        n = split(s, part, ";") - 1
        for (i = 1; i <= n; i++) print "field " name " " typed(part[i])
    } else if (s ~ /^enum \{.*\}$/) {
        sub(/^enum \{/, "", s); sub(/\}$/, "", s)
        n = split(s, part, ",")
        for (i = 1; i <= n; i++) { sub(/=.*/, "", part[i]); if (trimmed(part[i]) != "") print "constant " trimmed(part[i]) }
    } else if (s ~ /^[a-z_0-9]+ hg_[a-z_0-9]+\([^()]*\)$/) {
        sub(/\(.*/, "", name); sub(/^[^(]*\(/, "", s); sub(/\)$/, "", s)
        split(name, part, " "); name = part[2]; print "entry " name " " part[1]
        n = split(s, part, ",")
        for (i = 1; i <= n; i++) print "parameter " name " " typed(part[i])
    } else fail("not understood: " s)
    declared++
}

/^#define HG_[A-Z_0-9]+ / { print "constant " $2; next }
/^#/ { next }
{
    n = split($0, piece, ";")
    for (i = 1; i <= n; i++) {
        held = held piece[i]; braces = held
        if (i < n && gsub(/\{/, "", braces) == gsub(/\}/, "", braces)) { declaration(trimmed(held)); held = "" }
        else held = held (i < n ? ";" : " ")
    }
}
END {
    if (failed) exit 1
    if (trimmed(held) != "") fail("not ended: " trimmed(held))
    if (!declared) fail("nothing")
}
