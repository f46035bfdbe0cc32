# The header file with two names exchanged, `one` and `other`, in the struct or the declaration of the entry `name`.
function exchanged(s,   out, word) {
    while (match(s, /[A-Za-z_0-9]+/)) {
        word = substr(s, RSTART, RLENGTH)
        out = out substr(s, 1, RSTART - 1) (word == one ? other : word == other ? one : word)
        s = substr(s, RSTART + RLENGTH)
    }
    return out s
}
{ line[NR] = $0 }
/^typedef struct \{/ { opened = NR }
$0 == "} " name ";" { from = opened; to = NR }
!to && index($0, " " name "(") { from = NR }
from && !to && /;/ { to = NR }
END {
    if (!to) { print "exchange: no " name >"/dev/stderr"; exit 1 }
    for (n = 1; n <= NR; n++) print (n >= from && n <= to) ? exchanged(line[n]) : line[n]
}
