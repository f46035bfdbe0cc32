# Reads the library's sources (crates/honeygimlet/src) and lists each entry with the C types of its answer and parameters, a line each:
#   ENTRY ANSWER PARAMETER..
# as `declared.awk` writes types. A struct's name is the Rattle type's, in small letters after hg_.
function snake(name,   out) {
    while (match(name, /[A-Z]/)) {
        out = out substr(name, 1, RSTART - 1) "_" tolower(substr(name, RSTART, 1))
        name = substr(name, RSTART + 1)
    }
    return out name
}

function in_c(type) {
    gsub(/ /, "", type)
    if (type == "&[u8]") return "const_uint8_t* size_t"
    if (type == "&mut[u8]") return "uint8_t* size_t"
    if (sub(/^&mut/, "", type)) return in_c(type) "*"
    if (type == "usize") return "size_t"
    if (type ~ /^u(8|16|32|64)$/) return "uint" substr(type, 2) "_t"
    sub(/^.*::/, "", type)
    return "hg" snake(type)
}

/^pub extern "C" fn / { head = ""; inside = 1 }
inside { head = head " " $0 }
inside && /\) -> / {
    inside = 0
    name = head; sub(/^.* fn /, "", name); sub(/\(.*/, "", name)
    answer = head; sub(/^.*\) -> /, "", answer); sub(/[ {].*/, "", answer)
    sub(/^[^(]*\(/, "", head); sub(/\) -> .*/, "", head)
    line = name " " in_c(answer)
    n = split(head, parameter, ",")
    for (i = 1; i <= n; i++) if (sub(/^[^:]*: /, "", parameter[i])) line = line " " in_c(parameter[i])
    print line
}
