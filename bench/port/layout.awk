# Reads how the calls' structs lie out of the module, for the assertions of side.c:
#   CALL_result N   bytes of what CALL returns
#   CALL_argI N     bytes of its argument I, where that is a struct
#   CALL_state N    where the state lies in what it returns
# Variable calls: the calls, with blanks between them. A call keeps its result in %r0 before it copies it out to %a0; a
# result is made part by part, in %r0 or in something of its size.
BEGIN {
    for (i = split(calls, list, " "); i > 0; i--) wanted[list[i]] = 1
}
/^define / {
    call = $0
    sub(/\(.*/, "", call)
    sub(/.*@/, "", call)
    inside = call in wanted
    split("", offset)
    bytes = -1
}
inside && / = alloca \[[0-9]+ x i8\]/ {
    n = $4
    sub(/\[/, "", n)
    if ($1 == "%r0") bytes = n
    if (n == bytes) offset[$1] = 0
}
inside && / = getelementptr i8, ptr %r[0-9]+, i64 [0-9]+$/ {
    of = $6
    sub(/,/, "", of)
    if (of in offset) offset[$1] = offset[of] + $8
}
inside && /@llvm.memmove/ {
    split($0, part, /\(ptr |, ptr |, i64 |, i1 /)
    if (part[2] == "%a0") result[call] = part[4]
    else if (part[3] ~ /^%a/) argument[call, substr(part[3], 3)] = part[4]
    if (part[2] in offset && !((call, part[4]) in place)) place[call, part[4]] = offset[part[2]]
}
END {
    for (c in result) print "#define " c "_result " result[c]
    for (k in argument) {
        split(k, part, SUBSEP)
        print "#define " part[1] "_arg" part[2] " " argument[k]
    }
    state = argument["state_sound__sound", 0] # it returns no struct, so its first argument is %a0
    for (c in result)
        if ((c, state) in place) print "#define " c "_state " place[c, state]
}
