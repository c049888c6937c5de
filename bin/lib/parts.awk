# Splits the text of a module into parts that can be optimized side by side, and linked by ThinLTO. bin/build calls it with
# -v parts=N -v lines=LINES -v to=PREFIX, where LINES is the length of the text; it writes PREFIX1.ll to PREFIXN.ll.
#
# Each function stands in one part, and each other part declares it; so does what has an address that counts. A constant
# whose address doesn't count (unnamed_addr) stands in all parts, and so does all that is no definition.
function put(text, part) { print text > (to part ".ll") }
function put_all(text,  part) { for (part = 1; part <= parts; part++) put(text, part) }
# one LINE in the first part, and another in all others.
function put_once(text, others,  part) { for (part = 1; part <= parts; part++) put(part == 1 ? text : others, part) }

/^@/ && !/^@[^ ]* = private unnamed_addr constant / {
    # As `@static.1 = private constant TYPE VALUE, align 8`, where the type is an array or a packed struct.
    if (!match($0, /^@[^ ]* = private (constant|global) (\[[0-9]+ x i8\]|<\{[^{}]*\}>) /)) { unknown++; next }
    head = substr($0, 1, RLENGTH - 1)
    sub(/ = private /, " = hidden ")
    sub(/ = private /, " = external hidden ", head)
    put_once($0, head ($0 ~ /, align [0-9]+$/ ? substr($0, match($0, /, align [0-9]+$/)) : ""))
    next
}
/^define / {
    part = int((NR - 1) * parts / lines) + 1
    sub(/^define internal /, "define hidden ")
    declared[++count] = $0
    sub(/^define /, "declare ", declared[count])
    sub(/ \{$/, "", declared[count])
    home[count] = part
    inside = 1
}
inside { put($0, part); if (/^}/) inside = 0; next }
{ put_all($0) }
END {
    if (unknown || !count) exit 1
    for (n = 1; n <= count; n++)
        for (part = 1; part <= parts; part++)
            if (part != home[n]) put(declared[n], part)
}
