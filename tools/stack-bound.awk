# An upper bound of each call's stack, out of `objdump -dr --no-show-raw-insn` of the archive: of every chain of calls the sum of what each
# function on it takes at the most, which is its return address, all its pushes, and all that it subtracts from the stack pointer. The
# deepest function may use 128 bytes more below the stack pointer, the red zone. Prints NAME BYTES for each name of `calls`. Where the bound
# cannot be told from the code (a call by pointer, a stack pointer changed by a register, functions that call each other in a circle), NAME and
# 'unknown'. What the C library's functions use is not in it.

function hex(digits,    value, i) {
    value = 0
    for (i = 1; i <= length(digits); i++)
        value = value * 16 + index("0123456789abcdef", substr(digits, i, 1)) - 1
    return value
}

# The deepest chain from a function on; -1 where it is unknown.
function depth(f,    n, i, below, deepest) {
    if (f in on_chain || f in unclear)
        return -1
    if (f in known)
        return known[f]
    on_chain[f] = 1
    deepest = 0
    n = callees[f]
    for (i = 1; i <= n; i++) {
        below = depth(callee[f, i])
        if (below < 0)
            return -1
        if (below > deepest)
            deepest = below
    }
    delete on_chain[f]
    return known[f] = frame[f] + deepest
}

/^[0-9a-f]+ <.*>:$/ {
    here = $0
    sub(/^[0-9a-f]+ </, "", here)
    sub(/>:$/, "", here)
    frame[here] = 8
    next
}

/\tpush/ { frame[here] += 8 }

# What changes the stack pointer: a number taken off; a number put back, or the frame pointer, which is the way up; else it cannot be told.
/,%rsp$/ {
    if (match($0, /\tsubq? +\$0x[0-9a-f]+,%rsp$/) && $0 !~ /0xffff/)
        frame[here] += hex(substr($0, index($0, "$0x") + 3, length($0) - index($0, "$0x") - 7))
    else if ($0 ~ /0xffff/ || $0 !~ /\t(addq? +\$0x[0-9a-f]+|movq? +%rbp),%rsp$/)
        unclear[here] = 1
}
/\tcallq? +\*/ { unclear[here] = 1 }

# What is called, or jumped to as the last thing: a function of the same section, a section of its own for a function, or a symbol.
/\t(callq?|jmpq?) +[0-9a-f]+ <[^+>]*>$/ {
    to = $NF
    gsub(/[<>]/, "", to)
    if (to != here || /\tcall/)
        callee[here, ++callees[here]] = to
}
/R_X86_64_(PLT32|PC32)/ {
    to = $3
    sub(/-0x[0-9a-f]+$/, "", to)
    if (to ~ /^\.text\./)
        sub(/^\.text\./, "", to)
    callee[here, ++callees[here]] = to
}

END {
    n = split(calls, names, " ")
    for (i = 1; i <= n; i++) {
        bytes = names[i] in frame ? depth(names[i]) : -1
        print names[i], bytes < 0 ? "unknown" : bytes + 128
    }
}
