# Reads a disassembly with relocations (objdump -dr), and prints for each function in `exported` the bytes of stack of its deepest chain of
# calls, with the chain; a last line `most N`, or `most unknown` where an instruction moves the stack in a way that is not understood.
#
# A function's own part is its return address, what it pushes, the room that it takes, what it may lose to alignment, and the red zone of 128
# bytes below the stack pointer where it uses that. A jump by a function's own table of places, as a switch has it, stays in the function.
# Functions that are not in the archive are the C library's memory functions, for which `outside` bytes are counted.

function hex(s,    n, i) {
    n = 0
    for (i = 1; i <= length(s); i++) n = n * 16 + index("0123456789abcdef", substr(s, i, 1)) - 1
    return n
}

# The digits of the first 0x number in a line.
function digits(line) {
    match(line, /0x[0-9a-f]+/)
    return substr(line, RSTART + 2, RLENGTH - 2)
}

function calls_to(t) {
    if (t != name && t ~ /^[a-zA-Z_]/) called[name] = called[name] " " t
}

/^[0-9a-f]+ <.*>:$/ { name = $2; gsub(/^<|>:$/, "", name); own[name] = 8; next }
/[ \t]push / { own[name] += 8 }
/[ \t]sub +\$0x[0-9a-f]+,%rsp/ { if (length(digits($0)) < 9) own[name] += hex(digits($0)); else odd = 1 }
/[ \t]and +\$0xf+[0-9a-f]0,%rsp/ { own[name] += 64 }
/[ \t](sub|add|and|mov|lea) +[^ $].*,%rsp$/ { if ($0 !~ /mov +%rbp,%rsp/ && $0 !~ /lea +-0x[0-9a-f]+\(%rbp\),%rsp/) odd = 1 }
/-0x[0-9a-f]+\(%rsp/ { red[name] = 128 }
/[ \t]call +\*/ { if ($0 !~ /\(%rip\)/) odd = 1 } # through the table of outside functions, whose relocation names it
/[ \t]jmp +\*/ { if ($0 !~ /\(%rip\)/ && NR > table + 4) odd = 1 }
$2 == "R_X86_64_PC32" && index($3, ".rodata." name) == 1 { table = NR } # a switch: the next jump goes to a place of the same function
/[ \t](call|jmp) .*<[^+>]+>$/ { t = $NF; gsub(/[<>]/, "", t); calls_to(t) }
/R_X86_64_(PLT32|PC32|GOTPCRELX|REX_GOTPCRELX)/ { t = $NF; sub(/[-+]0x.*/, "", t); sub(/^\.text\./, "", t); if (t !~ /^\./) calls_to(t) }

# The deepest chain from f, in bytes; chain[f] is its text.
function depth(f, seen,    parts, n, i, best, d, deepest) {
    if (index(seen, "/" f "/")) { odd = 1; return 0 }
    if (!(f in own)) { chain[f] = f " " outside; return outside }
    n = split(called[f], parts, " ")
    best = 0; deepest = ""
    for (i = 1; i <= n; i++) {
        d = depth(parts[i], seen "/" f "/")
        if (d > best) { best = d; deepest = ", " chain[parts[i]] }
    }
    chain[f] = f " " own[f] + red[f] deepest
    return own[f] + red[f] + best
}

END {
    n = split(exported, each, " ")
    for (i = 1; i <= n; i++) {
        if (!(each[i] in own)) odd = 1
        d = depth(each[i], "")
        print each[i] ": " d " bytes (" chain[each[i]] ")"
        if (d > most) most = d
    }
    print "most", odd ? "unknown" : most
}
