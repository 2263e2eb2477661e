# From the library's disassembly to lines 'function own all most': the stack that a function takes with its return address, the most that it
# takes with what it calls, and the most that a call of it takes: with the arguments that stand on the stack, and with the 128 bytes that a
# function may use below its own frame. It fails where a stack pointer moves by what it cannot read, or where functions call each other in a
# circle.
BEGIN {
    # Six words go to registers.
    split("gateway_read 1 gateway_write 1 gateway_slack 1 gateway_start 2 gateway_step 3 gateway_shift 6 lentrun::step_in 1", arguments, " ")
    for (k = 1; k in arguments; k += 2) on_stack[arguments[k]] = 8 * arguments[k + 1]
}
/^[0-9a-f]+ <.*>:$/ { name = $0; sub(/^[^<]*</, "", name); sub(/>:$/, "", name); many++; names[many] = name; frame[name] = 8; next }
/\tpush / { frame[name] += 8; next }
/\tsub +\$0x[0-9a-f]+,%rsp/ { match($0, /0x[0-9a-f]+/); frame[name] += hex(substr($0, RSTART + 2, RLENGTH - 2)); next }
/\t(sub|and) .*,%rsp/ || /\tcall +\*/ || /\tmov .*,%rsp/ { print "frames.awk: " name ": " $0 > "/dev/stderr"; failed = 1; exit 1 }
# A jump out of the function is its last call; the relocation in the next line tells it from one inside.
/\t(call|j[a-z]+) / { calling = NR; next }
calling == NR - 1 && /R_X86_64_/ { callee = $NF; sub(/[-+]0x[0-9a-f]+$/, "", callee); sub(/^\.text\./, "", callee); called[name] = called[name] " " callee }
function hex(digits, value, i) {
    value = 0
    for (i = 1; i <= length(digits); i++) value = 16 * value + index("0123456789abcdef", substr(digits, i, 1)) - 1
    return value
}
# A function of the C library that copies or fills memory: its return address.
function most(f, depth, list, n, i, here, deepest) {
    if (!(f in frame)) return 8
    if (depth > many) { print "frames.awk: a circle through " f > "/dev/stderr"; failed = 1; exit 1 }
    n = split(called[f], list, " ")
    deepest = 0
    for (i = 1; i <= n; i++) { here = most(list[i], depth + 1); if (here > deepest) deepest = here }
    return frame[f] + deepest
}
END {
    if (failed) exit 1
    for (k = 1; k <= many; k++) {
        all = most(names[k], 0)
        print names[k], frame[names[k]], all, all + on_stack[names[k]] + 128
    }
}
