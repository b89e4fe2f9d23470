# The most stack that each call of the library can take, return addresses counted: objdump -dr --no-show-raw-insn FILE.a | awk -f stack.awk
# It adds up the frames along the deepest path of calls. memcpy and memset, which are not in the archive, count with their return address.

function fail(why) { print "stack: " within " " why ": its frame cannot be told" >"/dev/stderr"; failed = 1; exit 1 }
function hex(text,    n, k) { for (k = 3; k <= length(text); k++) n = n * 16 + index("0123456789abcdef", substr(text, k, 1)) - 1; return n }
function calls(name) { callee[within, ++callees[within]] = name }

function depth(name,    k, below, most) {
    if (!(name in frame)) return 8
    within = name
    if (open[name]++) fail("calls itself")
    most = below_pointer[name]
    for (k = 1; k <= callees[name]; k++) { below = depth(callee[name, k]); if (below > most) most = below }
    open[name]--
    return 8 + frame[name] + most
}

/^[0-9a-f]+ <.*>:$/ { within = substr($2, 2, length($2) - 3); frame[within] = 0; next }
/R_X86_64_PLT32/ { sub(/^\.text\./, "", $3); sub(/-0x[0-9a-f]+$/, "", $3); calls($3); next }
/\tcall +\*/ { fail("calls through a pointer") }
/\t(call|jmp) .*<[^+]*>$/ { calls(substr($NF, 2, length($NF) - 2)); next }
/\tpush / { frame[within] += 8; next }
/\tsub +\$0x[0-9a-f]+,%rsp$/ { split($3, part, /[$,]/); frame[within] += hex(part[2]); next }
/\t(sub|and|lea|mov) .*,%rsp$/ { fail("sets its stack pointer otherwise") }
# A function that calls none may use 128 bytes below the stack pointer.
/-0x[0-9a-f]+\(%rsp/ { below_pointer[within] = 128 }
END { if (!failed) for (name in frame) if (name ~ /^foldgrebe_/) print name, depth(name) }
