# The stack of each exported call, from the header, the compiler's report of frames and the instructions of an archive,
# in this order (tests/stack).

function stop(why) {
    print "tests/stack: " target ": " why > "/dev/stderr"
    failed = 1
    exit 1
}

# What the last function keeps besides its frame: on x86-64 a function without calls may use 128 bytes below its frame.
function end_function() {
    if (name != "" && target ~ /^x86_64/ && !(name in calls)) most[name] = 128
}

# Notes that the function at hand calls another.
function note_call(callee) {
    sub(/[-+]0x[0-9a-f]+$/, "", callee)
    sub(/@.*/, "", callee)
    sub(/^\.text\./, "", callee)
    calls[name] = calls[name] "\n" callee
    if (pushed > most[name]) most[name] = pushed
    called = 1
}

# Notes the call of the last instruction, where the assembler has filled it in: of a function in the same section, as a
# function that calls itself.
function note_inside() {
    if (inside in frame) note_call(inside)
    inside = ""
}

# Bytes that a function needs, its own frame and all that it calls.
function stack_of(f,    list, count, i, deepest, below) {
    if (f in known) return known[f]
    if (f in above) stop(f " reaches itself")
    if (!(f in frame)) { if (!others[f]++) list_of_others = list_of_others " " f; return entry }
    above[f] = 1
    count = split(substr(calls[f], 2), list, "\n")
    for (i = 1; i <= count; i++) {
        below = stack_of(list[i])
        if (below > deepest) deepest = below
    }
    delete above[f]
    return known[f] = entry + frame[f] + most[f] + deepest
}

BEGIN { FS = "\t"; entry = target ~ /^x86_64/ ? 8 : 0 }   # x86-64 pushes the address to return to

# The header: what it tells of each call.
FILENAME ~ /\.h$/ {
    if (match($0, /^#define HUTPLAN_[A-Z_0-9]+_STACK /)) {
        split($0, words, " ")
        call = tolower(words[2])
        sub(/_stack$/, "", call)
        told[call] = words[3]
    }
    next
}

# The compiler's report: the module and the function, the bytes of its frame, and whether they are always these.
FILENAME ~ /\.su$/ {
    sub(/^[^:]*:/, "", $1)
    if ($3 != "static") stop($1 " has a frame of no fixed size")
    frame[$1] = $2
    next
}

# A function begins; other names are places inside of one.
/^[0-9a-f]+ <.*>:$/ {
    begun = $0
    sub(/^[0-9a-f]+ </, "", begun)
    sub(/>:$/, "", begun)
    if (begun ~ /^[.$]/ || begun == "CODE") next
    note_inside()
    end_function()
    if (!(begun in frame)) stop("no frame is reported of " begun)
    name = order[functions++] = begun
    pushed = called = 0
    next
}

# A place that the linker fills in: the functions that are called stand here.
/^\t\t\t?[0-9a-f]+: +R_/ {
    inside = ""
    kind = $0
    sub(/^[^R]*/, "", kind)
    sub(/[ \t].*/, "", kind)
    symbol = $NF
    if (kind ~ /_(PLT32|CALL26|JUMP26|CALL|JUMP24|CALL_PLT)$/) note_call(symbol)
    else if (symbol in frame && symbol != name) stop(name " takes the address of " symbol)
    if (kind !~ /RELAX/) filled = kind
    next
}

# An instruction.
/^ +[0-9a-f]+:/ {
    sub(/^ +[0-9a-f]+:[ \t]*/, "")
    note_inside()
    if (/^(call[lq]?|blx?)[ \t].*<[^+>]*>/) { inside = $0; gsub(/.*<|>.*/, "", inside) }
    if (/^(call[lq]?[ \t]+\*|blx[ \t]+r|blr[ \t]|call_indirect)/ || (/^jalr/ && filled !~ /CALL/)) stop(name " calls through a pointer: " $0)
    if (/^call[ \t]+[0-9]+/) wasm_calls[name] = wasm_calls[name] " " $2
    if (target ~ /^x86_64/) look_at_pushes()
    else if (called && /^(push|stmdb[ \t]+sp!|sub(\.w|w|s)?[ \t]+sp,|addi?[ \t]+sp, *sp, *-)/) stop(name " moves its stack after a call: " $0)
    filled = ""
}

# What is pushed for a call on x86-64. What stands before the function's body makes its frame, which is told already: the
# pushes of registers, and the loop that touches a large frame page by page.
function look_at_pushes(    bytes) {
    bytes = $0
    gsub(/^[^$]*\$|,.*/, "", bytes)
    if (!in_body[name]) in_body[name] = !/^(pushq|jne)/ && !/%rsp|%r11/
    else if (/^pushq/) pushed += 8
    else if (/^subq[ \t]+\$[0-9]+, %rsp/) pushed += bytes
    else if (/^addq[ \t]+\$[0-9]+, %rsp/) pushed = bytes < pushed ? pushed - bytes : 0
}

END {
    if (failed) exit 1
    note_inside()
    end_function()
    if (!functions) stop("no functions in the archive")
    for (f in wasm_calls) {
        count = split(substr(wasm_calls[f], 2), list, " ")
        for (i = 1; i <= count; i++) calls[f] = calls[f] "\n" order[list[i]]
    }
    for (i = 0; i < functions; i++) {
        bytes = stack_of(order[i])
        if (order[i] !~ /^hutplan_/) continue
        printf "  %-18s %7d bytes\n", order[i], bytes
        if (!(order[i] in told)) { print "tests/stack: the header tells nothing of " order[i] > "/dev/stderr"; below = 1 }
        else if (told[order[i]] + 0 < bytes) { print "tests/stack: " target ": the header tells " told[order[i]] " of " order[i] > "/dev/stderr"; below = 1 }
    }
    if (list_of_others != "") print "  and what these use:" list_of_others
    exit below
}
