# Reads the proved module as LLVM's text, made for x86-64, and prints the same module for no target in particular.
#
# What names x86-64 is taken out: the layout of its data, its name, its processor and how its stack is probed. All else
# must be known to mean the same on every chip: the words of `known`, integers of up to 64 bits, doubles, pairs of these,
# which lie alike where numbers of 64 bits are aligned at 8 (chips/build looks at that), calls by name. Anything else stops
# the build, because nobody has looked at what it would mean elsewhere: a pointer made a number, a pointer in a pair, a
# wider integer, a vector, inline assembly, an attribute, a function that the module does not have.

function stop(what) {
    print "chips/build: the module's line " NR " has " what ", which is not known to mean the same on every chip:" > "/dev/stderr"
    print "  " $0 > "/dev/stderr"
    failed = 1
    exit 1
}

# Stops at the first word of a line that is not known. Names, numbers, comments and marks (!noundef) are no words.
function look_at(line,    words, count, i) {
    sub(/;.*/, "", line)
    gsub(/"[^"]*"/, "", line)
    gsub(/[%@!#][-A-Za-z0-9_.$]*/, "", line)
    if (line ~ /^[A-Za-z0-9_.$-]+: *$/) return
    if (line ~ /<[0-9]+ x/) stop("a vector")
    if (line ~ /\{[^}]*ptr[^}]*\}/) stop("a pointer in a pair")
    count = split(line, words, /[^A-Za-z0-9_.]+/)
    for (i = 1; i <= count; i++)
        if (words[i] ~ /^[A-Za-z_]/ && words[i] !~ /^0x/ && !(words[i] in known)) stop("`" words[i] "`")
}

# What a group of attributes may say.
function look_at_attributes(line) {
    sub(/^[^{]*{/, "", line)
    sub(/}.*/, "", line)
    gsub(/memory\([^)]*\)/, "", line)
    gsub(/nounwind|cold|noreturn|nocallback|nocreateundeforpoison|nofree|nosync|willreturn|speculatable/, "", line)
    if (line !~ /^ *$/) stop("the attribute" line)
}

BEGIN {
    count = split("define declare internal constant private unnamed_addr noundef zeroext captures none readonly writeonly immarg " \
        "void ptr null double i1 i8 i16 i32 i64 x align inbounds nuw nsw nneg to true false zeroinitializer c " \
        "alloca load store getelementptr extractvalue call tail br label switch ret unreachable phi select icmp fcmp " \
        "eq ne ult ule ugt uge slt sle sgt sge oeq one ogt oge olt ole ord ueq une ugt uge ult ule uno " \
        "zext sext trunc uitofp add sub mul udiv urem sdiv srem and or xor shl lshr ashr " \
        "fadd fsub fmul fdiv fneg source_filename", list, " ")
    for (i = 1; i <= count; i++) known[list[i]] = 1
    for (i in list) delete list[i]
    count = split("llvm.trap llvm.memmove.p0.p0.i64 llvm.memcpy.p0.p0.i64 llvm.memset.p0.i64 llvm.arithmetic.fence.f64", list, " ")
    for (i = 1; i <= count; i++) functions[list[i]] = 1
}

/^target datalayout = "e-/ || /^target triple = / { next }

/^attributes / {
    gsub(/"probe-stack"="inline-asm"|"stack-probe-size"="[0-9]+"|"target-cpu"="x86-64"/, "")
    look_at_attributes($0)
    print
    next
}

/^!/ { print; next }

/^declare / {
    name = $0
    sub(/^[^@]*@/, "", name)
    sub(/\(.*/, "", name)
    if (!(name in functions)) stop("the function " name " of somebody else")
}

/^define / && !/^define internal / {
    if (!/^define noundef i32 @[a-z_0-9]+\((ptr noundef %a[0-9]+(, )?|i64 noundef %a[0-9]+(, )?)+\) #[0-9]+ {$/) stop("a call that takes more than pointers and numbers of 64 bits")
}

/(^| )call / && !/(^| )call [^%(]*@/ { stop("a call through a pointer") }

{ look_at($0); print }

END { if (failed) exit 1 }
