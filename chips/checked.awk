# Takes the main function out of the checked program's module and puts what a C caller sees around each call, as the kit
# does: a list whose pointer is NULL gets another address, at which nothing is read or written. Reads the calls' lines,
# then the module.

function wrapper(name, words,    list, count, i, takes, before, gives) {
    count = split(words, list, " ")
    for (i = 1; i <= count; i++) {
        if (list[i] == "number") { takes = takes ", i64 noundef %p" i; gives = gives ", i64 %p" i; continue }
        takes = takes ", ptr noundef %p" i
        before = before "  %z" i " = icmp eq ptr %p" i ", null\n  %s" i " = select i1 %z" i ", i64 4096, i64 0\n" \
            "  %q" i " = getelementptr i8, ptr %p" i ", i64 %s" i "\n"
        gives = gives ", ptr %q" i
        if (list[i] !~ /:any$/) continue
        takes = takes ", i64 noundef %n" i
        gives = gives ", i64 %n" i
    }
    return "define noundef i32 @" name "(" substr(takes, 3) ") nounwind {\nstart:\n" before \
        "  %r = call i32 @\"" path[name] "\"(" substr(gives, 3) ")\n  ret i32 %r\n}\n"
}

FNR == NR { name = $1; sub(/^[^ ]* /, ""); words[name] = $0; next }

/^define .*@main\(|^define .*@"program::main"\(/ { skipped = 1 }
skipped { if (/^}/) skipped = 0; next }

/^define / && match($0, /@"capi::[a-z_0-9:]*hutplan_[a-z_0-9]*"/) {
    found = substr($0, RSTART + 2, RLENGTH - 3)
    call = found
    sub(/.*::/, "", call)
    path[call] = found
}

/^attributes #0/ { for (call in words) if (call in path) print wrapper(call, words[call]) }
{ print }
