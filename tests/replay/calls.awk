# Reads the sources of capi and prints a line for each C call: its name, then a word for each parameter. `number` is one
# of 64 bits; any other says whether the call may write there (in, out), what the entries are (u8, f64) and how many
# there are: a figure, or `any` where the C call takes the count beside the pointer.

function stop(what) {
    print "tests/replay: " FILENAME ": " what > "/dev/stderr"
    exit 1
}

function word_of(parameter,    kind, count) {
    sub(/^[^:]*: */, "", parameter)
    if (parameter == "u64") return "number"
    kind = parameter ~ /^&mut / ? "out" : "in"
    sub(/^&(mut )?/, "", parameter)
    if (parameter !~ /^\[(u8|f64)(; *[0-9]+)?\]$/) stop("a parameter that is not known: " parameter)
    gsub(/[][ ]/, "", parameter)
    count = parameter ~ /;/ ? parameter : "any"
    sub(/.*;/, "", count)
    sub(/;.*/, "", parameter)
    return kind ":" parameter ":" count
}

function finish(    name, list, count, i, line) {
    name = text
    sub(/.*pub extern "C" fn /, "", name)
    sub(/\(.*/, "", name)
    sub(/^[^(]*\(/, "", text)
    sub(/\) *-> *u32.*/, "", text)
    count = split(text, list, /, */)
    line = name
    for (i = 1; i <= count; i++) {
        gsub(/^ +| +$/, "", list[i])
        if (list[i] != "") line = line " " word_of(list[i])
    }
    print line
    text = ""
}

/^ *#\[unsafe\(no_mangle\)\]/ { open = 1; next }
open { text = text " " $0; gsub(/[ \t]+/, " ", text) }
open && /-> u32/ { open = 0; finish() }
END { if (open) stop("a call without an end") }
