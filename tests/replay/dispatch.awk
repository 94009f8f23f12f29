# Turns the lines of calls.awk into C: what each call takes, a function that makes it from a list of parts, and, for
# recording, a function that stands in its place (the linker's --wrap sends each call there).

function kind_of(word,    part) {
    if (word == "number") return "{0, 0, 0}"
    split(word, part, ":")
    return "{" (part[1] == "out") ", " (part[2] == "f64" ? 8 : 1) ", " (part[3] == "any" ? 0 : part[3]) "}"
}

function join(list, item) { return list == "" ? item : list ", " item }

{
    kinds = given = taken = parts = ""
    for (i = 2; i <= NF; i++) {
        k = i - 2
        kinds = join(kinds, kind_of($i))
        if ($i == "number") {
            given = join(given, "p[" k "].count")
            taken = join(taken, "uint64_t n" k)
            parts = join(parts, "{NULL, n" k "}")
            continue
        }
        fixed = $i ~ /:any$/ ? "" : $i
        sub(/.*:/, "", fixed)
        given = join(given, "p[" k "].at" (fixed ? "" : ", p[" k "].count"))
        taken = join(taken, "void *a" k (fixed ? "" : ", uint64_t n" k))
        parts = join(parts, "{a" k ", " (fixed ? fixed : "n" k) "}")
    }
    if (NF - 1 > most) most = NF - 1
    table = table "    {\"" $1 "\", " NF - 1 ", {" kinds "}},\n"
    cases = cases "    case " NR - 1 ": return CALL(" $1 ")(" given ");\n"
    wraps = wraps "extern __typeof__(" $1 ") __real_" $1 ";\n"
    bodies = bodies "uint32_t __wrap_" $1 "(" taken ")\n{\n    struct part p[] = {" parts "};\n    return record(" NR - 1 ", p);\n}\n"
}

END {
    print "enum { CALLS = " NR ", MOST_PARTS = " most " };\n"
    print "static const struct call {\n    const char *name;\n    size_t parts;\n    struct kind kinds[MOST_PARTS];\n} calls[CALLS] = {\n" table "};\n"
    print "#ifdef RECORD\n" wraps "#define CALL(name) __real_##name\n#else\n#define CALL(name) name\n#endif\n"
    print "static uint32_t make_call(size_t which, const struct part *p)\n{\n    switch (which) {\n" cases "    }\n    return 0;\n}\n"
    print "#ifdef RECORD\nstatic uint32_t record(size_t which, struct part *p);\n" bodies "#endif"
}
