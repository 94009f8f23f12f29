#!/usr/bin/env python3
"""Spells the names of definitions, lemmas and fields as today's library does: `tableOf` becomes `table_of`, and `first-kept`
`first_kept`.

    python3 tools/respell.py        once, at the top of the repository, after the kit's port.py

It goes over the definitions, the proofs, the clauses and comments of the code, the wrong programs of must-fail/ and the
pages. Strings keep their text, and of comments and pages only what stands between backquotes is read for dashes.

1. A name is respelled where it begins with a small letter and has a capital later: in crates/ such names are of definitions,
   lemmas, fields and variables alone, since functions have none. One that would fall together with another of its file is
   told, and nothing is written.
2. A dash within a name becomes `_`. It stays where it joins two names, as in `sum_of-take`; in names of the library and in
   those that the check makes, as `loop-i-preserved`; and where the name would fall together with another.
"""
import os
import pathlib
import re
import sys

NAME = re.compile(r"(?<!\w)[A-Za-z_][\w']*")
CAMEL = re.compile(r"[a-z][a-z0-9_]*[A-Z]")
HEX_BYTE = re.compile(r"x[0-9A-F]{2}")
STRING = re.compile(r'b?"(?:[^"\\\n]|\\.)*"')
# Of the library, or with a type's own letter.
KEPT = {"not_T"}
OTHERS = {"getD": "get_or"}
# Lemmas that would fall together with a definition of their crate.
APART = {"node_at": "node_stands", "no_lines": "lines_none", "too_short": "list_short"}
# One name in two spellings already: port.py respelled it where it stands alone, and not within another.
SAME = {"bytesOf", "cutAt", "extendedBy", "firstNotBelow", "getD", "heldBack", "isDigit", "linesFrom", "loadOf", "numberOf", "partOf", "partsIn", "planOf", "positionAfter", "refusalOf", "sharesOf", "shortAt", "sumOf", "tableOf", "wordsOf"}
PAGES = ["README.md", "CONTRIBUTING.md", *sorted(str(p) for p in pathlib.Path("docs").glob("*.md") if p.name != "PORT.md")]

PART = r"[\w'≤≢≡₀]+"
DASHED = re.compile(rf"(?<![\w'≤≢≡₀\-/])(?:[A-Za-z_]|\d+≤){PART[:-1]}*(?:-{PART})+(?![\w\-])")
COMMENT = re.compile(r"--.*|//.*")
IMPORT = re.compile(r"^\s*(?:pub )?use ([^\n{]*)\.\{([^}]*)\}", re.M)
DECLARED = re.compile(rf"^\s*(?:abbrev |unfoldable |pub )*({PART}(?:-{PART})*) :", re.M)
# Functions of the library that lemmas are named after.
LIBRARY = {"length", "take", "drop", "set", "sets", "get_or", "replicate", "append", "map", "min", "max", "flatten", "cond", "eqb", "ltb", "leb"}
# What stands before a name that the check makes.
MADE = re.compile(r"(?:(?<![\w'.\-])(?:c|l|w|goal)|\.(?:initial|args|new|auto|fn|type_inv|ranges|told))\.$")


def snake(name):
    if name in KEPT or not CAMEL.match(name):
        return APART.get(name, name)
    if name in OTHERS:
        return OTHERS[name]
    if HEX_BYTE.fullmatch(name):
        return name.lower()
    return re.sub(r"[A-Z]", lambda capital: "_" + capital.group().lower(), name)


def respelled(text):
    return NAME.sub(lambda name: snake(name.group()), text)


def outside_strings(text):
    done, at = [], 0
    for string in STRING.finditer(text):
        done += [respelled(text[at:string.start()]), string.group()]
        at = string.end()
    return "".join(done) + respelled(text[at:])


def in_backquotes(text, way=respelled):
    return re.sub(r"`[^`\n]*`", lambda span: way(span.group()), text)


def fallen_together(before):
    names = set(NAME.findall(before))
    return sorted(name for name in names if CAMEL.match(name) and name not in KEPT | SAME and snake(name) in names - set(APART))


def sources(*kinds):
    return [p for kind in kinds for p in sorted(pathlib.Path("crates").rglob(kind)) if "out" not in p.parts]


def is_of_function(path):
    """Whether it is a file of the proof of one function, whose goals and steps the check names."""
    return path.parts[2] == "proofs" and len(path.parts) > 4


def capitals():
    ways = [(path, outside_strings) for path in sources("*.rt", "*.antt", "*.edit")]
    ways += [(pathlib.Path(page), in_backquotes) for page in PAGES]
    texts = [(path, path.read_text(), way) for path, way in ways]
    clashes = [f"{path}: {', '.join(names)}" for path, text, _ in texts if path.suffix == ".antt" and (names := fallen_together(text))]
    if clashes:
        sys.exit("these names fall together with others of their file:\n" + "\n".join(clashes))
    for path, text, way in texts:
        path.write_text(way(text))


def of_library(texts):
    """Names that are imported from elsewhere than a crate of this repository."""
    names = set()
    for text in texts:
        for path, listed in IMPORT.findall(text):
            crate = re.match(r"Rattle\.(\w+)", path)
            if not (crate and os.path.isdir("crates/" + crate.group(1))):
                names |= {name.strip() for name in listed.split(",")}
    return names


def without_dashes(name, names):
    """The name with `_` for each dash but those that join two names."""
    parts = name.split("-")
    done = parts[0]
    for part in parts[1:]:
        left = done.rsplit("-", 1)[-1]
        joins = left in names and re.sub(r"[≤≢≡']+$", "", part) in names
        done += ("-" if joins else "_") + part
    return done


def dashes():
    files = {path: path.read_text() for path in sources("*.antt")}
    laws = {path: text for path, text in files.items() if not is_of_function(path)}
    foreign = of_library(files.values())
    functions = LIBRARY | {
        name
        for path, text in laws.items()
        if "specs" in path.parts
        for name in re.findall(rf"^(?:abbrev |unfoldable |pub )+([a-z][\w']*) :", text, re.M)
    }
    words = {name for text in files.values() for name in re.findall(r"[A-Za-z_][\w'≤≢≡₀]*", COMMENT.sub("", text))}
    words |= {name for path in sources("*.rt") for name in re.findall(r"[A-Za-z_]\w*", COMMENT.sub("", path.read_text()))}
    own = {name for text in laws.values() for name in DASHED.findall(COMMENT.sub("", text))} - foreign
    new = {name: without_dashes(name, functions) for name in own}
    new = {name: to for name, to in new.items() if to != name and to not in words}

    def turned(text, names):
        return DASHED.sub(lambda name: names.get(name.group(), name.group()), text)

    def of_code(text, names):
        done, at = [], 0
        for comment in COMMENT.finditer(text):
            done += [turned(text[at:comment.start()], names), in_backquotes(comment.group(), lambda t: turned(t, names))]
            at = comment.end()
        return "".join(done) + turned(text[at:], names)

    def of_function(text):
        made = set(re.findall(r"goal\.([^\s(]+)", text)) | {n.strip() for l in re.findall(r"\.Goals\.\{([^}]*)\}", text) for n in l.split(",")}
        local = {n for n in re.findall(rf"(?:let |λ [^.]*?|\()({PART}(?:-{PART})+)(?= :| =|[ .])", text)} - foreign
        names = {**{n: without_dashes(n, functions) for n in local if without_dashes(n, functions) not in words}, **new}
        names = {n: to for n, to in names.items() if n not in made}
        code = lambda t: DASHED.sub(lambda m: m.group() if MADE.search(t[: m.start()]) else names.get(m.group(), m.group()), t)
        return "\n".join(l if l.lstrip().startswith("--") else code(l) for l in text.split("\n"))

    for path, text in files.items():
        path.write_text(of_function(text) if is_of_function(path) else of_code(text, new))
    for path in sources("*.rt"):
        path.write_text(of_code(path.read_text(), new))
    for path in sources("*.edit"):
        path.write_text(turned(path.read_text(), new))
    for page in PAGES:
        path = pathlib.Path(page)
        path.write_text(in_backquotes(path.read_text(), lambda t: turned(t, new)))


if "--dashes" not in sys.argv:
    capitals()
dashes()
