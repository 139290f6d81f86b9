#!/usr/bin/env python3
"""Brings the repository's own definitions and lemmas to one spelling: words in snake case, types and modules in camel case.

usage: python3 tools/respell.py [--check]

Run it once, at the top, behind the script that turned the files to the toolchain of today. It collects the names that specs/ and
proofs/ declare (definitions, lemmas, fields, constructors, aliases of modules), and writes each as

    sizeOfStore, store-reads  ->  size_of_store, store_reads        AllBytes-append  ->  as it is: a type keeps its capital and its dash

in specs/, proofs/, the clauses of src/, must-fail/ and, between backquotes, in the pages. Functions of src/, exported names, strings,
inputs and outputs keep theirs. A new name that stands in the repository already, or in a file that cites the old one, gets _lem
behind it; each is printed. --check writes nothing.
"""

import os
import re
import sys

# What an identifier of antt is made of.
WORD = r"[^\s(){}\[\],;.`\"“”|]+"
DECLARED = re.compile(r"(?m)^[ \t]*(?:(?:abbrev|unfoldable|pub)[ \t]+)*(" + WORD + r")(?:[ \t]+\{[^}]*\})?[ \t]+:[ \t\n]")
ALIAS = re.compile(r"\bas (" + WORD + r")[;\s]")
# Names that stand in a path of the toolchain's, and answers that are named after its goals.
MADE = re.compile(r"(?m)^(?:abbrev )?(" + WORD + r")[ \t]+:[ \t]+(?:tie|need|given|goal)\.")
# What the toolchain makes a name of a function, a loop or a branch of.
STEPS = re.compile(r"^(?:returns|loop)(?:-|$)")


def snake(name):
    parts = name.split("-")
    out = []
    for part in parts:
        if part[:1].islower() or part[:1] == "_":
            part = re.sub(r"(?<=[a-z0-9_])([A-Z])", lambda m: "_" + m[1].lower(), part).replace("__", "_")
        out.append(part)
    text = out[0]
    for before, part in zip(out, out[1:]):
        keeps = before[:1].isupper() or part[:1].isupper() or not part or not before
        text += ("-" if keeps else "_") + part
    return text


def read(path):
    with open(path, encoding="utf-8") as f:
        return f.read()


def files(folder, ends):
    for above, folders, names in os.walk(folder):
        folders[:] = sorted(it for it in folders if it not in ("out", ".git", "target"))
        for name in sorted(names):
            if name.endswith(ends):
                yield os.path.join(above, name)


def strip_comments(text):
    return re.sub(r"(?m)(^|[ \t])--[ \t-].*$", r"\1", text)


def names_in(text):
    made = set(MADE.findall(text))
    return {it for it in DECLARED.findall(text) + ALIAS.findall(text) if it not in made}


def old_name(name):
    if not re.search(r"[A-Za-z]", name) or STEPS.match(name) or "◌" in name:
        return False
    return bool(re.match(r"[a-z_]", name)) and (bool(re.search(r"[a-z0-9][A-Z]", name)) or "-" in name)


TOKEN = re.compile(WORD)


def respell(text, table):
    return TOKEN.sub(lambda m: table.get(m[0], m[0]), text)


def antt(text, table, plain):
    """Code by the table; comments by what cannot be a phrase of English (plain), and between backquotes by all of it."""
    lines = []
    for line in text.split("\n"):
        m = re.match(r"^(.*?(?:^|[ \t]))(--(?:[ \t-].*)?)$", line)
        if m and "`" not in m[1]:
            quoted = re.sub(r"`[^`]*`", lambda q: respell(q[0], table), m[2])
            line = respell(m[1], table) + respell(quoted, plain)
        else:
            line = respell(line, table)
        lines.append(line)
    return "\n".join(lines)


def rattle(text, table, plain):
    """Clauses and imports of clauses by the table; the rest by what no code has (plain)."""
    lines, depth = [], 0
    for line in text.split("\n"):
        if depth or re.match(r"\s*(?:ghost use|ghost |requires|ensures)\b", line):
            line = respell(line, table)
            depth += line.count("{") - line.count("}")
            depth = max(depth, 0)
        else:
            comment = re.match(r"^(\s*)(//.*)$", line)
            if comment:
                line = comment[1] + respell(re.sub(r"`[^`]*`", lambda q: respell(q[0], table), comment[2]), plain)
        lines.append(line)
    return "\n".join(lines)


# Lemmas that would have the name of a definition, and fields and a definition whose names would fall together.
CHOSEN = {it: it + "_lem" for it in "end_on inside_on kept_in length_to no_byte no_room nothing_known numbers_of on_null on_store one_number said_in same_bit same_id same_key some_of zeros_of".split()}
CHOSEN |= {"askOut": "asked_out", "ask-report": "report_of_ask", "length-report": "report_of_length", "read-report": "report_of_read", "length-is": "length_is", "most-carried": "most_carried"}

# A token that is bound or cited by its bare name: no segment of a path, and not in a list of imports.
BARE = re.compile(r"(?<![^\s(){}\[\],;`|])(" + WORD + r")(?!\.)")


def bare(text):
    return set(BARE.findall(re.sub(r"(?m)^\s*(?:pub |unfoldable )*(?:ghost )?use .*$", "", text)))


def imported(text):
    found = set()
    for names in re.findall(r"use Rattle\.std\.[^{;\n]*\{([^}]*)\}|use (?:native|lib|borrow|denote|base|Prim)\.[^{;\n]*\{[^}]*\}", text):
        found |= {it.split(" as ")[-1].strip() for it in names.split(",")}
    return found


def clauses(text):
    return "\n".join(l for l in text.split("\n") if re.match(r"\s*(?:ghost use|requires|ensures)\b", l))


def of_source(text):
    """Parameters, fields and variables of src/, which hide a word of their name in a clause."""
    code = re.sub(r"//.*", "", text)
    return set(re.findall(r"\b([a-z_][a-z0-9_]*)\s*:(?!:)", code))


def main():
    check = "--check" in sys.argv[1:]
    sources = list(files("crates", (".antt",)))
    code = {p: strip_comments(read(p)) for p in sources}
    names = {it for p in sources for it in names_in(code[p])}
    declared = {it for it in names if old_name(it)}
    used, own = {}, {}
    for p in sources:
        used[p], own[p] = set(TOKEN.findall(code[p])), bare(code[p]) | imported(code[p])
    for p in files("crates", (".rt",)):
        text = read(p)
        used[p], own[p] = set(TOKEN.findall(clauses(text))), of_source(text) | imported(text)
    table = {a: b for a, b in CHOSEN.items() if a in names}
    taken = {b: a for a, b in table.items() if b not in ("length_is", "most_carried")}
    # Definitions first: of two that fall together the lemma gets the longer name.
    for name in sorted(declared, key=lambda it: ("-" in it, it)):
        new = snake(name)
        if new == name or name in table:
            continue
        clash = any(name in used[p] and new in own[p] for p in used) and new not in table
        falls = [new in names and "-" in name, new in taken, clash]
        if any(falls):
            where = next((p for p in used if name in used[p] and new in own[p]), "")
            longer = new + "_lem" if "-" in name else "the_" + new
            print(f"together: {name} -> {new}, as {longer} ({taken.get(new, where)})")
            new = longer
            if new in names or new in taken or any(name in used[p] and new in own[p] for p in used):
                print(f"left: {name}: {new} is taken too")
                continue
        table[name] = new
        taken[new] = name
    plain = {a: b for a, b in table.items() if re.search(r"[a-z0-9][A-Z]", a)}
    turned = 0
    for p in sources + list(files("crates", (".rt", ".edit"))):
        text = read(p)
        if p.endswith(".antt"):
            new = antt(text, table, plain)
        elif p.endswith(".rt"):
            new = rattle(text, table, plain)
        else:
            new = "\n".join(respell(l, table) if re.match(r"(?:old|new):", l) else l for l in text.split("\n"))
        turned += new != text
        if new != text and not check:
            with open(p, "w", encoding="utf-8") as f:
                f.write(new)
    for p in ["README.md", "CONTRIBUTING.md", "crates/cases/README.md"] + list(files("docs", (".md",))):
        # The notes on requests are records, and keep their words.
        if not os.path.isfile(p) or os.path.basename(p).startswith("PORT") or p.startswith("docs/requests"):
            continue
        text = read(p)
        new = re.sub(r"`[^`\n]*`", lambda q: respell(q[0], table), text)
        turned += new != text
        if new != text and not check:
            with open(p, "w", encoding="utf-8") as f:
                f.write(new)
    print(f"respell: {len(table)} names, {turned} files")


if __name__ == "__main__":
    main()
