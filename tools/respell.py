#!/usr/bin/env python3
"""Brings the repository's own definitions and lemmas to one spelling: words in snake case, `'` for a prime.

usage: python3 tools/respell.py        at the top of the repository, once, after the kit's port.py
       python3 tools/respell.py list   prints old and new names and writes nothing

It collects what the files of specs/ and proofs/ define (signatures, fields, constructors) and respells these names there, in the ghost text of
.rt files, in edits and in documents. Functions of src/, types, modules and what the check generates keep their names.
"""

import glob
import re
import sys

NAME = r"[^\s(){}\[\],;.\"@]+"
SIGNATURE = re.compile(
    r"^(?P<indent>\s*)(?:(?:abbrev|unfoldable|pub)\s+)*(?P<name>[^\s(){}\[\],;.\":@]+)(?:\s+\{[^}]*\})?\s*:(?:\s|$)"
)
SEVERAL = re.compile(r"^\s+(?:pub\s+)?(?P<names>[a-z][^\s(){}\[\],;.\":@]*(?:\s+[a-z][^\s(){}\[\],;.\":@]*)+)\s*:\s")
CONSTRUCTOR = re.compile(r"^\s*\|?\s*(?P<name>[a-z][^\s(){}\[\],;.\":|@]*)\s*:\s")
WORD = re.compile(r"[a-z][A-Za-z0-9_]*(?:['′]*)(?:-[A-Za-z0-9_'′]+)*['′]*")
# Lemmas that the kit's script had respelled already, and whose name a definition takes now.
TAKEN = ["first_byte", "fraction_end", "one_byte", "seen_by", "string_bytes", "value_after"]
KEYWORDS = {"use", "where", "record", "data", "module", "let", "in", "rw", "simp", "omega", "search", "elim", "open"}


def snake(name):
    name = name.replace("′", "'")
    if not name[:1].islower():
        return name
    name = re.sub(r"([a-z0-9])([A-Z])", lambda m: m.group(1) + "_" + m.group(2).lower(), name)
    return name.replace("-", "_")


def sources(kind):
    return sorted(p for p in glob.glob("crates/*/**/*" + kind, recursive=True) if "/out/" not in p)


def defined():
    """The names that specs/ and proofs/ define, and those of them that are fields."""
    names, fields = set(), set()
    for path in sources(".antt"):
        inside = False
        for line in open(path, encoding="utf-8"):
            if line.lstrip().startswith("--"):
                continue
            if re.match(r"^\s*(?:pub\s+)?(?:abbrev\s+)?(?:record|data)\s", line):
                inside = True
                continue
            if line.strip() and not line[0].isspace():
                inside = False
            m = SIGNATURE.match(line)
            if m and m.group("name") not in KEYWORDS:
                names.add(m.group("name"))
                if inside and m.group("indent"):
                    fields.add(m.group("name"))
            m = inside and SEVERAL.match(line)
            if m:
                for name in m.group("names").split():
                    if name not in KEYWORDS and name != "pub":
                        names.add(name)
                        fields.add(name)
    return names, fields


def words_of(text):
    return set(re.findall(r"[A-Za-z_][A-Za-z0-9_'′₀-₉-]*", text))


def respell(text, names, fields):
    def one(m):
        word = m.group(0)
        if word not in names:
            return word
        before = text[m.start() - 1] if m.start() else " "
        if before.isalnum() or before in "_'′-·":
            return word
        if before == "." and ("-" in word or word in TAKEN) and word not in fields:
            # a name that the check makes, as `c.past-blocks`, unless it is a path of modules
            line = text[text.rfind("\n", 0, m.start()) + 1 : m.start()]
            if not re.search(r"(?:^|[\s(])(?:use\s+)?(?:Rattle|[A-Z][A-Za-z0-9]*)(?:\.[A-Za-z0-9_]+)*\.$", line):
                return word
        return names[word]

    return re.sub(r"[A-Za-z_][A-Za-z0-9_'′-]*(?<!-)", one, text)


STRING = re.compile(r'("(?:\\.|[^"\\\n])*")')


def outside_strings(text, names, fields):
    parts = STRING.split(text)
    return "".join(p if i % 2 else respell(p, names, fields) for i, p in enumerate(parts))


def ghost_lines(text, names, fields):
    """Respells the clauses and ghost imports of a .rt file, and names in backquotes of its comments."""
    out, depth, ghost = [], 0, False
    for line in text.split("\n"):
        bare = line.strip()
        if bare.startswith("//"):
            line = re.sub(r"`[^`]*`", lambda m: respell(m.group(0), {k: v for k, v in names.items() if "-" in k or re.search("[A-Z]", k)}, fields), line)
            out.append(line)
            continue
        if not ghost and re.match(r"(?:pub )?(?:ghost|requires|ensures|decreases|invariant)\b|abbrev\b", bare):
            ghost, depth = True, 0
        if ghost:
            out.append(outside_strings(line, names, fields))
            depth += line.count("{") + line.count("(") - line.count("}") - line.count(")")
            if depth <= 0 and ("{" in line or "}" in line or ";" in line):
                ghost = False
        else:
            out.append(line)
    return "\n".join(out)


def main():
    names, fields = defined()
    turned = {n: snake(n) for n in names if snake(n) != n}
    # A lemma that would have its definition's name gets `_lem`.
    mixed_targets = {snake(n) for n in turned if re.search("[A-Z]", n)}
    for n in turned:
        if "-" in n and (turned[n] in mixed_targets or turned[n] in names):
            turned[n] += "_lem"
    for n in TAKEN:
        turned[n] = n + "_lem"
    antt = {p: open(p, encoding="utf-8").read() for p in sources(".antt")}
    rust = {p: open(p, encoding="utf-8").read() for p in sources(".rt")}
    used = set()
    for text in antt.values():
        used |= words_of(text)
    for old in sorted(turned):
        new = turned[old]
        twins = [o for o in turned if o != old and turned[o] == new]
        if twins or new in used:
            print("look:", old, "->", new, "also", ", ".join(twins) or "stands already")
    if "list" in sys.argv:
        for old in sorted(turned):
            print(old, turned[old])
        return
    for path, text in antt.items():
        new = outside_strings(text, turned, fields)
        if new != text:
            open(path, "w", encoding="utf-8").write(new)
    for path, text in rust.items():
        new = ghost_lines(text, turned, fields)
        if new != text:
            open(path, "w", encoding="utf-8").write(new)
    # In documents and edits also the names that the kit's script respelled in the sources.
    stand = set(turned.values()) | names
    for path in sources(".edit") + glob.glob("docs/*.md") + glob.glob("tests/*.py"):
        for word in words_of(open(path, encoding="utf-8").read()):
            if word not in turned and snake(word) != word and snake(word) in stand and snake(word) not in turned:
                turned[word] = snake(word)
    # In documents and edits: names in mixed case anywhere, names with dashes in backquotes; an edit of antt text whole.
    mixed = {k: v for k, v in turned.items() if re.search(r"[a-z][A-Z]", k)}
    for path in sources(".edit"):
        text = open(path, encoding="utf-8").read()
        out, whole = [], False
        for line in text.split("\n"):
            if line.startswith("file:"):
                whole = line.rstrip().endswith(".antt")
            out.append(outside_strings(line, turned if whole else mixed, fields))
        new = "\n".join(out)
        if new != text:
            open(path, "w", encoding="utf-8").write(new)
    for path in sorted(glob.glob("docs/*.md") + ["README.md", "tests/README.md", "conformance/README.md"] + glob.glob("tests/*.py")):
        if path.startswith("docs/PORT") or path == "docs/CHANGES.md":
            continue
        text = open(path, encoding="utf-8").read()
        dashed = dict(turned)
        new = re.sub(r"`[^`\n]*`", lambda m: respell(m.group(0), dashed, fields), text) if path.endswith(".md") else respell(text, mixed, fields)
        if new != text:
            open(path, "w", encoding="utf-8").write(new)


main()
