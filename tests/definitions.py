#!/usr/bin/env python3
"""What a reader has to believe: the definitions that the public contracts and the stated results rest on.

A file of specs/ is of one kind: of a file whose first line begins "Helper definitions" nothing is reached from them, of any other file every definition
is. With the argument `list`, the definitions to believe are printed, file by file."""
import os
import re
import sys

CRATES = os.path.join(os.path.dirname(os.path.abspath(__file__)), "..", "crates")

# Contracts of public calls that no function of the C interface wraps, and results that proofs/ show.
STATED = [
    ("base", "Bytes", "AreBytes"),
    ("base", "Kinds", "TableOfKinds"),
    ("utf8", "Check", "Checked"),
    ("go_duration", "Written", "Accepted"),
    ("rfc3339", "Instant", "InRange"),
    ("rfc3339", "Partings", "PartingsTell"),
    ("base64_lenient", "Calls", "DecodesBytes"),
    ("base64_lenient", "Calls", "decoded_value"),
    ("base64_lenient", "Leniencies", "DecodesRfc4648"),
    ("token", "Reason", "ReasonRule"),
    ("token_file", "Calls", "WritesFile"),
    ("token_file", "Calls", "ReadsFile"),
    ("token_file", "Rules", "RowsRules"),
    ("reading", "Chain", "ChainGivesWhole"),
    ("reading", "Chain", "ChainRuns"),
    ("reading", "Miniature", "AsThePaperSays"),
    ("reading", "Timestamps", "TimestampsJudged"),
    ("listing_lines", "Listing", "Lists"),
    ("listing_lines", "Listing", "Prints"),
    ("listing_lines", "Listing", "Suffice"),
    ("listing_lines", "Example", "ExampleListed"),
]

WORD = re.compile(r'[^\s(){},;"`]+')
DECLARED = re.compile(r"^(abbrev |unfoldable )?(?:pub )?(record |data )?([^\s:(){}]+)(?: \{ℓ\})?(?: [({][^\n]*)?(?:\n    [^\n]*)?? :", re.M)
IMPORTED = re.compile(r"^(?:ghost )?use Rattle\.(\w+)\.specs\.([\w.-]+?)(?:\.\{([^}]*)\}| as (\S+?));?$", re.M)


def without_comments(text):
    return "\n".join(re.sub(r"(^|\s)(--|//).*", "", line) for line in text.split("\n"))


def imports(text):
    """The names that a file imports, and its aliases of modules."""
    names, aliases = {}, {}
    for crate, module, listed, alias in IMPORTED.findall(text):
        if alias:
            aliases[alias] = (crate, module)
        for name in listed.split(","):
            if name.strip():
                names[name.strip()] = (crate, module, name.strip())
    return names, aliases


def named(text, imported, own):
    """The definitions that a text names, `own` being those of its file."""
    names, aliases = imported
    found = set()
    for word in WORD.findall(text):
        head, _, rest = word.partition(".")
        if head in own:
            found.add(own[head])
        elif head in names:
            found.add(names[head])
        elif head in aliases and rest:
            found.add(aliases[head] + (rest,))
    return found


class Files:
    """The files of specs/: their first lines, and of each declaration its kind and what it names."""

    def __init__(self):
        self.first, self.definitions, self.theorems, self.uses = {}, {}, [], {}
        for crate in sorted(os.listdir(CRATES)):
            folder = os.path.join(CRATES, crate, "specs")
            for file in sorted(os.listdir(folder)) if os.path.isdir(folder) else []:
                if file != "Lib.antt":
                    self.read(crate, file[: -len(".antt")], os.path.join(folder, file))

    def read(self, crate, module, path):
        with open(path, encoding="utf-8") as file:
            whole = file.read()
        key = (crate, module)
        self.first[key] = whole.split("\n", 1)[0]
        text = without_comments(whole)
        found = [m for m in DECLARED.finditer(text) if m.group(3) != "use"]
        own = {m.group(3): key + (m.group(3),) for m in found}
        imported = imports(text)
        self.definitions[key] = []
        for m, after in zip(found, found[1:] + [None]):
            name = own[m.group(3)]
            body = text[m.start() : after.start() if after else len(text)]
            self.uses.setdefault(name, set()).update(named(body, imported, own))
            if m.group(1) or m.group(2):
                self.definitions[key].append(m.group(3))
            else:
                self.theorems.append(name)


def contracts():
    """What the contracts of the functions that C programs call name."""
    found = set()
    for crate in ("pxf", "exports"):
        folder = os.path.join(CRATES, crate, "src")
        for file in sorted(os.listdir(folder)):
            with open(os.path.join(folder, file), encoding="utf-8") as source:
                text = source.read()
            for contract in re.findall(r'extern "C" fn[^{]*?((?:requires|ensures)\b.*?)\n\{', text, re.S):
                found |= named(contract, imports(text), {})
    return found


def reached(files):
    """All that is named from the contracts, the stated results and the theorems of specs/."""
    todo = list(contracts()) + STATED + files.theorems
    seen = set()
    while todo:
        name = todo.pop()
        if name not in seen:
            seen.add(name)
            todo += files.uses.get(name, ())
    return seen


def main():
    files = Files()
    believed = reached(files)
    failed = [".".join(name) + " is stated nowhere" for name in STATED if name not in files.uses]
    passed = len(STATED) - len(failed)
    for key, names in files.definitions.items():
        helper = files.first[key].startswith("-- Helper definitions")
        path = f"crates/{key[0]}/specs/{key[1]}.antt"
        if "list" in sys.argv[1:] and not helper and names:
            print(f"{path}: {' '.join(names)}")
        wrong = [name for name in names if (key + (name,) in believed) == helper]
        passed += not wrong
        if wrong:
            failed.append(f"{path}, {'helper definitions that contracts rest on' if helper else 'no contract rests on'}: {' '.join(wrong)}")
    for line in failed:
        print("failed:", line)
    print(f"{passed} passed, {len(failed)} failed")
    return 1 if failed else 0


if __name__ == "__main__":
    sys.exit(main())
