#!/usr/bin/env python3
"""Compares the words of public clauses with docs/definitions.md and docs/formats.md, and names those that stand in neither.

A word is a name that a crate of this repository defines in its specs/ or declares in its code, and that a public clause cites. Public
clauses are each `requires` and `ensures` of a public function, of a function of a public trait, and of a function by which a public type
carries out a trait; and the ghost members of public traits and types. A word stands in a document where the document has it between
backquotes, alone or within a longer piece of code. The statement of a law, whose name ends in `Law` or `Examples`, needs no such place:
docs/definitions.md tells what these names are.

Ends with status 1 where a word is missing.
"""
import pathlib
import re
import sys

ROOT = pathlib.Path(__file__).resolve().parent.parent
DOCUMENTS = ("docs/definitions.md", "docs/formats.md")
NAME = re.compile(r"(?<![\w.'])[A-Za-z_][\w']*")
STATEMENT = re.compile(r"\w*(Law|Examples)")
IMPORT = re.compile(r"ghost use Rattle\.(\w+)\.specs\.[\w.]+\.\{([^}]*)\};")
# The heads of blocks, traits and functions, and the begins of clauses and ghost members, up to the brace that opens them.
PART = re.compile(
    r"^(?P<close>\})"
    r"|^(?P<trait>pub trait )"
    r"|^impl\b[^{]* for (?P<type>\w+)"
    r"|^ *(?P<pub>pub )?(?:pub\(crate\) )?(?:const )?fn \w+"
    r"|\b(?P<clause>requires|ensures)(?: \w+)? \{"
    r"|^ *ghost (?P<member>\w+)(?::| =) \{",
    re.M,
)


def crates():
    """The names of this repository's crates."""
    lines = (line.split("#")[0].strip() for line in (ROOT / "crates.txt").read_text(encoding="utf-8").splitlines())
    return {line.split(":")[0] for line in lines if line}


def sources():
    """The paths and texts of all code but tests, without comments."""
    for path in sorted(ROOT.glob("crates/*/src/**/*.rt")):
        if path.name != "tests.rt":
            yield path.relative_to(ROOT), re.sub(r"//.*", "", path.read_text(encoding="utf-8"))


def explained():
    """The names that stand between backquotes in the documents."""
    names = set()
    for document in DOCUMENTS:
        text = (ROOT / document).read_text(encoding="utf-8")
        for block, code in re.findall(r"```(.*?)```|`([^`]+)`", text, flags=re.S):
            names.update(NAME.findall(block + code))
    return names


def body(text, start):
    """The text from here to the brace that closes the one before."""
    depth, end = 1, start
    while depth:
        depth += {"{": 1, "}": -1}.get(text[end], 0)
        end += 1
    return text[start:end - 1]


def clauses(text, types):
    """The public clauses and ghost members of a file, where these types are public."""
    in_public = is_public = False  # whether this block is a public trait or a trait of a public type; whether this function is public
    for part in PART.finditer(text):
        if part["close"]:
            in_public = False
        elif part["trait"]:
            in_public = True
        elif part["type"]:
            in_public = part["type"] in types
        elif part["clause"] or part["member"]:
            if is_public if part["clause"] else in_public:
                yield body(text, part.end())
        else:
            is_public = bool(part["pub"]) or in_public


def imports(text, ours):
    """The words that a file takes from specs of these crates, by the names that it gives them."""
    words = {}
    for crate, items in IMPORT.findall(text):
        for item in items.split(",") if crate in ours else ():
            word, _, other = item.strip().partition(" as ")
            if NAME.fullmatch(word):
                words[other or word] = word
    return words


def main():
    ours, known = crates(), explained()
    types = {name for _, text in sources() for name in re.findall(r"^pub (?:struct|enum) (\w+)", text, flags=re.M)}
    missing = {}
    for path, text in sources():
        words = imports(text, ours)
        for clause in clauses(text, types):
            for name in NAME.findall(clause):
                word = words.get(name)
                if word and word not in known and not STATEMENT.fullmatch(word):
                    missing.setdefault(word, path)
    for word, path in sorted(missing.items()):
        print(f"{word}: a clause in {path} cites it, and neither {' nor '.join(DOCUMENTS)} has it")
    if missing:
        print(f"{len(missing)} words of public clauses are not explained")
    return 1 if missing else 0


if __name__ == "__main__":
    sys.exit(main())
