#!/usr/bin/env python3
"""Respells this repository's own definitions and lemmas as today's Rattle spells words: snake case in place of camel case, and an underscore
in place of a dash in definitions, fields and constructors. Run once at the top of the repository, after the kit's port.py.

    python3 tools/respell.py [FOLDER]

Lemmas keep the dashes that join the names which they speak of. Types keep their capitals. Names of Rust functions, strings, inputs and
outputs do not change: no name of src/ is in camel case.
"""
import os
import re
import sys

# Names that would fall together with another one: the field or constructor gives way, and the definition has the plain name. The last
# has a letter that stands for itself.
GIVEN = {
    "isRead": "is_read",
    "is_read": "read_is",
    "is-bracket": "bracket_kind",
    "is-line-feed": "line_feed_kind",
    "is-semicolon": "semicolon_kind",
    "is-space": "space_kind",
    "is-word-byte": "word_byte_kind",
    "margins-of": "margins_given",
    "all-items": "all_items_summed",
    "blank-line": "line_blank",
    "cut-bundles": "cut_of_bundles",
    "no-line-feed": "without_line_feed",
    "length-stored": "stored_length",
    "is-part": "part_is",
    "sheetCAndDivision": "sheet_c_and_division",
}

WORD = re.compile(r"(?<![0-9A-Za-z_])[A-Za-z_\u00c0-\u024f\u2080-\u2089\u0370-\u03ff\u2115\u2124\u1d30][A-Za-z0-9_'\u00c0-\u024f\u2080-\u2089\u0370-\u03ff\u2115\u2124\u1d30-]*")
DECLARED = re.compile(r"^\s*(?:abbrev|unfoldable)\s+(?:pub\s+)?(\S+) :")
TYPE = re.compile(r"^(\s*)(?:pub\s+)?(record|data) .*where\s*$")
FIELD = re.compile(r"^(\s*)(?:pub\s+)?(\S+) :")


def texts(root):
    for top in ("crates", "docs"):
        for folder, dirs, files in os.walk(os.path.join(root, top)):
            dirs[:] = sorted(d for d in dirs if d not in ("out", "target", "data"))
            for name in sorted(files):
                if name.endswith((".antt", ".rt", ".edit", ".md")):
                    yield os.path.join(folder, name)
    yield os.path.join(root, "README.md")


def dashed(root):
    """The definitions, fields and constructors with a dash in their names; a walk over a function's body is left, as its names are given."""
    found = set()
    for path in texts(root):
        if not path.endswith(".antt") or path.endswith("/Proof.antt"):
            continue
        indent = None
        for line in open(path, encoding="utf-8"):
            if indent is not None:
                field = FIELD.match(line)
                if field and len(field.group(1)) > indent:
                    found.add(field.group(2))
                elif line.strip() and len(line) - len(line.lstrip()) <= indent:
                    indent = None
            opened = TYPE.match(line)
            if opened:
                indent = len(opened.group(1))
            declared = DECLARED.match(line)
            if declared:
                found.add(declared.group(1))
    return {name for name in found if "-" in name}


def snake(part):
    if not part[:1].islower():
        return part
    return re.sub(r"(?<=[a-z0-9])[A-Z]", lambda capital: "_" + capital.group().lower(), part)


def main():
    root = sys.argv[1] if len(sys.argv) > 1 else "."
    underscored = dashed(root)

    def respelled(match):
        word = match.group()
        if word in GIVEN:
            return GIVEN[word]
        new = "-".join(snake(part) for part in word.split("-"))
        return new.replace("-", "_") if word in underscored else new

    for path in list(texts(root)):
        with open(path, encoding="utf-8") as f:
            old = f.read()
        lines = []
        for line in old.split("\n"):
            # in a page only what stands between backticks is a name
            if path.endswith(".md"):
                lines.append(re.sub(r"`[^`]*`", lambda code: WORD.sub(respelled, code.group()), line))
            else:
                lines.append(WORD.sub(respelled, line))
        new = "\n".join(lines)
        if new != old:
            with open(path, "w", encoding="utf-8") as f:
                f.write(new)


main()
