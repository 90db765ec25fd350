#!/usr/bin/env python3
"""Spells the repository's own definitions and lemmas as /opt/rattle/port/PORTING.md, part 3, has them.

usage: python3 tools/respell.py [--list]      at the top, once, after port.py

Words are in snake case: a dash or a capital inside a name becomes an underscore, and a test `x?` becomes `is_x`.
Types, records, facts and modules keep their names, and so do the names of src/, strings, and what a library declares.
In the walk of a function (proofs/F/Proof.antt) what is named behind a dot stays where Rattle makes that name of the code.
--list writes the table and changes nothing.
"""

import os
import re
import sys

WORD = r'[^\s(){}.;,@"«»$]+'
TOKEN = re.compile(WORD)
# Names that would meet another one, with what they are called now.
BY_HAND = {
    name: snake_name + "_lem"
    for name, snake_name in [
        # definitions beside a function of the code
        ("fieldSize", "field_size"), ("referenceOk", "reference_ok"), ("sortOk", "sort_ok"), ("markOk", "mark_ok"),
        ("countedOk", "counted_ok"), ("versionOk", "version_ok"), ("lengthOk", "length_ok"), ("unnamedOk", "unnamed_ok"),
        ("versionFrom", "version_from"), ("labelBy", "label_by"), ("ownSteps", "own_steps"), ("whichNumber", "which_number"),
        ("versionByte", "version_byte"), ("standingCells", "standing_cells"), ("sheetSteps", "sheet_steps"), ("signField", "sign_field"),
        # lemmas beside a definition
        ("stop-of", "stop_of"), ("refusal-of", "refusal_of"), ("steps-of", "steps_of"), ("plain-use", "plain_use"),
        ("cast-arrow", "cast_arrow"), ("cast-field", "cast_field"), ("kind-of", "kind_of"), ("each-half", "each_half"),
        ("row-of", "row_of"), ("after-form", "after_form"), ("after-typing", "after_typing"), ("root-of", "root_of"),
        ("same-field", "same_field"), ("cell-bytes", "cell_bytes"), ("in-version", "in_version"), ("merge-row", "merge_row"),
        ("merge-cell", "merge_cell"), ("wide-cell", "wide_cell"), ("root-term", "root_term"), ("not-topLike", "not_top_like"),
        ("substitute-field", "substitute_field"), ("lower_of", "lower_of"), ("cell_in", "cell_in"),
    ]
} | {"field-size": "field_size_law", "one-refusal": "by_one_refusal"}


def files(root="crates"):
    for folder, dirs, names in os.walk(root):
        dirs[:] = sorted(d for d in dirs if d not in ("out", "must-fail"))
        for n in sorted(names):
            if n.endswith((".antt", ".rt")):
                yield os.path.join(folder, n)


def is_walk(path):
    """A file of one function's proof."""
    parts = path.split(os.sep)
    return "proofs" in parts and len(parts) - parts.index("proofs") == 3


def code_of(text):
    """The text without comments and strings."""
    return re.sub(r'"(?:[^"\\\n]|\\.)*"|(?m:(?:^|(?<=\s))--.*$)|//[^\n]*', " ", text)


# What README and the pages say of today's names; docs/CHANGES.md has each landing's own.
PAGES = ["README.md"] + ["docs/" + n + ".md" for n in ("DECISIONS", "FORMAT", "JOINING", "MERGING", "NOTATION", "PERFORMANCE", "TOUR")]

DECLARES = re.compile(r"(?m)^(?:(?:abbrev|unfoldable|pub|data|record|mutual) +)*(" + WORD + r")(?= +[:({]| *$)")
INSIDE = re.compile(r"(?m)^ +(?:(?:abbrev|unfoldable|pub) +)*(" + WORD + r"(?: +" + WORD + r")*) :(?= |$)")
USE = re.compile(r"\buse +([^\s;{]+)(?:\{([^}]*)\})?")


def snake(name):
    if name in BY_HAND:
        return BY_HAND[name]
    parts = []
    for part in name.split("-"):
        test = part.endswith("?")
        part = re.sub(r"(?<=[a-z0-9])[A-Z]", lambda m: "_" + m[0].lower(), part.rstrip("?"))
        parts.append(("is_" if test else "") + part)
    return "_".join(parts)


def turns(name):
    return bool(re.match(r"[A-Za-z+]", name)) and (
        "?" in name or ("-" in name and not name.startswith("-") and not name.startswith("+")) or bool(re.match(r"[a-z]+[A-Za-z0-9]*[A-Z]", name))
    ) and not name.startswith("Need-") and snake(name) != name


def table(paths):
    out = {}
    for p in paths:
        if not p.endswith(".antt") or is_walk(p):
            continue
        code = code_of(open(p, encoding="utf-8").read())
        names = set(DECLARES.findall(code))
        for m in INSIDE.findall(code):
            names.update(m.split())
        for n in names:
            if turns(n) or n in BY_HAND:
                out[n] = snake(n)
    return out


def foreign(code):
    """The names that a file takes from a library."""
    out = set()
    for path, names in USE.findall(code):
        own = path.startswith("Rattle.") and not path.startswith(("Rattle.std.", "Rattle.core.", "Rattle.io", "Rattle.libc"))
        if not own and names:
            for item in names.split(","):
                out.add(item.split(" as ")[-1].strip())
    return out


def made(paths):
    """What Rattle may call a name of the code behind a dot: an identifier with dashes."""
    out = set()
    for p in paths:
        if p.endswith(".rt"):
            for w in re.findall(r"[a-z]\w*", open(p, encoding="utf-8").read()):
                out.add(w.replace("_", "-"))
    return out


def turned(text, names, keep, walk, made_names):
    def word(m):
        w = m[0]
        if w not in names or w in keep:
            return w
        if walk and m.start() and m.string[m.start() - 1] == "." and w in made_names:
            return w
        return names[w]

    out, at = [], 0
    for m in re.finditer(r'"(?:[^"\\\n]|\\.)*"|(?m:(?:^|(?<=\s))--.*$)|//[^\n]*', text):
        out.append(TOKEN.sub(word, text[at : m.start()]))
        said = m[0]
        if said[0] != '"':
            said = re.sub(r"`[^`\n]+`", lambda s: TOKEN.sub(lambda w: names.get(w[0].strip("`"), w[0].strip("`")) if "`" not in w[0] else turn_ticked(w[0], names), s[0]), said)
            said = re.sub(r"(?<![\w`-])[a-z]+[A-Za-z0-9]*[A-Z]\w*(?![\w-])", lambda w: names.get(w[0], w[0]), said)
        out.append(said)
        at = m.end()
    out.append(TOKEN.sub(word, text[at:]))
    return "".join(out)


def turn_ticked(w, names):
    bare = w.strip("`")
    return w.replace(bare, names.get(bare, bare))


def main():
    paths = list(files())
    names = table(paths)
    made_names = made(paths)
    if "--list" in sys.argv:
        meet = {}
        declared = set()
        for p in paths:
            if p.endswith(".antt"):
                code = code_of(open(p, encoding="utf-8").read())
                declared.update(DECLARES.findall(code))
        for a, b in names.items():
            meet.setdefault(b, []).append(a)
        for b, olds in sorted(meet.items()):
            if len(olds) > 1 or b in declared:
                print("meets", b, olds, "declared" if b in declared else "")
        for p in paths:
            if p.endswith(".antt"):
                code = code_of(open(p, encoding="utf-8").read())
                both = foreign(code) & set(names)
                if both:
                    print("foreign", p, sorted(both))
                words = set(TOKEN.findall(code))
                for a in words & set(names):
                    if names[a] in words:
                        print("same file", p, a, names[a])
                    elif names[a] in foreign(code):
                        print("library", p, a)
        print("made", sorted(set(names) & made_names))
        print(len(names))
        return
    for p in PAGES:
        text = open(p, encoding="utf-8").read()
        new = re.sub(r"`[^`\n]+`", lambda s: "`" + TOKEN.sub(lambda w: names.get(w[0], w[0]), s[0][1:-1]) + "`", text)
        new = re.sub(r"Rattle·(\w+)(?:·(?:specs|proofs))?", r"Rattle.\1", new)
        open(p, "w", encoding="utf-8").write(new)
    for p in paths:
        text = open(p, encoding="utf-8").read()
        keep = foreign(code_of(text)) | ({"lower_of", "cell_in"} if p.endswith(".rt") else set())
        new = turned(text, names, keep, is_walk(p), made_names)
        if new != text:
            open(p, "w", encoding="utf-8").write(new)


main()
