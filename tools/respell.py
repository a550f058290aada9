#!/usr/bin/env python3
"""Brings this repository's own definitions and lemmas to one spelling: words in snake case, types in camel case.

usage: tools/respell.py [--table] [FOLDER]     with --table it writes the table of spellings and changes nothing

It takes the names that the .antt files of specs/ and the lemma files of proofs/ declare (definitions, lemmas, records, constructors, fields), gives each
its new spelling, refuses where two names would fall together, and rewrites whole words: in .antt files, in the clauses, ghost items and ghost imports of
.rt files, and in the lines of must-fail edits that stand in these. Functions of src/, exported names, strings, inputs and outputs are left alone.
"""

import os
import re
import sys

# words that are not split at a capital, and what the older library called a word that has another name now
PLAIN = {"kWh": "kwh", "natAbs": "unsigned_abs", "getD": "get_or", "leZ": "le_ℤ"}
# names that would fall together with another one of the repository or of the library, each with a spelling of its own
OWN = {
    "ends-piece": "EndsPiece",  # a type
    "link-of": "link_with",  # link_of is the link of a zone
    "to-parent": "share_to_parent",  # to_parent and to_child are fields of a link
    "to-child": "share_to_child",
}
WORD = re.compile(r"""[^\s(){}.;,@"«»]+""")
INNER = re.compile(r"(?m)^ +(?:abbrev |unfoldable |pub )*([^\s:(){};,.]+)(?: \{[^\n]*\})? :\s")
MADE = ("Answers.antt", "Invariants.antt", "Choices.antt", "Proof.antt")


def files(root, ends):
    for folder, dirs, names in os.walk(os.path.join(root, "crates")):
        dirs[:] = sorted(d for d in dirs if d != "out")
        for name in sorted(names):
            if name.endswith(ends):
                yield os.path.join(folder, name)


def declared(path):
    """Each name that the file declares, inside sections and behind a `where` too. In a file of answers the goals' names are Rattle's own."""
    made = os.path.basename(path) in MADE and "/proofs/" in path
    with open(path, encoding="utf-8") as it:
        text = re.sub(r"--[^\n]*", "", it.read())
    for item in re.split(r"\n(?=\S)", text):
        one = " ".join(item.split())
        m = re.match(r"(?:pub )?(record|data) (?:pub )?([^\s:(){};]+)", one)
        if m:
            yield m[2]
            yield from (f[1] for f in INNER.finditer(item))
            continue
        m = re.match(r"(?:abbrev |unfoldable |pub )*([^\s:(){};,.]+)(?: *\{[^{}]*\})* : (\S+)", one)
        if m and m[1] not in ("use", "open", "let") and not (made and m[2].startswith("goal.")):
            yield m[1]
        if re.match(r"(?:pub )?module\b", one):
            yield from (f[1] for f in INNER.finditer(item))
        for local in re.split(r"\n +where\n", item)[1:]:
            yield from (f[1] for f in INNER.finditer(local))


def snake(name):
    for old, new in PLAIN.items():
        name = name.replace(old, new)
    name = re.sub(r"(?<=[a-z0-9])([A-Z])", lambda m: "_" + m[1].lower(), name)
    return name.replace("-", "_")


def camel(name):
    for old, new in PLAIN.items():
        name = name.replace(old, new.capitalize())
    return "".join(part[:1].upper() + part[1:] for part in name.split("-"))


def spelled(name):
    """A type has had a capital at its head all along."""
    if name in OWN:
        return OWN[name]
    if name[:1].isupper() and name.isascii():
        return camel(name)
    return snake(name)


def table(root):
    names = set()
    for path in files(root, (".antt",)):
        names.update(declared(path))
    turned = {n: spelled(n) for n in names}
    return names, {n: s for n, s in turned.items() if s != n}


def words(text, turned):
    return WORD.sub(lambda m: turned.get(m[0], m[0]), text)


def seen_in(text, name):
    """Whether the file declares or imports the name: elsewhere the same word is a local one, or one that Rattle made of a source name."""
    at = re.escape(name)
    return re.search(rf"(?m)^(?:pub |abbrev )*{at} :|^(?:pub |ghost )*use [^\n]*[{{ ,]{at}[,}} ]", text)


def spans(text, turned):
    return re.sub(r"`[^`\n]*`", lambda m: "`" + words(m[0][1:-1], turned) + "`", text)


def respelled(path, text, turned):
    """In code each word, in comments and in documents the words between backquotes; strings stay."""
    if path.endswith(".md"):
        return spans(text, turned)
    turned = turned | {n: snake(n) for n in OWN if not seen_in(text, n)}
    if path.endswith(".edit"):
        return "".join(words(line, turned) if line.startswith(("old:", "new:")) and "specs" not in line else line for line in text.splitlines(keepends=True))
    sign = "--" if path.endswith(".antt") else "//"
    parts = re.split(r'("(?:[^"\\\n]|\\.)*"|(?<!\S)' + sign + r"[^\n]*)", text)
    return "".join(part if i % 2 and part[0] == '"' else spans(part, turned) if i % 2 else words(part, turned) for i, part in enumerate(parts))


def main(argv):
    root = next((a for a in argv[1:] if a != "--table"), os.path.dirname(os.path.dirname(os.path.realpath(__file__))))
    names, turned = table(root)
    if "--table" in argv:
        print("".join(f"{old}\t{new}\n" for old, new in sorted(turned.items())), end="")
        return 0
    kept = names - set(turned)
    both = [old for old, new in turned.items() if new in kept or sum(n == new for n in turned.values()) > 1]
    if both:
        print("these would fall together with another name: " + " ".join(sorted(both)), file=sys.stderr)
        return 1
    paths = list(files(root, (".antt", ".rt", ".edit")))
    paths += [os.path.join(root, "README.md")] + [os.path.join(root, "docs", d) for d in sorted(os.listdir(os.path.join(root, "docs"))) if d.endswith(".md") and d != "PORT.md"]
    changed = 0
    for path in paths:
        with open(path, encoding="utf-8") as it:
            text = it.read()
        new = respelled(path, text, turned)
        if new != text:
            changed += 1
            with open(path, "w", encoding="utf-8") as it:
                it.write(new)
    print(f"{len(turned)} names, {changed} files")
    return 0


if __name__ == "__main__":
    raise SystemExit(main(sys.argv))
