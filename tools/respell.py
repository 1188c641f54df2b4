#!/usr/bin/env python3
"""Respells the names that this repository's specs and proofs declare: words in snake case, types in upper camel case.

    respell.py [print]     in the repository's top folder; with print, the renamings alone, and nothing is written

A name is a definition, a lemma, a constructor or a field that an .antt file of crates/ declares. A generated name, such
as that of a goal or of a step of the code, keeps its dashes, and so does every name of the library. A renaming that would
make two names one is refused. Run again, it changes nothing.
"""
import os
import re
import sys

WORD = r"[^\W\d][\w'₀-₉]*(?:-[\w'₀-₉]+)*"
DECLARED = re.compile(rf"^ *(?:(?:abbrev|unfoldable|data|record|ruleset) +)*(?:pub +)?(?:(?:data|record|abbrev|ruleset) +)?({WORD})(?: *\{{[^}}]*\}})?(?: \([^)]*\))* *(?::(.*)|=)", re.M)
# words that code of the same file has already
OTHERWISE = {"user-by": "user_by_bit", "map-word": "sense_of_word"}
# words that functions of src/ have too, in files that name the definition by its module
BY_MODULE = {"input-output", "load-block", "load-down", "move-one", "return-word", "set-frame", "store-block", "who-of"}
# what the check generates: goals, invariants and measures, which an answer file declares under the check's own name
GENERATED = re.compile(r"\s*goal\.")
TOKEN = re.compile(rf"(?<![\w'◌-]){WORD}(?![\w'◌])")


def files():
    for folder, folders, names in os.walk("crates"):
        folders[:] = sorted(f for f in folders if f != "out")
        for name in sorted(names):
            if name.endswith((".antt", ".rt", ".edit")):
                yield os.path.join(folder, name)


def read(path):
    with open(path, encoding="utf-8") as f:
        return f.read()


def declared(text):
    for found in DECLARED.finditer(text):
        if not (found.group(2) and GENERATED.match(found.group(2))):
            yield found.group(1)


def respelled(name):
    if name in OTHERWISE:
        return OTHERWISE[name]
    if name[0].isupper():
        first, *rest = re.split("[-_]", name)
        return first + "".join(part[:1].upper() + part[1:] for part in rest)
    return name.replace("-", "_")


def renamings(texts):
    names = {n for path, text in texts.items() if path.endswith(".antt") for n in declared(text)}
    new = {n: respelled(n) for n in sorted(names) if respelled(n) != n}
    taken = {w for text in texts.values() for w in TOKEN.findall(text)}
    for old, name in new.items():
        if (name in taken and old not in BY_MODULE) or list(new.values()).count(name) > 1:
            sys.exit(f"respell: {old} would fall together with {name}")
    return new


def main(words):
    texts = {path: read(path) for path in files()}
    new = renamings(texts)
    for old, name in new.items():
        print(old, name)
    if words == ["print"]:
        return
    for path, text in texts.items():
        turned = TOKEN.sub(lambda m: new.get(m.group(), m.group()), text)
        if turned != text:
            with open(path, "w", encoding="utf-8") as f:
                f.write(turned)


if __name__ == "__main__":
    main(sys.argv[1:])
