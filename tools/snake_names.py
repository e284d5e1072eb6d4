#!/usr/bin/env python3
"""Respells the names of our own definitions and lemmas: words in snake case, types in camel case.

usage: python3 tools/snake_names.py [--dry]     at the top of the repository

Every name with a dash that a file of specs/ or proofs/ declares is respelled, wherever it stands in crates/: `work-of` becomes
`work_of`, `All-yes` becomes `AllYes`. Names that Rattle makes or its library has keep their dashes: an answer to a goal, whose type
begins with `goal.`, is not a declaration of ours. The script stops before it writes anything if two names would become one, and lists
each new name that stands in a file already. Run once, after the move to a newer Rattle; kept as a record of which name became which.
"""

import os
import re
import sys

TOKEN = re.compile(r"(?<![\w'-])[\w']+(?:-[\w']+)+")
DECLARED = [
    re.compile(r"^\s*(?:let\s+)?(?:(?:abbrev|unfoldable|pub)\s+)*([\w']+(?:-[\w']+)+)\s*:(?!\s*goal\.)"),
    re.compile(r"^\s*(?:pub\s+)?(?:record|data)\s+([\w']+(?:-[\w']+)+)"),
    re.compile(r"^\s*infix[lr]?\s+\d+\s+◌([\w']+(?:-[\w']+)+)◌"),
    re.compile(r"^use .*\bas\s+([\w']+(?:-[\w']+)+)"),
]
OLDER_WORDS = {"getD": "get_or"}
# names of variables, which are bound where no rule sees them
BOUND = {"at-t", "f-rising", "r-rising", "same-instant", "same-room"}


def files(top):
    for folder, folders, names in os.walk(os.path.join(top, "crates")):
        folders[:] = sorted(f for f in folders if f != "out")
        for name in sorted(names):
            if name.endswith((".antt", ".rt")):
                yield os.path.join(folder, name)


def without_comments(text):
    return re.sub(r"(?:--(?=\s)|//).*", "", text)


def declared(texts):
    found = set()
    for path, text in texts.items():
        if not path.endswith(".antt"):
            continue
        for line in without_comments(text).split("\n"):
            for rule in DECLARED:
                match = rule.match(line)
                if match:
                    found.add(match.group(1))
    return found


def respelled(name):
    words = [OLDER_WORDS.get(word, word) for word in name.split("-")]
    if name[0].isupper():
        return "".join(word[0].upper() + word[1:] for word in words)
    return "_".join(word[0].lower() + word[1:] for word in words)


def main():
    texts = {}
    for path in files("."):
        with open(path, encoding="utf-8") as file:
            texts[path] = file.read()
    names = {name: respelled(name) for name in declared(texts) | BOUND}
    wrong = [name for name in sorted(names) if sum(new == names[name] for new in names.values()) > 1]
    words = {}
    for path, text in texts.items():
        for word in set(re.findall(r"[\w']+", without_comments(text))):
            words.setdefault(word, []).append(path)
    for name in sorted(names):
        for path in words.get(names[name], []):
            print(f"look: {name} becomes {names[name]}, which stands in {path}")
    if wrong:
        print("stop: these fall together: " + ", ".join(wrong))
        raise SystemExit(1)
    for name in sorted(names):
        print(f"{name} -> {names[name]}")
    if "--dry" in sys.argv:
        return
    for path, text in texts.items():
        new = TOKEN.sub(lambda m: names.get(m.group(0), m.group(0)), text)
        if new != text:
            with open(path, "w", encoding="utf-8") as file:
                file.write(new)


main()
