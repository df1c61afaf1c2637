#!/usr/bin/env python3
"""Brings this repository's own definitions and lemmas to today's spelling: snake case for words and lemmas, upper camel case for types.

usage: python3 tools/respell.py    at the top of the checkout, once, after the kit's port.py

It renames what specs/, proofs/*.antt and answer files define under a name with a dash, and the uses of those names.
Names that Rattle makes (goals, steps, invariants) and names of the library keep their dashes.
"""

import os
import re
import sys

NAME = r"[A-Za-z][\w']*(?:-[\w']+)+"
START = r"(?<![\w'\-])"
END = r"(?![\w'\-])"
# a definition: a signature, a field, a constructor, a data type or a record, or a lemma that is bound locally
DEFINED = re.compile(rf"^[ \t]*(?:(?:abbrev|unfoldable) )?(?:pub )?(?:(?:data|record) )?({NAME})(?: *:| [({{].*\bwhere\b)", re.M)
LIBRARY = re.compile(r"^(?:ghost )?(?:pub )?use (?!Rattle\.(?:adders|arith|lines|chains|integers|rows|running|multiples|phases|constants)\b)[\w.'-]+\.\{([^}]*)\}", re.M)
# what Rattle names: goals, steps and their parts
MADE = re.compile(r"^(?:returns|loop|invariant|bounds|offset|overflow|if|in|from|prove|unreachable)-|-(?:requires|init|preserved|smaller|index|items|test|item)$")


def files(root):
    for folder, dirs, names in os.walk(root):
        dirs[:] = sorted(d for d in dirs if d != "out")
        for name in sorted(names):
            if name.endswith((".rt", ".antt")):
                yield os.path.join(folder, name)


def defined(path, text):
    for found in DEFINED.finditer(text):
        line = text[found.start() : text.find("\n", found.start())]
        name = found.group(1)
        answer = re.search(r":\s*(?:goal|given)\.", line)
        if not answer and path.endswith(".antt"):
            yield name


def turned(name):
    if name[0].isupper():
        return "".join(part[0].upper() + part[1:] for part in name.split("-"))
    return name.replace("-", "_")


def main():
    paths = list(files("crates"))
    texts = {}
    for path in paths:
        with open(path, encoding="utf-8") as file:
            texts[path] = file.read()
    own, library, words = set(), set(), set()
    for path, text in texts.items():
        own.update(defined(path, text))
        for names in LIBRARY.findall(text):
            library.update(part.strip() for part in names.split(","))
        words.update(re.findall(r"[\w']+", re.sub(r"(?m)(?:--|//).*$", "", text)))
    both = sorted(own & library)
    made = sorted(name for name in own if MADE.search(name))
    own -= library
    clash = sorted(name for name in own if turned(name) in words)
    print("in the library too, left:", ", ".join(both))
    print("look like names that Rattle makes:", ", ".join(made))
    print("the new spelling stood already:", ", ".join(clash))
    if "--list" in sys.argv:
        print("\n".join(f"{name} {turned(name)}" for name in sorted(own)))
        return
    pattern = re.compile(START + "(" + "|".join(sorted(map(re.escape, own), key=len, reverse=True)) + ")" + END)
    for path, text in texts.items():
        new = pattern.sub(lambda found: turned(found.group(1)), text)
        if new != text:
            with open(path, "w", encoding="utf-8") as file:
                file.write(new)


if __name__ == "__main__":
    main()
