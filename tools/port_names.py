#!/usr/bin/env python3
"""Brings the definitions and lemmas of specs/ and proofs/ to snake case, after port.py: once, at the top of the repository.

    tools/port_names.py [--check | --pages]

A word that specs/ or proofs/ declare, begins low and has a capital after a small letter or a digit is respelled wherever it stands as a word of
.antt, .rt and .edit files: listFits becomes list_fits, and bytesOf-fromBytes becomes bytes_of-from_bytes. Types and modules keep their spelling.
In .edit files what port.py turns in the others is turned too: a prime, operators in imports, paths with a middle dot, clauses' brackets.
--check names the words that would fall together, and writes nothing.
--pages, at any time after, respells what the pages name in `backticks`: a word that no source has, where the sources declare it in snake case or
with underscores for its hyphens. docs/CHANGES.md and docs/PORT.md keep the names of their time.
"""
import glob
import re
import sys

WORD = re.compile(r"[A-Za-z_][A-Za-z0-9_'₀-₉]*")
DECLARED = re.compile(r"^\s*(?:abbrev |unfoldable )?(?:pub )?([a-z][A-Za-z0-9_'₀-₉-]*)\s*:(?!=)", re.M)
CAMEL = re.compile(r"[a-z0-9][A-Z]")
# Lemmas that port.py or this script would give the name of the function that they speak of.
LEMMAS = ["kept_from", "place_after", "entry_next", "header_ok", "head_at", "front_fits", "digit_value", "by_index", "by_bytes"]


def snake(word):
    word = re.sub(r"([a-z0-9])([A-Z])", r"\1_\2", word)
    word = re.sub(r"([A-Z])([A-Z][a-z])", r"\1_\2", word)
    return word.lower()


def files(*ends):
    found = []
    for end in ends:
        found += glob.glob("crates/*/**/*" + end, recursive=True)
    return sorted(f for f in found if "/out/" not in f)


def read(path):
    with open(path, encoding="utf-8") as f:
        return f.read()


def words_to_turn():
    words = set()
    for path in files(".antt"):
        for name in DECLARED.findall(read(path)):
            words |= {w for w in name.split("-") if CAMEL.search(w) and w[0].islower()}
    return words


def turned(text, words):
    return WORD.sub(lambda m: snake(m.group()) if m.group() in words else m.group(), text)


def operators(text):
    """The operators of an import line of an older Rattle: _≡_ is ◌≡◌."""
    return re.sub(r"(?<![\w])_([^\w\s{},.()_]+)_(?![\w])", r"◌\1◌", text)


def lemma_names(text):
    """A lemma that has its function's name gets `_lem`, where a file declares or imports it."""
    for name in LEMMAS:
        here = rf"^\s*(?:pub )?{name} :|^(?:pub )?use [^\n]*[{{ ]{name}[,}}]"
        if re.search(here, text, re.M) and not re.search(rf"specs\.[^\n]*[{{ ]{name}[,}}]", text):
            text = re.sub(rf"(?<![.\w-]){name}(?![\w'-])", name + "_lem", text)
    return text


def pages():
    text = "\n".join(re.sub(r"(--|//).*", "", read(path)) for path in files(".antt", ".rt"))
    name = re.compile(r"[A-Za-z_◌][\w'′₀-₉◌-]*")
    known = set(name.findall(text))

    def today(match):
        word = match.group()
        turns = [word.replace("′", "'"), "-".join(map(snake, word.replace("′", "'").split("-"))), re.sub(r"(?<![a-zA-Z])_|_(?![a-z])|(?<=else)_", "◌", word)]
        turns += [turn.replace("-", "_") for turn in turns]
        return word if word in known or word[0].isupper() else next((turn for turn in turns if turn in known), word)

    for path in ["README.md", "CONTRIBUTING.md", "host/README.md"] + sorted(glob.glob("docs/*.md")):
        if path in ("docs/CHANGES.md", "docs/PORT.md"):
            continue
        parts = re.split(r"(^```.*?^```$|`[^`]+`)", read(path), flags=re.M | re.S)
        new = "".join(name.sub(today, part) if re.match(r"`[^`]", part) else part for part in parts)
        if new != read(path):
            with open(path, "w", encoding="utf-8") as f:
                f.write(new)


def main():
    if "--pages" in sys.argv:
        return pages()
    words = words_to_turn()
    if "--check" in sys.argv:
        for path in files(".antt", ".rt"):
            there = set(WORD.findall(read(path)))
            for word in sorted(words & there):
                if snake(word) in there:
                    print(f"{path}: {word} and {snake(word)}")
        return
    for path in files(".antt", ".rt", ".edit"):
        old = text = read(path)
        if path.endswith(".edit"):
            text = operators(text.replace("′", "'"))
        if path.endswith(".antt") and "/proofs/" in path:
            text = lemma_names(text)
        text = turned(text, words)
        if text != old:
            with open(path, "w", encoding="utf-8") as f:
                f.write(text)
    print(f"{len(words)} words")


main()
