#!/usr/bin/env python3
"""Spells the repository's own words in snake case: definitions, fields, constructors and lemmas, in crates/ and in the pages.

usage: respell.py [FOLDER]

Types and facts keep their capital. Functions of src/, strings, inputs, outputs and must-fail edits keep theirs.
A new name that another word of the same file has already is printed as `meets:` and makes the run stop before it writes."""
import collections
import glob
import re
import sys

ROOT = sys.argv[1] if len(sys.argv) > 1 else "."
TOKEN = re.compile(r"[^\s(){}.;,@\"«»\[\]`|]+")
# A lemma that would have its function's name.
LEMMAS = {"cut-byte": "cut_byte_lem", "op-at": "op_at_lem", "digest-of": "digest_of_lem"}
SKIPPED = {"use", "mod", "module", "where", "let", "in", "infix", "infixl", "infixr", "open", "syntax"}


def snake(name):
    """`digestOf` and `stands-apart` as `digest_of` and `stands_apart`; a capital in front stays."""
    name = re.sub(r"(?<=[a-z0-9])([A-Z])(?=[a-z])", lambda m: "_" + m[1].lower(), name) if name[:1].islower() else name
    return re.sub(r"(?<=[A-Za-z0-9])-(?=[A-Za-z0-9])", "_", name) if name[:1].isalpha() else name


def declared(path):
    """The words that a file of specs/ or proofs/ declares: in front of ` : `, and constructors and fields."""
    for line in open(path, encoding="utf-8"):
        text = line.split("--")[0]
        m = re.match(r"^\s*(?:abbrev |unfoldable )?(?:pub )?((?:[^\s:(){}=;,]+\s+)+): ", text)
        if m and m[1].split()[0] not in SKIPPED | {"record", "data"}:
            yield from m[1].split()


def own_names():
    names = set()
    for path in glob.glob(f"{ROOT}/crates/*/specs/*.antt") + glob.glob(f"{ROOT}/crates/*/proofs/*.antt"):
        names.update(declared(path))
    return {n: LEMMAS.get(n) or snake(n) for n in names if snake(n) != n}


def respelled(text, names, path):
    """The text with each own name anew. In a function's Proof.antt what the check made (after a dot) stays."""
    made = re.search(r"/proofs/.+/Proof\.antt$", path)

    def one(m):
        word = m[0]
        if word not in names or (made and m.start() and text[m.start() - 1] == "."):
            return word
        return names[word]

    return TOKEN.sub(one, text)


def main():
    names = own_names()
    files = glob.glob(f"{ROOT}/crates/*/specs/*.antt") + glob.glob(f"{ROOT}/crates/*/proofs/**/*.antt", recursive=True)
    sources = glob.glob(f"{ROOT}/crates/*/src/*.rt")
    texts, meets = {}, []
    for path in sorted(files) + sorted(sources):
        text = open(path, encoding="utf-8").read()
        words = set(re.findall(r"(?<!\.)" + TOKEN.pattern, re.sub(r"--.*", "", text)))
        meets += [f"meets: {path}: {old} and {new}" for old, new in names.items() if path in files and old in words and new in words]
        texts[path] = respelled(text, names, path)
    by_new = collections.defaultdict(set)
    for old, new in names.items():
        by_new[new].add(old)
    meets += [f"meets: {sorted(olds)}" for olds in by_new.values() if len(olds) > 1]
    print("\n".join(meets))
    if meets:
        sys.exit(1)
    for path in sorted(glob.glob(f"{ROOT}/docs/*.md") + glob.glob(f"{ROOT}/*.md")):
        text = open(path, encoding="utf-8").read()
        texts[path] = re.sub(r"`[^`\n]*`", lambda m: TOKEN.sub(lambda w: names.get(w[0], w[0]), m[0]), text)
    for path, text in texts.items():
        with open(path, "w", encoding="utf-8") as out:
            out.write(text)
    print(f"respelled: {len(names)} names")


if __name__ == "__main__":
    main()
