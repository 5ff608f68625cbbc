#!/usr/bin/env python3
"""Brings the repository's own definitions and lemmas to one spelling. Run once, at the top, after the kit's script.

A definition's camelCase becomes snake_case. In a lemma's name a dash stays where it joins two names; before a plain word it becomes an underscore.
A lemma that would take the name of a definition gets _lem. Functions of src/, exported names, strings, inputs and outputs are not touched.
It prints what falls together and stops there, with nothing changed.
"""
import collections
import glob
import re
import sys

NAME = r"[^\s(){}.,;:⟨⟩λ\"`]+"
HEAD = re.compile(rf"^(\s*)((?:abbrev |unfoldable |pub |private )*)({NAME}(?: {NAME})*) :(?: |$)")
LOCAL = re.compile(r"^[a-z][A-Z]$")
PRELUDE = set(
    """suc zero pred min max true false cond not map reverse length take drop set replicate sum filter fold swap insert remove position zip scan
    some none refl get_or ones eqb ltb leb fst snd concat and or xor""".split()
)


def antt():
    return sorted(f for p in ("specs", "proofs") for f in glob.glob(f"crates/*/{p}/**/*.antt", recursive=True))


def in_walk(path):
    """a file of one function's proof, whose goals the check names"""
    return path.endswith("/Proof.antt")


def uncommented(line):
    return re.sub(r"(^|\s)--(\s.*)?$", "", line.rstrip("\n"))


def snake(word):
    return re.sub(r"(?<=[a-z0-9])([A-Z])", lambda m: "_" + m.group(1).lower(), word)


def declared():
    """names of definitions (specs/, records, data), and of lemmas with a dash (proofs/)"""
    words, lemmas = set(), set()
    for path in antt():
        if in_walk(path):
            continue
        for line in open(path):
            line = uncommented(line)
            data = re.match(rf"^\s*(?:pub )?(?:data|record) ({NAME})", line)
            if data:
                words.add(data.group(1))
                continue
            head = HEAD.match(line)
            if not head or re.match(r"^\s*(use|module|infix)", line):
                continue
            for name in head.group(3).split():
                if "-" in name.strip("-"):
                    lemmas.add(name)
                elif "/specs/" in path:
                    words.add(name)
    return words, lemmas


def camel(word):
    return re.match(r"^[a-z]", word) and re.search(r"[a-z0-9][A-Z]", word) and not LOCAL.match(word)


def respelt(name, words):
    """the new spelling of a name with or without dashes"""
    parts = [snake(p) if camel(p) else p for p in name.split("-")]
    parts = ["get_or" if p in ("getD", "get_d") else p for p in parts]
    out = parts[0]
    for part in parts[1:]:
        joins = part in words or not re.match(r"^[a-z]+$", part)
        out += ("-" if joins else "_") + part
    return out



def table(texts):
    """each token's new spelling; where two would fall together a lemma gives way"""
    words, lemmas = declared()
    tokens = {word for path in texts if path.endswith((".antt", ".rt")) for word in re.findall(NAME, texts[path])}
    rust = {word for path in texts if path.endswith(".rt") for word in re.findall(r"\b(?:fn|let|let mut) (\w+)|\b(\w+): ", texts[path]) for word in word if word}
    names = {snake(w) if camel(w) else w for w in words} | PRELUDE
    new = {}
    for word in tokens:
        if "-" not in word.strip("-"):
            if camel(word):
                new[word] = snake(word)
        elif word in lemmas and respelt(word, names) != word:
            new[word] = respelt(word, names)
    spelt = set(new.values())
    for word in sorted(tokens):
        standing = word in spelt and word not in new
        if standing and any(HEAD.match(line) and word in HEAD.match(line).group(3).split() for p in texts if "/proofs/" in p and not in_walk(p) for line in texts[p].splitlines()):
            new[word] = word + "_lem"
    for word in sorted(new):
        if "-" in word and (new[word] in names or new[word] in rust or (new[word] in tokens and new[word] not in new)):
            new[word] += "_lem"
    taken = {}
    for word in sorted(new, key=lambda w: ("-" in w, w)):
        if new[word] in taken and "-" in word:
            new[word] += "_lem"
        if new[word] in taken or (new[word] in tokens and new[word] not in new and new[word] not in rust):
            print(f"falls together: {word} and {taken.get(new[word], 'one that stands')}: {new[word]}")
        if new[word] in rust:
            print(f"also a name of the source: {new[word]}")
        taken[new[word]] = word
    return new, lemmas


def respell(path, text, new, lemmas):
    """a .antt, .rt or .edit file"""
    rust_names = path.endswith((".rt", ".edit"))

    def code(piece):
        def one(match):
            word, before = match.group(0), piece[match.start() - 1] if match.start() else ""
            if word not in new or (rust_names and "_" in word):
                return word
            if before == "." and not camel(word):
                return word
            return new[word]

        return re.sub(NAME, one, piece)

    def comment(piece):
        return re.sub(r"`[^`]+`", lambda m: code(m.group(0)), re.sub(r"\b[a-z][a-z0-9]*(?:[A-Z][a-z0-9]*)+\b", lambda m: new.get(m.group(0), m.group(0)), piece))

    out = []
    for line in text.split("\n"):
        mark = "//" if path.endswith(".rt") else "--"
        at = re.search(rf"(^|\s){mark}( |$|!|/)", line) if not path.endswith(".edit") else None
        head, tail = (line[: at.start()], line[at.start() :]) if at else (line, "")
        if path.endswith(".rt"):
            head = re.sub(r'("[^"]*")|([^"]+)', lambda m: m.group(1) or code(m.group(2)), head)
        else:
            head = code(head)
        out.append(head + comment(tail))
    return "\n".join(out)


def page(text, new, tokens):
    """a page: names in backticks; one that the kit's script respelt is found by its letters"""
    folded = collections.defaultdict(set)
    for word in tokens:
        folded[re.sub("[-_]", "", word.replace("getD", "get_or")).lower()].add(word)

    def one(match):
        word = match.group(0)
        if word in new:
            return new[word]
        if word in tokens or not re.search(r"[a-z]-[a-z]|[a-z][A-Z]|getD", word):
            return word
        near = folded[re.sub("[-_]", "", word.replace("getD", "get_or")).lower()]
        return near.copy().pop() if len(near) == 1 else word

    return re.sub(r"`[^`\n]+`", lambda m: re.sub(r"[^\s(){}.,;:⟨⟩λ\"`/]+", one, m.group(0)) if "/" not in m.group(0) else m.group(0), text)


def main():
    paths = antt() + sorted(glob.glob("crates/*/src/**/*.rt", recursive=True) + glob.glob("crates/*/must-fail/*.edit"))
    texts = {path: open(path).read() for path in paths}
    new, lemmas = table(texts)
    for path in paths:
        text = respell(path, texts[path], new, lemmas)
        if text != texts[path]:
            open(path, "w").write(text)
        texts[path] = text
    tokens = {word for path in paths if path.endswith((".antt", ".rt")) for word in re.findall(NAME, texts[path])}
    for path in sorted(glob.glob("*.md") + glob.glob("docs/**/*.md", recursive=True)):
        text = open(path).read()
        turned = page(text, new, tokens)
        if turned != text:
            open(path, "w").write(turned)
    print(f"{len(new)} names")


if __name__ == "__main__":
    main()
