#!/usr/bin/env python3
"""Brings the names of this repository's own definitions, fields and lemmas to snake case.

usage: python3 tools/port_names.py          at the top of the repository, once, behind the kit's port.py

A name in lower camel case, as `launchNumber`, and a name with dashes, as `adding-none`, become `launch_number` and `adding_none`. A lemma with dashes whose new
name is a definition's gets `_lem` behind it. Left as they are: names of the library, names that the prover makes (the goals and steps in proofs/F/), functions
of src/, constructors in capitals, strings, and English words with a dash in comments. It prints old and new names, one pair a line."""
import os, re, sys

WORD = re.compile(r"(?<![\w'·-])[A-Za-z_][\w']*(?:-[\w']+)*")
DECLARED = re.compile(r"^(\s*)(?:\| )?(?:(?:pub|abbrev|unfoldable) )*([a-z][\w'-]*)((?: [a-z][\w'-]*)*) :(?!=)(.*)", re.M)
USE = re.compile(r"^\s*(?:pub )?(?:ghost )?use ([^\s;{]+?)(?:\.\{([^}]*)\})?(?: as \S+)?;?\s*$", re.M)


def files(root, ending):
    for folder, folders, names in os.walk(os.path.join(root, "crates")):
        folders[:] = sorted(f for f in folders if f not in ("out", "target"))
        for name in sorted(names):
            if name.endswith(ending):
                yield os.path.join(folder, name)


def read(path):
    with open(path, encoding="utf-8") as f:
        return f.read()


def is_walk(path):
    """A proof of one function, in a folder of its own."""
    return os.path.basename(path) == "Proof.antt"


def bare(text):
    return re.sub(r"--.*", "", text)


def snake(name):
    name = re.sub(r"([a-z0-9])([A-Z]+)(?=[A-Z][a-z])", lambda m: m[1] + "_" + m[2].lower() + "_", name)
    return re.sub(r"([a-z0-9'])([A-Z])", lambda m: m[1] + "_" + m[2].lower(), name).replace("-", "_")


def is_camel(name):
    return re.match(r"[a-z]", name) and re.search(r"[a-z0-9][A-Z]", name) and "-" not in name


def is_dashed(name):
    return re.match(r"[a-z]", name) and "-" in name


def collect(root):
    """The names that this repository declares, those that it imports, and all words of its antt files."""
    crates = set(os.listdir(os.path.join(root, "crates")))
    own, fields, foreign, words = set(), set(), set(), set()
    for path in files(root, ".antt"):
        text = bare(read(path))
        for m in USE.finditer(text):
            ours = re.match(r"Rattle\.(\w+)", m[1])
            if not (ours and ours[1] in crates):
                foreign |= {n.strip().split(" as ")[0] for n in (m[2] or "").split(",")}
        for m in DECLARED.finditer(text):
            names = [m[2], *m[3].split()]
            if is_walk(path) and re.search(r"\btie\.(Need|invariant|decreases)", m[4]):
                continue
            own |= set(names)
            if m[1] and not is_walk(path):
                fields |= set(names)
        words |= {m[0] for m in WORD.finditer(USE.sub("", text))}
    return own, fields, foreign, words


def renaming(own, foreign, words):
    camel = sorted({n for n in own | words if is_camel(n) and n not in foreign and n != "azAZ"})
    new = {n: snake(n) for n in camel}
    # The op LT, which the kit's script took for a word of the library.
    new["Lt"] = "LT"
    taken = set(new.values()) - {"LT"}
    # A lemma whose name is a definition's from now on.
    for name in sorted(own):
        if name in taken and name not in foreign:
            new[name] = name + "_lem"
    taken |= words | foreign | set(new.values())
    for name in sorted(n for n in own if is_dashed(n) and n not in foreign):
        it = snake(name)
        new[name] = it + "_lem" if it in taken else it
    return new


def turned(text, new, fields, walk, comment):
    """The text with new names. In comments a name with dashes is one only between backticks."""
    kept = set()
    if walk:
        kept = {n for m in DECLARED.finditer(bare(text)) if re.search(r"\btie\.(Need|invariant|decreases)", m[4]) for n in [m[2], *m[3].split()]}

    def word(m, quoted=True):
        name = m[0]
        if name not in new or (name in kept and not is_camel(name)):
            return name
        if not is_camel(name) and name != "Lt":
            behind_dot = m.string[m.start() - 1 : m.start()] == "."
            path = re.search(r"[\w.+]*$", m.string[: m.start()])[0].split(".")
            if not quoted or ("-" not in name and comment == "//") or (behind_dot and (walk and name not in fields or path[-2] in ("proofs", "contracts"))):
                return name
        return new[name]

    lines = []
    for line in text.split("\n"):
        parts = re.split(r'("(?:[^"\\]|\\.)*")', line)
        code, note = line, ""
        m = re.match(r'((?:[^"]|"(?:[^"\\]|\\.)*")*?)(' + comment + r".*)$", line)
        if m:
            code, note = m[1], m[2]
        code = "".join(p if p.startswith('"') else WORD.sub(word, p) for p in re.split(r'("(?:[^"\\]|\\.)*")', code))
        note = "".join(
            WORD.sub(word, p) if p.startswith("`") else WORD.sub(lambda w: word(w, False), p) for p in re.split(r"(`[^`]*`)", note)
        )
        lines.append(code + note)
    return "\n".join(lines)


def main():
    root = os.getcwd()
    own, fields, foreign, words = collect(root)
    new = renaming(own, foreign, words)
    for ending, comment in ((".antt", "--"), (".rt", "//")):
        for path in files(root, ending):
            text = read(path)
            it = turned(text, new, fields, is_walk(path), comment)
            if it != text:
                with open(path, "w", encoding="utf-8") as f:
                    f.write(it)
    for old in sorted(new):
        print(old, new[old])


main()
