#!/usr/bin/env python3
"""Brings the names of definitions that the pages mention to today's spelling.

    python3 tools/port_docs.py NAMES [PAGE ...]      NAMES has an old and a new name on each line, as tools/port_names.py prints them

Between backticks a word is a name where NAMES has it, or where it is in the old spelling and its new one is a word of the crates' files; nothing else changes. It prints
each change."""
import pathlib, re, sys

ROOT = pathlib.Path(__file__).resolve().parent.parent
PAGES = ["README.md", "rust/README.md", *(f"docs/{name}.md" for name in ("ARCHITECTURE", "IMPOSTORS", "KERNELS", "PROMISES", "REPORT"))]
WORD = re.compile(r"(?<![\w'-])[A-Za-z_][\w']*(?:-[\w']+)*")


def spelled(name):
    name = re.sub(r"([a-z0-9])([A-Z]+)(?=[A-Z][a-z])", lambda m: m[1] + "_" + m[2].lower() + "_", name)
    return re.sub(r"([a-z0-9'])([A-Z])", lambda m: m[1] + "_" + m[2].lower(), name).replace("-", "_")


def main():
    files = [path for path in (ROOT / "crates").rglob("*.*") if path.suffix in (".antt", ".rt") and "out" not in path.relative_to(ROOT / "crates").parts]
    today = {word for path in files for word in re.findall(r"[A-Za-z_][\w']*", path.read_text())}
    names = dict(line.split() for line in pathlib.Path(sys.argv[1]).read_text().splitlines() if len(line.split()) == 2)

    def turned_name(word, page, inner):
        # A name that is spelled as before has another ending only where a lemma had a definition's name: which of the two is meant is for a reader to say.
        if word not in names and word in today:
            return word
        if word in names and "-" not in word and not re.search(r"[a-z0-9][A-Z]", word):
            print(f"LEFT {page}: {inner}: {word} is {names[word]} where the lemma is meant")
            return word
        return names.get(word) or next((it for it in (spelled(word), spelled(word) + "_lem") if it in today), word)

    for page in sys.argv[2:] or PAGES:
        text = (ROOT / page).read_text()

        def quoted(m):
            inner = m[0]
            if "/" in inner or re.search(r"\.launch\b", inner) or "=" in inner:
                return inner
            new = WORD.sub(lambda w: w[0] if inner[: w.start()].endswith("::") else turned_name(w[0], page, inner), inner)
            if new != inner:
                print(f"{page}: {inner} {new}")
            return new

        turned = re.sub(r"`[^`\n]+`", quoted, text)
        (ROOT / page).write_text(turned)


main()
