#!/usr/bin/env python3
"""Says of each edit in crates/*/edits/ and crates/*/must-fail/ whether it can be applied, and which words of its new texts its crate does not have.

Each old text must stand once in the file, as the pairs before it leave it, and each text is one line. A word is known where the crate's own files have it, or, behind
`NAME::`, those of the crate NAME; a new local name (`let x`, `λ x.`) is known too."""
import pathlib, re, sys

ROOT = pathlib.Path(__file__).resolve().parent.parent
WORD = re.compile(r"[A-Za-z_][\w']*")
KNOWN = set("let mut if else return while for in as fn match true false λ record u8 u32 usize len cond".split())


def words_of(folder):
    return {word for part in ("src", "specs") for path in sorted((folder / part).rglob("*.*")) for word in WORD.findall(path.read_text())}


def main():
    wrong, number = 0, 0
    for path in sorted((ROOT / "crates").glob("*/*/*.edit")):
        if path.parent.name not in ("edits", "must-fail"):
            continue
        number += 1
        crate = path.parent.parent
        texts, file, old, pairs = {}, None, None, 0
        words = words_of(crate) | words_of(ROOT / "crates" / "spec")
        said = []
        for line in path.read_text().splitlines():
            if line.startswith("file: "):
                file = line[6:]
                texts.setdefault(file, (crate / file).read_text() if (crate / file).is_file() else "")
            elif line.startswith("old: "):
                old = line[5:]
            elif line.startswith("new:"):
                new = line[4:].removeprefix(" ")
                pairs += 1
                if texts[file].count(old) != 1:
                    said.append(f"{texts[file].count(old)} times in {file}: {old}")
                if old == new:
                    said.append(f"it changes nothing: {old}")
                texts[file] = texts[file].replace(old, new)
                local = set(re.findall(r"(?:let|λ|mut) (\w+)", new))
                for word in WORD.findall(new):
                    own = re.search(rf"(\w+)::{word}\b", new)
                    if word in words | KNOWN | local or (own and (ROOT / "crates" / own[1]).is_dir() and word in words_of(ROOT / "crates" / own[1])):
                        continue
                    said.append(f"no word of the crate: {word}, in: {new}")
            elif line.strip() and not line.startswith("by: "):
                said.append(f"a line that is not read: {line}")
        if not pairs:
            said.append("no pair")
        for why in said:
            print(f"{path.relative_to(ROOT)}: {why}")
        wrong += bool(said)
    print(f"{number} edits, {wrong} of them to be looked at")
    sys.exit(bool(wrong))


main()
