#!/usr/bin/env python3
"""The places in crates/*/src that docs/DESIGN-PASS.md speaks of, by its points: what can be told by the text alone.

    python3 tools/places.py [COMMIT]        of the files here, or of those at a commit; a line for each place, then a count for each point

1  an enum of two cases, of which one is empty or a refusal or a verdict; a struct with such an enum as a field; a number written out where a kind is meant
2  a function whose parameters and body are, but for names and numbers, those of an earlier one of any crate, or all but a tenth of its words
3  a `while`, and a `loop`
4  a function whose only work is a cast, a comparison, a copy or printing
5  a function with eight parameters or more
6  two constant arrays or more of one length in a crate; a struct with an array and a length of it; a length passed beside its slice
7  a `match` or a chain of `if`s on an op, with a call in each arm
8  the lines of proofs/F/Answers.antt, and of lemmas in proofs/*.antt"""
import difflib, pathlib, re, subprocess, sys

ROOT = pathlib.Path(__file__).resolve().parent.parent


def files(pattern, commit):
    """The text of each file below crates/ whose path matches."""
    if commit is None:
        return {str(p.relative_to(ROOT)): p.read_text() for p in sorted(ROOT.glob("crates/**/*")) if p.is_file() and re.search(pattern, str(p.relative_to(ROOT)))}
    git = lambda *words: subprocess.run(["git", "-C", str(ROOT), *words], capture_output=True, text=True, check=True).stdout
    return {path: git("show", f"{commit}:{path}") for path in git("ls-tree", "-r", "--name-only", commit, "crates").splitlines() if re.search(pattern, path)}


class Function:
    def __init__(self, path, name, parameters, clauses, body):
        self.path, self.name, self.parameters, self.clauses, self.body = path, name, parameters, clauses, body

    def shape(self):
        """The words of parameters and body, each name, number and string made one."""
        bare = re.sub(r"//.*", "", ", ".join(p.split(":")[-1] for p in self.parameters) + self.body)
        bare = re.sub(r'b?"[^"]*"|\b\d[\d_]*(u8|u32|usize)?\b', "0", bare)
        bare = re.sub(r"\b(?!let\b|mut\b|if\b|else\b|while\b|for\b|in\b|match\b|return\b|as\b|loop\b)[A-Za-z_][\w:]*", "x", bare)
        return re.findall(r"\w+|[^\w\s]", bare)


def functions(path, text):
    found = []
    for m in re.finditer(r"(?m)^( *)(?:pub )?fn (\w+)(?:<[^(]*>)?\(", text):
        depth, at = 1, m.end()
        while depth:
            depth += {"(": 1, ")": -1}.get(text[at], 0)
            at += 1
        parameters = [p for p in re.split(r",\s*(?![^<\[(]*[>\])])", text[m.end():at - 1]) if p.strip()]
        start = re.compile(rf"(?m)^{m[1]}\{{$|[^\n]*\{{$").search(text, at)
        end = text.find(f"\n{m[1]}}}\n", at)
        head = text[at:end]
        opening = re.search(rf"(?m)^{m[1]}\{{$", head)
        body = head[opening.end():] if opening else head
        found.append(Function(path, m[2], parameters, head[:opening.start()] if opening else "", body))
    return found


def alike(a, b):
    shorter, longer = sorted([len(a), len(b)])
    return shorter >= 0.9 * longer and difflib.SequenceMatcher(None, a, b, autojunk=False).ratio() >= 0.95


def places(sources):
    rows, shapes = [], []
    for path, text in sources.items():
        crate = path.split("/")[1]
        bare = re.sub(r"//.*", "", text)
        here = functions(path, text)
        for m in re.finditer(r"(?ms)^(?:pub )?enum (\w+) \{\n(.*?)^\}", bare):
            cases = [c.strip() for c in re.split(r",\n", m[2]) if c.strip()]
            if len(cases) == 2 and any("(" not in c or re.search(r"Refusal|Verdict|u32, u32", c) for c in cases):
                rows.append((1, path, f"enum {m[1]}"))
        for m in re.finditer(r"(?ms)^(?:pub )?struct (\w+) \{\n(.*?)^\}", bare):
            if re.search(r": (\w+::)?(Admission|Access|Refusal),", m[2]):
                rows.append((1, path, f"struct {m[1]}: an answer beside its value"))
            arrays, counts = re.findall(r": \[", m[2]), re.findall(r": usize", m[2])
            if arrays and counts:
                rows.append((6, path, f"struct {m[1]}: {len(arrays)} arrays beside {len(counts)} lengths"))
        for f in here:
            kinds = re.findall(r"\b(?:op|code|kind) [=!<>]=? \d+|\d+ [<>]=? (?:op|code)\b", f.body)
            arms = re.findall(r"(?m)^ +\d+(?: \| \d+)* => ", f.body) if re.search(r"match (op|code)\b", f.body) else []
            if kinds or arms:
                rows.append((1, path, f"fn {f.name}: {len(kinds) + len(arms)} numbers of kinds"))
            if re.search(r"&mut usize", " ".join(f.parameters)):
                rows.append((1, path, f"fn {f.name}: a count handed out by &mut"))
            for m in re.finditer(r"(?m)^ *(while .*|loop) \{$", f.body):
                rows.append((3, path, f"fn {f.name}: {m[1]}"))
            if re.fullmatch(r"\s*\w+ as \w+\s*", f.body) or f.name in ("same", "put", "place_first", "zero", "copy_counts", "digits", "write_number"):
                rows.append((4, path, f"fn {f.name}"))
            if re.fullmatch(r"\s*match \w+ \{(\s*[\w:]+(\([^)]*\))? => [^,{]+,)+\s*\}\s*", f.body):
                rows.append((4, path, f"fn {f.name}: a match that turns a case into a constant"))
            if re.fullmatch(r"(\s*if \w+ == \d+ \{\s*return [^;]*;\s*\})+.*", f.body, re.S) and "code" in " ".join(f.parameters):
                rows.append((4, path, f"fn {f.name}: cases from numbers"))
            if len(f.parameters) >= 8:
                rows.append((5, path, f"fn {f.name}: {len(f.parameters)} parameters"))
            if re.search(r"match op \{", f.body) or len(re.findall(r"if [^{]*\bop\b", f.body)) > 1:
                rows.append((7, path, f"fn {f.name}: told apart by the op"))
            shape = f.shape()
            twin = next((g for g, other in shapes if len(shape) > 30 and alike(shape, other)), None) or next((g for g, _ in shapes if re.fullmatch(r"\s*x as \w+\s*", f.body) and g.body == f.body), None)
            if twin:
                rows.append((2, path, f"fn {f.name} as {twin.path.split('/')[1]}'s {twin.name}"))
            shapes.append((f, shape))
        tables = re.findall(r"(?m)^(?:pub )?const (\w+): \[", bare)
        if len(tables) > 1:
            rows.append((6, path, f"tables {', '.join(tables)}"))
    return rows


def main():
    commit = sys.argv[1] if len(sys.argv) > 1 else None
    rows = places(files(r"crates/\w+/src/.*\.rt$", commit))
    for point, path, what in sorted(rows):
        print(f"{point}  {path}: {what}")
    for point in range(1, 8):
        print(f"point {point}: {sum(r[0] == point for r in rows)}")
    answers = files(r"crates/\w+/proofs/\+?\w+/.*(Answers|Invariants)\.antt$", commit)
    lemmas = files(r"crates/\w+/proofs/\w+\.antt$", commit)
    goals = sum(len(re.findall(r"(?m)^pub [\w'-]+ : goal\.", text)) for text in answers.values())
    print(f"point 8: {goals} answers in {sum(t.count(chr(10)) for t in answers.values())} lines, {sum(t.count(chr(10)) for t in lemmas.values())} lines of lemmas")


main()
