#!/usr/bin/env python3
"""Brings the edits that must be refused, and the wrong readings of the definitions, to today's text of the files that they change.

    python3 tools/port_edits.py COMMIT [--write] [--by-hand FILE] [--show]

COMMIT is the last one in the old spelling. Its edits (crates/*/edits/, crates/*/must-fail/) and its tests/wrong-definitions.txt and .by are read from there, and
each of its files is laid beside today's, token by token. So each old text is found in today's file, and each new text is spelled as the file is today. It writes
the same files anew, and prints what it could not do. `--by-hand FILE` names a list of the texts that were turned by hand, which are taken as they stand there (tools/port_edits.txt, if none is named):

    == crates/NAME/edits/LABEL.edit      or   == NAME OF THE FILE: LABEL   for a reading
    - old text
    + new text
"""
import argparse, collections, difflib, hashlib, os, pathlib, re, subprocess, sys

ROOT = pathlib.Path(__file__).resolve().parent.parent
READINGS, RECORD = "tests/wrong-definitions.txt", "tests/wrong-definitions.by"
# Words, numbers and operators; a dash or an apostrophe inside a word belongs to it, and so do the places of an operator's operands.
TOKEN = re.compile(r"'(?:\\.|[^\\'\n])'|_(?:[^\s\w(){}\[\];,.\"'`]+)_|◌[^\s\w(){}\[\];,.\"'`◌]+◌|[A-Za-z_](?:[\w']|-(?=[A-Za-z0-9]))*|\d[\d_]*|[^\s\w]|[^\s]")
WORD = re.compile(r"[A-Za-z_]")


def git(*words):
    return subprocess.run(["git", "-C", str(ROOT), *words], capture_output=True, text=True, check=True).stdout


def snake(name):
    name = re.sub(r"([a-z0-9])([A-Z]+)(?=[A-Z][a-z])", lambda m: m[1] + "_" + m[2].lower() + "_", name)
    return re.sub(r"([a-z0-9'])([A-Z])", lambda m: m[1] + "_" + m[2].lower(), name).replace("-", "_")


def spelled(token):
    """How a token may read today, as far as spelling goes: for the alignment."""
    if re.match(r"[a-z]", token) and (re.search(r"[a-z0-9][A-Z]", token) or "-" in token):
        return snake(token)
    if re.fullmatch(r"_[^\w]+_", token):
        return "◌" + token[1:-1] + "◌"
    return token.replace("′", "'")


def tokens(text):
    return [(m[0], m.start(), m.end()) for m in TOKEN.finditer(text)]


# What ends an application, beside brackets.
ENDS = re.compile(r"[^\w\s(){}\[\]\"'`.◌]+|let|in|if|then|else|where|λ?[\w']+\.|λ.*")
CLOSING = {"(": ")", "{": "}", "[": "]"}


def tight(text):
    """The text with its projections written tight: `s .row` is `s.row`, and `rowAt T r .op` is `(rowAt T r).op`."""
    parts = re.findall(r'"(?:[^"\\]|\\.)*"|\s+|[(){}\[\],;]|[^\s(){}\[\],;"]+', text)
    at = 0

    def group(closing):
        """What stands up to a closing bracket, and whether it is one projection and nothing else."""
        nonlocal at
        out, begun, atoms, alone, is_closed = [], 0, 0, False, False
        while at < len(parts):
            part = parts[at]
            at += 1
            if part in (")", "}", "]"):
                is_closed = part == closing
                if is_closed:
                    break
                out.append(part)
                begun, atoms, alone = len(out), 0, False
            elif part in CLOSING:
                inner, is_projection, closed = group(CLOSING[part])
                if part == "(" and closed and is_projection:
                    out.append(inner)
                else:
                    out.append(part + inner + (CLOSING[part] if closed else ""))
                atoms += 1
                alone = False
            elif part.isspace():
                out.append(part)
            elif re.fullmatch(r"(?:\.[A-Za-z0-9][\w']*)+", part) and atoms and out[-1].isspace():
                while out[-1].isspace():
                    out.pop()
                lead, space = out[begun:], ""
                while lead[0].isspace():
                    space += lead.pop(0)
                whole = "".join(lead)
                alone = begun == 0
                out[begun:] = [space, (whole if atoms == 1 else "(" + whole + ")") + part]
                atoms = 1
            elif ENDS.fullmatch(part) or (part == "is" and any(it.startswith('"') for it in out[-2:])):
                out.append(part)
                begun, atoms, alone = len(out), 0, False
            else:
                out.append(part)
                atoms += 1
                alone = False
        return "".join(out), alone and atoms == 1, is_closed

    made = ""
    while at < len(parts):
        inner, _, _ = group(None)
        made += inner
    return made


class Pair:
    """A file as it was, and as it is."""

    def __init__(self, old, new, is_antt=True):
        self.is_antt = is_antt
        self.old, self.new = old, new
        self.was, self.now = tokens(old), tokens(new)
        a, b = [spelled(t[0]) for t in self.was], [t[0] for t in self.now]
        # Line by line first: the files are long.
        self.to = {}  # index of an old token -> index of the new one
        self.renamed = collections.Counter()
        for tag, i, i2, j, j2 in difflib.SequenceMatcher(None, a, b, autojunk=False).get_opcodes():
            if tag == "equal" or (tag == "replace" and i2 - i == j2 - j):
                for k in range(i2 - i):
                    self.to[i + k] = j + k
                    if tag == "equal" or not self.in_import(self.was[i + k][1]):
                        self.renamed[self.was[i + k][0], self.now[j + k][0]] += 1
        self.known = None

    def names(self):
        """How the tokens of the file read today, its imports aside."""
        if self.known is None:
            self.known = collections.defaultdict(collections.Counter)
            for (one, other), n in self.renamed.items():
                self.known[one][other] += n
        return self.known

    def in_import(self, at):
        line = self.old[self.old.rfind("\n", 0, at) + 1 :]
        return re.match(r"\s*(?:pub )?(?:ghost )?use ", line) is not None

    def place(self, start, end):
        """Where today's text of an old stretch stands: (start, end); None where its ends cannot be found."""
        inside = [n for n, t in enumerate(self.was) if t[1] >= start and t[2] <= end]
        if not inside:
            return None
        first, last = inside[0], inside[-1]
        if first in self.to:
            begin = self.to[first]
        elif first == 0 or first - 1 in self.to:
            begin = self.to.get(first - 1, -1) + 1
        else:
            return None
        if last in self.to:
            finish = self.to[last]
        elif last + 1 in self.to:
            finish = self.to[last + 1] - 1
        else:
            return None
        return (self.now[begin][1], self.now[finish][2]) if begin <= finish else None


class Port:
    def __init__(self, commit):
        self.commit = commit
        self.landed = git("ls-tree", "-r", "--name-only", commit).split("\n")
        self.pairs = {}
        self.names = {}
        self.sources = collections.defaultdict(collections.Counter)
        self.said = []

    def pair(self, path):
        if path not in self.pairs:
            today = ROOT / path
            if path not in self.landed or not today.is_file():
                return None
            self.pairs[path] = Pair(git("show", f"{self.commit}:{path}"), today.read_text(), path.endswith(".antt"))
        return self.pairs[path]

    def learn(self, paths):
        found = collections.defaultdict(collections.Counter)
        for path in paths:
            pair = self.pair(path)
            for one, others in (pair.names() if pair else {}).items():
                found[one] += others
            for source, name in imported(pair.new) if pair and pair.is_antt else ():
                self.sources[name][source] += 1
        prelude = pathlib.Path(subprocess.run(["rt", "doc"], capture_output=True, text=True, check=True).stdout.strip()).parent / "rattle/std/specs/Prelude.antt"
        for name in re.search(r"Prelude\.\{(.*)\}", prelude.read_text())[1].split(", "):
            self.sources[name]["Rattle.std.specs.Prelude"] += 1
        self.names = {one: others.most_common(1)[0][0] for one, others in found.items()}

    def token(self, token, pair):
        """How a token of a new text reads today: as in its file, or else as in the others, or else by its spelling."""
        own = pair.names().get(token)
        if own:
            return own.most_common(1)[0][0]
        return self.names.get(token) or spelled(token)

    def words(self, text, pair):
        """A text by itself, in today's spelling."""
        text = re.sub(r"Rattle·(\w+)(?:·(specs|proofs))?\.(specs|proofs)\.", r"Rattle.\1.\3.", text)
        text = re.sub(r"(?<![\w.])(specs|proofs)\.(?=[A-Z])", r"\1.", text)
        text = TOKEN.sub(lambda m: m[0] if m[0] in ("Rattle", "specs", "proofs") else self.token(m[0], pair), text)
        return tight(text) if pair.is_antt else text

    def turned(self, path, was, pairs, one_line):
        """The pairs of old and new text, by today's file; `was` is the file's text in the old spelling, with the earlier pairs made."""
        pair = self.pair(path)
        if pair is None:
            raise ValueError(f"{path} is not there")
        text, found = pair.new, []
        for old, new in pairs:
            space = re.match(r"\s*", old)[0]
            if not pair.is_antt and new.startswith(space) and pair.new.count(self.words(old, pair)) != 1 and pair.old.count(old.strip()) == 1:
                old, new = old[len(space) :], new[len(space) :]
            if pair.old.count(old) != 1:
                raise ValueError(f"not once in the file as it was: {old}")
            at = pair.old.index(old)
            if pair.is_antt and pair.in_import(at):
                found += self.imports(pair, old, new, one_line, found)
                continue
            if pair.is_antt:
                found.append(self.in_block(pair, at, old, new, one_line))
                continue
            spot = pair.place(at, at + len(old))
            today = pair.new[spot[0] : spot[1]] if spot else None
            plain = self.words(old, pair)
            if pair.new.count(plain) == 1:
                today = plain
                spot = (pair.new.index(plain), pair.new.index(plain) + len(plain))
            elif today is None:
                raise ValueError(f"no place: {old} -> {plain}")
            made = self.words(new, pair)
            kind = "plain"
            if today != plain:
                kind = "other"
                made = self.by_parts(old, new, today, plain, pair)
            if one_line and "\n" in today:
                # The part that changes, alone, as far as it stands on one line.
                kind = "wrapped"
                today, made, spot = self.trimmed(today, made, spot, pair)
            if text.count(today) != 1:
                today, made = self.widened(today, made, spot, pair)
                kind += " widened"
            if text.count(today) != 1:
                raise ValueError(f"{text.count(today)} times today: {today}")
            if today == made:
                raise ValueError(f"it changes nothing: {today}")
            found.append((today, made, kind, old, new))
        merged = []
        for it in found:
            same = [n for n, other in enumerate(merged) if it[2] == other[2] == "import" and it[0] and it[0] == other[0]]
            if same:
                today, made, kind, old, new = merged[same[0]]
                head = today[: today.index("{") + 1]
                merged[same[0]] = (today, made[: len(made) - len(today) + len(head)] + it[1][len(head) :], kind, old + " | " + it[3], new + " | " + it[4])
            else:
                merged.append(it)
        return merged

    def imports(self, pair, old, new, one_line, others):
        """A pair that changes what a file imports: the names that it adds, where today's file has them."""
        before, after = imported(pair.old), imported(pair.old.replace(old, new))
        added, gone = [it for it in after if it not in before], [it for it in before if it not in after]
        if any(name in [n for _, n in after] for _, name in gone):
            raise ValueError(f"an import is from elsewhere: {old} -> {new}")
        have = {name for _, name in imported(pair.new)}
        wanted = collections.defaultdict(list)
        for path, name in added:
            own = re.match(r"Rattle·\w+(?:·specs)?\.specs\.", path)
            it = self.token(name, pair)
            if it in have:
                continue
            if own:
                wanted["Rattle.spec.specs." + path[own.end() :]].append(it)
            elif it in self.sources:
                wanted[self.sources[it].most_common(1)[0][0]].append(it)
            else:
                raise ValueError(f"no import is known of {name}, {it}: {old} -> {new}")
        found = []
        for path, names in wanted.items():
            head = f"use {path}.{{"
            if pair.new.count(head) == 1:
                # With the first name behind it, so that the text ends in no space.
                name = re.match(r"[^,}]*[,}]", pair.new[pair.new.index(head) + len(head) :])[0]
                found.append((head + name, head + ", ".join([*names, name]), "import", old, new))
            elif one_line:
                raise ValueError(f"no line {head}: {old} -> {new}")
            else:
                taken = [it[0] for it in others + found if it[0]]
                lines = [it for it in re.findall(r"(?m)^use [^\n]*", pair.new) if not any(it.startswith(t) for t in taken) and pair.new.count(it) == 1]
                first = lines[-1]
                found.append((first, first + f"\n{head}{', '.join(names)}}}", "import", old, new))
        return found or [(None, None, "import gone", old, new)]

    def in_block(self, pair, at, old, new, one_line):
        """A pair in a definition: its whole block of lines is turned, without the edit and with it, and what differs is the pair."""
        begin = pair.old.rfind("\n\n", 0, at) + 2 if "\n\n" in pair.old[:at] else 0
        end = pair.old.find("\n\n", at + len(old.rstrip("\n")))
        block = pair.old[begin : end if end >= 0 else len(pair.old)]
        was, now = self.words(block, pair), self.words(block.replace(old, new), pair)
        kind = "plain"
        if pair.new.count(was) != 1:
            spot = pair.place(begin, begin + len(block))
            today = pair.new[spot[0] : spot[1]] if spot else ""
            if [t[0] for t in tokens(today)] != [t[0] for t in tokens(was)]:
                raise ValueError(f"the block reads otherwise today: {old} -> {new}\n--- {was}\n--- {today}")
            kind = "laid out otherwise"
            start = spot[0]
        else:
            start, today = pair.new.index(was), was
        a, b, c = tokens(was), tokens(now), tokens(today)
        front = back = 0
        while front < min(len(a), len(b)) and a[front][0] == b[front][0]:
            front += 1
        while back < min(len(a), len(b)) - front and a[-1 - back][0] == b[-1 - back][0]:
            back += 1
        # What the edit named, as far as both texts have it.
        spot = pair.place(at, at + len(old)) or (start + len(today), start)
        first = sum(t[1] < spot[0] - start for t in c)
        last = sum(t[2] <= spot[1] - start for t in c)
        more = len(b) - len(a)
        spans = [(min(first, front), max(last, len(a) - back))]
        if first < last and [t[0] for t in a[:first]] == [t[0] for t in b[:first]] and [t[0] for t in a[last:]] == [t[0] for t in b[last + more :]]:
            spans = [(first, last)]
        for lo, hi in (*spans, (front, len(a) - back), (max(front - 1, 0), len(a) - back), (front, len(a) - back + 1)):
            n = hi + more
            if lo >= hi or lo > n or hi > len(c):
                continue
            one = today[c[lo][1] : c[hi - 1][2]]
            two = now[b[lo][1] : b[n - 1][2]] if n > lo else ""
            if not (one_line and "\n" in one):
                break
        else:
            raise ValueError(f"on two lines today: {old} -> {new}")
        if one_line:
            two = re.sub(r"\n\s*", " ", two)
        if pair.new.count(one) != 1:
            one, two = self.widened(one, two, (start + c[lo][1], start + c[hi - 1][2]), pair)
        return (one, two, kind, old, new)

    def by_parts(self, old, new, today, plain, pair):
        """The new text where today's old text differs by more than spelling: what the two old texts share is taken from today's."""
        a, b = [t[0] for t in tokens(plain)], tokens(today)
        made = self.words(new, pair)
        # plain -> today, as changes of stretches of text; made where the new text has the same stretch.
        matcher = difflib.SequenceMatcher(None, a, [t[0] for t in b], autojunk=False)
        ptok = tokens(plain)
        for tag, i, i2, j, j2 in reversed(matcher.get_opcodes()):
            if tag == "equal":
                continue
            # a stretch with a token before and behind it, to be found once in the new text
            for reach in (3, 2, 1, 0):
                lo, hi = max(0, i - reach), min(len(ptok), i2 + reach)
                if lo == hi:
                    continue
                stretch = plain[ptok[lo][1] : ptok[hi - 1][2]]
                if made.count(stretch) == 1:
                    jlo, jhi = j - (i - lo), j2 + (hi - i2)
                    put = today[b[jlo][1] : b[jhi - 1][2]] if 0 <= jlo < jhi <= len(b) else None
                    if put is not None:
                        made = made.replace(stretch, put)
                        break
        if "\n" not in new:
            made = re.sub(r"\n\s*", " ", made)
        return made

    def trimmed(self, today, made, spot, pair):
        """Old and new text without what they begin and end with alike, by whole tokens."""
        a, b = tokens(today), tokens(made)
        front = 0
        while front < min(len(a), len(b)) and a[front][0] == b[front][0]:
            front += 1
        back = 0
        while back < min(len(a), len(b)) - front and a[-1 - back][0] == b[-1 - back][0]:
            back += 1
        if front + back >= len(a):
            # Nothing is left of the old text: keep one token.
            if front:
                front -= 1
            else:
                back -= 1
        one = (a[front][1], a[len(a) - 1 - back][2])
        two = (b[front][1], b[len(b) - 1 - back][2]) if front < len(b) - back else (0, 0)
        was, now = today[one[0] : one[1]], re.sub(r"\n\s*", " ", made[two[0] : two[1]])
        if "\n" in was:
            raise ValueError(f"on two lines today: {was}")
        return was, now, (spot[0] + one[0], spot[0] + one[1])

    def widened(self, today, made, spot, pair):
        """Both texts with more of the line about them, so that the old one stands once."""
        text = pair.new
        line = text.rfind("\n", 0, spot[0]) + 1
        end = text.find("\n", spot[1])
        left, right = spot
        while text.count(text[left:right]) != 1 and (left > line or right < end):
            if right < end:
                right = next((e for _, _, e in ((t[0], t[1] + right, t[2] + right) for t in tokens(text[right:end]))), end)
                if text.count(text[left:right]) == 1:
                    break
            if left > line:
                before = [t[1] + line for t in tokens(text[line:left])]
                left = before[-1] if before else line
        return text[left:right], text[left : spot[0]] + made + text[spot[1] : right]


def imported(text):
    """(path, name) of each import."""
    found = []
    for line in re.findall(r"(?m)^(?:pub )?use ([^\n]*)$", text):
        names, alias = re.fullmatch(r"(\S+)\.\{(.*)\}", line), re.fullmatch(r"(\S+) as (\S+)", line)
        if names:
            found += [(names[1], name) for name in names[2].split(", ")]
        elif alias:
            found.append((alias[1], "as " + alias[2]))
    return found


def read_edit(text):
    """(file, old, new) of an edit, and its other lines."""
    found, others, file, old = [], [], None, None
    for line in text.splitlines():
        if line.startswith("file: "):
            file = line[6:]
        elif line.startswith("old: "):
            old = line[5:]
        elif line.startswith("new:"):
            found.append((file, old, line[4:].removeprefix(" ")))
        elif line.strip():
            others.append(line)
    return found, others


def by_hand(path):
    found, key = {}, None
    for line in pathlib.Path(path).read_text().splitlines() if path else []:
        if line.startswith("== "):
            key = line[3:]
            found[key] = []
        elif line.startswith("- "):
            found[key].append([line[2:], ""])
        elif line.startswith("+ ") or line == "+":
            found[key][-1][1] = line[2:]
    return found


def edits(port, hand, writes):
    told = []
    for path in port.landed:
        if not re.fullmatch(r"crates/\w+/(edits|must-fail)/[^/]+\.edit", path):
            continue
        crate = "/".join(path.split("/")[:2])
        parts, others = read_edit(git("show", f"{port.commit}:{path}"))
        try:
            lines = []
            if path in hand:
                made = [(file, today, new, "by hand", old, was) for (file, old, was), (today, new) in zip(parts, hand[path])]
                if len(hand[path]) != len(parts):
                    made = [(parts[0][0], today, new, "by hand", parts[0][1], parts[0][2]) for today, new in hand[path]]
            else:
                made = []
                for file in dict.fromkeys(file for file, _, _ in parts):
                    its = [(old, new) for f, old, new in parts if f == file]
                    made += [(file, *it) for it in port.turned(f"{crate}/{file}", None, its, True)]
            for file, today, new, kind, old, was in made:
                if today is None:
                    told.append((path, kind, old, was, today, new))
                    continue
                text = (ROOT / crate / file).read_text()
                if text.count(today) != 1:
                    raise ValueError(f"{text.count(today)} times today: {today}")
                if not lines or lines_file != file:
                    lines.append(f"file: {file}")
                    lines_file = file
                lines += [f"old: {today}", f"new: {new}"]
                told.append((path, kind, old, was, today, new))
            if writes:
                (ROOT / path).write_text("\n".join(lines + others) + "\n")
        except ValueError as why:
            port.said.append(f"{path}: {why}")
    return told


def digest(file, pairs):
    return hashlib.sha256("\n".join([file, *(part for pair in pairs for part in pair)]).encode()).hexdigest()[:12]


def readings(port, hand, writes):
    """The entries of tests/wrong-definitions.txt, line by line, and the record's keys."""
    told, keys, lines = [], {}, []
    file, label, block = None, None, []

    def flush():
        """Writes the pairs of an entry."""
        nonlocal block
        if not block:
            return
        was = [[old.replace("\\n", "\n"), new.replace("\\n", "\n")] for old, new in block]
        path = f"crates/spec/specs/{file}.antt"
        try:
            if f"{file}: {label}" in hand:
                pairs = [(t.replace("\\n", "\n"), n.replace("\\n", "\n"), "by hand", o, w) for (t, n), (o, w) in zip(hand[f"{file}: {label}"], was + [["", ""]] * 9)]
            else:
                pairs = port.turned(path, None, was, False)
            text = (ROOT / path).read_text()
            for today, new, kind, old, w in pairs:
                if today is None:
                    told.append((f"{file}: {label}", kind, old, w, today, new))
            pairs = [it for it in pairs if it[0] is not None]
            for today, new, *_ in pairs:
                if text.count(today) != 1:
                    raise ValueError(f"{text.count(today)} times today: {today}")
                text = text.replace(today, new)
        except ValueError as why:
            port.said.append(f"{file}: {label}: {why}")
            pairs = [(old, new, "left", old, new) for old, new in was]
        for today, new, kind, old, w in pairs:
            lines.extend(["- " + today.replace("\n", "\\n"), "+ " + new.replace("\n", "\\n")])
            told.append((f"{file}: {label}", kind, old, w, today, new))
        keys[digest(file, was)] = digest(file, [(p[0], p[1]) for p in pairs])
        block = []

    for line in git("show", f"{port.commit}:{READINGS}").splitlines():
        if line.startswith("- "):
            block.append([line[2:], ""])
            continue
        if line.startswith("+ ") or line == "+":
            block[-1][1] = line[2:]
            continue
        flush()
        if line.startswith("== "):
            file = line[3:]
        elif line.startswith("by: "):
            line = "by: " + " ".join(statement(port, word) for word in line[4:].split())
        elif line and not line.startswith("#"):
            label = line
        lines.append(line)
    flush()
    if writes:
        (ROOT / READINGS).write_text("\n".join(lines) + "\n")
    return told, keys


def statement(port, word):
    """TABLE or TABLE.statement, in today's spelling."""
    table, dot, name = word.partition(".")
    return table + dot + port.names.get(name, snake(name)) if dot else word


def record(port, keys, writes):
    """The record, its keys by today's texts. Edits of the definitions are readings too."""
    for path in port.landed:
        if path.startswith("crates/spec/edits/"):
            was, _ = read_edit(git("show", f"{port.commit}:{path}"))
            now, _ = read_edit((ROOT / path).read_text())
            stem = lambda parts: pathlib.Path(parts[0][0]).stem
            keys[digest(stem(was), [(o, n) for _, o, n in was])] = digest(stem(now), [(o, n) for _, o, n in now])
    lines = []
    for line in git("show", f"{port.commit}:{RECORD}").splitlines():
        key, name = line.split()
        lines.append(f"{keys.get(key, key)} {statement(port, name)}")
        if key not in keys:
            port.said.append(f"{RECORD}: no reading has the key {key}")
    if writes:
        (ROOT / RECORD).write_text("\n".join(lines) + "\n")


def main():
    parser = argparse.ArgumentParser(description=__doc__, formatter_class=argparse.RawDescriptionHelpFormatter)
    parser.add_argument("commit")
    parser.add_argument("--write", action="store_true")
    parser.add_argument("--by-hand", default=ROOT / "tools/port_edits.txt")
    parser.add_argument("--show", action="store_true", help="print each text that differs by more than spelling")
    options = parser.parse_args()
    port = Port(options.commit)
    hand = by_hand(options.by_hand)
    port.learn([p for p in port.landed if re.fullmatch(r"crates/\w+/(src|specs)/.*\.(rt|antt)|crates/(spec|workedlaunches)/proofs/\w+\.antt", p)])
    told = edits(port, hand, options.write)
    more, keys = readings(port, hand, options.write)
    record(port, keys, options.write)
    for path, kind, old, was, today, new in told + more:
        if options.show and kind != "plain":
            print(f"{path} [{kind}]\n  - {old!r}\n  + {was!r}\n  = {today!r}\n  > {new!r}")
    print(collections.Counter(kind for _, kind, *_ in told), collections.Counter(kind for _, kind, *_ in more), file=sys.stderr)
    for line in port.said:
        print(f"NOT DONE {line}")
    print(f"{len(port.said)} not done", file=sys.stderr)


main()
