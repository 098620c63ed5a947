"""What the scripts that try wrong programs and wrong definitions share: the kit, the crates of this repository, copies of them, a check of the definitions, edits,
and a place to work in."""
import os, pathlib, re, shutil, subprocess, sys, tempfile, threading

root = pathlib.Path(__file__).resolve().parent.parent
rt = shutil.which("rt") or sys.exit("rt is not on the path")
kit = pathlib.Path(rt).resolve().parent.parent


def crates():
    """The crates of crates.txt, in its order."""
    lines = [line.split("#")[0] for line in (root / "crates.txt").read_text().splitlines()]
    return [line.split(":")[0].split()[0] for line in lines if ":" in line]


def copy_crates(to, *names):
    """Copies the crates, all or those named, with their lines of crates.txt and HANDLES, so that rt works there. What rt has made of them stays behind: its commands
    begin with what checks have kept on this machine, wherever they ran."""
    to.mkdir(parents=True)
    for name in names or crates():
        shutil.copytree(root / "crates" / name, to / "crates" / name, ignore=lambda at, _: ["out"] if pathlib.Path(at).name == name else [])
    lines = (root / "crates.txt").read_text().splitlines()
    (to / "crates.txt").write_text("".join(f"{line}\n" for line in lines if not names or re.split(r"[\s:]", line)[0] in names))
    if (root / "HANDLES").is_file():
        shutil.copyfile(root / "HANDLES", to / "HANDLES")


class Checked:
    """What the prover answered: its exit status, and what it said."""

    def __init__(self, status, said):
        self.status, self.said = status, said

    def proved(self):
        return self.status == 0

    def broken_off(self):
        return self.status < 0


def check_definitions(folder, known, seconds):
    """Checks the crate folder `folder` as the crate `spec`, over what is known of its modules. After so many seconds it is broken off."""
    line = [kit / "bin" / "rattle", "check", "--crate-name", "spec", "src/lib.rt", "--extern", f"std={kit}/rlibs/std.rlib", "-L", f"dependency={kit}/rlibs"]
    line += ["--antt-project", kit / "rattle" / "logic" / "antt-project.json", "--logic-built", kit / "logic_built", "--links", "spec="]
    line += ["--jobs", "1", "--incremental", known]
    with tempfile.TemporaryFile() as out:
        child = subprocess.Popen([str(word) for word in line], cwd=folder, stdout=out, stderr=subprocess.STDOUT, stdin=subprocess.DEVNULL)
        ending = threading.Timer(seconds, child.kill)
        ending.start()
        status = child.wait()
        ending.cancel()
        out.seek(0)
        return Checked(status, out.read().decode(errors="replace"))


def link_tree(known, to):
    """Copies what is known of modules, by links where these can be made: a check replaces such a file, and changes none."""

    def copy(one, other):
        try:
            if one.endswith(".oantt"):
                return os.link(one, other)
        except OSError:
            pass
        return shutil.copy2(one, other)

    shutil.copytree(known, to, copy_function=copy)


class Edit:
    """An edit as `rt` reads it: a line `file:` for the pairs of `old:` and `new:` behind it. A line `by:` names the tables that refuse it."""

    def __init__(self, text):
        self.pairs, self.by = [], []
        file = old = None
        for line in text.splitlines():
            if line.startswith("file: "):
                file = line[6:]
            elif line.startswith("old: "):
                old = line[5:]
            elif line.startswith("by: "):
                self.by = line[4:].split()
            elif line.startswith("new:"):
                self.pairs.append((file, old, line[4:].removeprefix(" ")))
                old = None


def workplace():
    """A folder for scratch copies, on the disk of the other temporary files, where rt can link what checks have kept."""
    return tempfile.TemporaryDirectory(prefix="sekufoyi-")
