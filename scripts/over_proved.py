"""Compiles the library for programs in C and Rust over the libraries that `rt ci` has just proved and left in the crates' out/, so that they need not be proved once
more: crates/sekufoyi_c/out/libsekufoyi_c.a. The exit status is not 0 where these are not there, or are older ones that `rt ci` has put back; then `rt lib` builds it."""
import pathlib, shutil, subprocess, sys

root = pathlib.Path(__file__).resolve().parent.parent
kit = pathlib.Path(shutil.which("rt") or sys.exit("rt is not on the path")).resolve().parent.parent
NAME = "sekufoyi_c"


def below(name, uses):
    """The crates of this repository below a crate."""
    found = []
    for each in uses[name]:
        found += [it for it in [*below(each, uses), each] if it not in found]
    return found


lines = [line.split("#")[0].partition(":") for line in (root / "crates.txt").read_text().splitlines()]
uses = {name.split()[0]: rest.split() for name, colon, rest in lines if colon}
rlibs = {name: root / "crates" / name / "out" / "rlib" for name in below(NAME, {name: [it for it in used if it in uses] for name, used in uses.items()})}
# A library with a stamp was made by another command than rt ci.
if any((at / "stamp").exists() or not (at / f"{name}.rlib" / "format").is_file() for name, at in rlibs.items()):
    sys.exit(1)
words = [kit / "bin" / "rattle", "build", "--crate-name", NAME, "src/lib.rt", "--crate-type", "staticlib", "--toolchain", kit / "toolchain", "--backend", "llvm"]
words += [f"--extern={name}={rlibs[name] if name in rlibs else kit / 'rlibs'}/{name}.rlib" for name in ["std", *uses[NAME]]]
words += [word for at in (kit / "rlibs", *rlibs.values()) for word in ("-L", f"dependency={at}")]
words += ["--antt-project", kit / "rattle" / "logic" / "antt-project.json", "--logic-built", kit / "logic_built", *[f"--links={name}=" for name in [NAME, *rlibs]]]
folder = root / "crates" / NAME
(folder / "out").mkdir(exist_ok=True)
sys.exit(subprocess.run([str(word) for word in words] + ["-o", f"out/lib{NAME}.a"], cwd=folder, stdin=subprocess.DEVNULL).returncode)
