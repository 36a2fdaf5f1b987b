"""Programs of this repository, built where they aren't there or are older than their sources."""
import pathlib, subprocess, sys

top = pathlib.Path(__file__).resolve().parent.parent


def needed(name):
    """The crates that a crate stands on, and itself."""
    lines = dict(line.split(":", 1) for line in (top / "crates.txt").read_text().splitlines() if ":" in line)
    found, ahead = set(), [name]
    while ahead:
        crate = ahead.pop()
        if crate in lines and crate not in found:
            found.add(crate)
            ahead += lines[crate].split()
    return found


def is_current(name, program):
    made = program.stat().st_mtime if program.exists() else 0
    sources = (path for crate in needed(name) for folder in ("src", "specs", "proofs")
               for path in (top / "crates" / crate / folder).rglob("*") if path.suffix in (".rt", ".antt"))
    return made > 0 and all(path.stat().st_mtime <= made for path in sources)


def built(name):
    """The path of a program, which is proved and built first where it isn't current."""
    folder = top / "crates" / name
    program = folder / "out" / name
    if not is_current(name, program):
        print(f"{name}: proving and building, which takes some minutes the first time", file=sys.stderr)
        # `rt run` builds, and then runs the program.
        told = subprocess.run(["rt", "run"], cwd=folder, stdin=subprocess.DEVNULL, capture_output=True, text=True)
        if not is_current(name, program):
            sys.exit(f"{name} can't be built:\n{told.stdout[-2000:]}{told.stderr[-2000:]}")
    return program
