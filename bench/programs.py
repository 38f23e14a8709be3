"""Puts a program of this folder, with the crates that it uses, into a folder where the kit can build it.

    python3 bench/programs.py NAME FOLDER

The sources have another ending here, since the gate refuses those that no crate of the repository reads."""
import pathlib
import shutil
import sys

sys.dont_write_bytecode = True
TOP = pathlib.Path(__file__).resolve().parent.parent
sys.path[:0] = [str(TOP / "gate"), str(TOP / "tools")]
import crates
import kit
import unproved


def listed():
    """Returns the line of each program, by its name."""
    lines = (TOP / "bench/programs.txt").read_text("utf-8").splitlines()
    return {line.partition(":")[0]: line for line in lines if line and not line.startswith("#")}


def furnish(name, folder):
    """Makes a repository of the program and the crates below it."""
    folder, line, every = pathlib.Path(folder), listed()[name], crates.read(TOP)
    below = [*dict.fromkeys(it for dep in line.partition(":")[2].split() for it in crates.below(every, dep))]
    (folder / "crates.txt").write_text("".join(f"{it}\n" for it in [*(every[crate][0] for crate in below), line]), "utf-8")
    shutil.copy(TOP / "HANDLES", folder)
    for part in (f"crates/{crate}/{it}" for crate in below for it in ("src", "specs", "proofs")):
        if (TOP / part).is_dir():
            shutil.copytree(TOP / part, folder / part)
    for file in (TOP / "bench" / name).rglob("*.txt"):
        to = folder / "crates" / name / file.relative_to(TOP / "bench" / name).with_suffix("")
        to.parent.mkdir(parents=True, exist_ok=True)
        shutil.copy(file, to)


def use(name, folder):
    """Makes a repository of the program, and has the tools build this one. Returns a room for what they make."""
    furnish(name, folder)
    kit.TOP, unproved.CRATE = str(folder), name
    room = pathlib.Path(folder, "room")
    room.mkdir()
    return str(room)


if __name__ == "__main__":
    if len(sys.argv) != 3 or sys.argv[1] not in listed():
        sys.exit(__doc__)
    furnish(*sys.argv[1:])
