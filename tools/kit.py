"""Where the Rattle kit is, and what the program is built from."""
import os
import subprocess
import sys

TOP = os.path.dirname(os.path.dirname(os.path.realpath(__file__)))


def said(*words, cwd=TOP):
    return subprocess.run(words, cwd=cwd, stdout=subprocess.PIPE, check=True, text=True).stdout.strip()


KIT = os.path.dirname(said("rt", "doc"))


def crate_at(folder):
    """A crate with those below it, as the kit's own command reads them."""
    sys.path.insert(0, f"{KIT}/bin")
    import rtlib

    return rtlib, rtlib.Crate(folder, rtlib.root_above(folder), {})


def sources(folder):
    """The words that name a program's sources, and those of all libraries below it, to the kit's compiler."""
    rtlib, crate = crate_at(folder)
    libraries = rtlib.kit_sources(name for it in [crate, *crate.below()] for name in it.of_kit)
    return ["--crate-name", crate.name, "src/main.rt", *crate.sources_below(), *libraries]


def begin(mark):
    """Makes the mark of a build that begins: what changes from now on is newer."""
    with open(mark, "w", encoding="utf-8"):
        pass
