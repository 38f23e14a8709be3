"""The repository's crates, as `crates.txt` names them."""
import pathlib


def read(root):
    """Each crate's line of crates.txt, and the repository's crates that it names."""
    lines = [line.partition("#")[0].strip() for line in pathlib.Path(root, "crates.txt").read_text("utf-8").splitlines()]
    crates = {line.partition(":")[0].split()[0]: line for line in lines if line}
    return {name: (line, [dep for dep in line.partition(":")[2].split() if dep in crates]) for name, line in crates.items()}


def below(crates, name):
    """The crate and all below it, lowest first."""
    return [*dict.fromkeys(it for dep in crates[name][1] for it in below(crates, dep)), name]
