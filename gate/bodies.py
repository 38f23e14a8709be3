"""Tries wrong bodies in rounds: one check of a crate in which many functions have a wrong body each, and which tells of each of them.

A round has at most one wrong body of a function. A wrong body changes no contract, so what each other function owes is what it owed before,
and the check goes past what is refused (`rt check --allow-holes`). A body is refused where the prover refuses a goal of the function that
the body's file is named for. An edit that changes anything else than this function's lines, and what a round doesn't tell, is tried alone, by
`rt must-fail`."""
import collections
import concurrent.futures
import dataclasses
import os
import pathlib
import re
import shutil
import subprocess
import sys
import tempfile

import crates

sys.path.insert(0, f"{pathlib.Path(__file__).resolve().parents[1]}/tools")
import kit

HEAD = re.compile(r"^( *)(?:pub(?:\(\w+\))? )?(?:const |unsafe )*fn (\w+)", re.M)
OWNER = re.compile(r"^(?:pub(?:\(\w+\))? )?(?:trait|impl(?:<.*?>)?) (?:(?:\w+::)*(\w+(?:<.*>)?) for )?(?:\w+::)*(\w+)", re.M)
# What a type is given that a trait is given.
INNER = re.compile(r"(?<=\w)<[^<>]*>(?=[,>])")
CLAUSE = re.compile(r"\b(?:requires|ensures|ghost|invariant)\b")
NAMELESS = re.compile(r"has no field|is not in scope|has no `|was not admitted|only because a proof file names")
PARTS = ("src", "specs", "proofs")


@dataclasses.dataclass(frozen=True)
class Body:
    """A must-fail edit: the function that it is named for, and in each of its files what it puts for what."""

    crate: str
    path: pathlib.Path
    pairs: tuple

    @classmethod
    def read(cls, crate, path):
        file = old = None
        pairs = []
        for line in path.read_text("utf-8").splitlines():
            word, _, rest = line.partition(":")
            rest = rest.removeprefix(" ")
            if word == "file":
                file = rest.strip()
            elif word == "old":
                old = rest
            elif word == "new":
                pairs.append((file, old, rest))
        return cls(crate, path, tuple(pairs))

    @property
    def label(self):
        return f"{self.crate}/{self.path.name}"

    @property
    def function(self):
        return self.path.name.partition(".")[0]

    @property
    def place(self):
        """The path, in its crate, of the function that it is named for, if the edit changes nothing but lines of one file of src/ that are of this one
        function, and no clause; otherwise nothing."""
        folder, file = self.path.parents[1], min(file for file, _, _ in self.pairs)
        text = (folder / file).read_text("utf-8")
        is_plain = file.startswith("src/") and all(it == file and text.count(old) == 1 and not CLAUSE.search(old + new) for it, old, new in self.pairs)
        places = {function_at(text, old) for _, old, _ in self.pairs} if is_plain else {()}
        return path_at(folder, file, *min(places)) if len(places) == 1 and min(places)[-1:] == (self.function,) else None


def put_into(folder, bodies):
    """Puts bodies that share a round into a crate's files, each in the place where its old text stands in the file as it is."""
    pairs = collections.defaultdict(list)
    for file, old, new in (pair for body in bodies for pair in body.pairs):
        pairs[folder / file].append((old, new))
    for file, changes in pairs.items():
        text = file.read_text("utf-8")
        for at, old, new in sorted(((text.index(old), old, new) for old, new in changes), reverse=True):
            text = text[:at] + new + text[at + len(old) :]
        file.write_text(text, "utf-8")


def function_at(text, old):
    """The names of the function of whose lines a text is: of the trait and of the type that it is of, if any, and its own; or nothing. The last head of a
    function up to the text's end is this one's, and the text has it, or its line is further in."""
    at = text.find(old)
    heads = list(HEAD.finditer(text[: at + len(old)]))
    line = text[text.rfind("\n", 0, at) + 1 :]
    is_further_in = bool(heads) and len(line) - len(line.lstrip(" ")) > len(heads[-1][1])
    if not heads or not (is_further_in or HEAD.search(old) or HEAD.match(line)):
        return ()
    owners = OWNER.findall(text[: heads[-1].start()]) if heads[-1][1] else []
    return *(owners or [("", "")])[-1], heads[-1][2]


def path_at(folder, file, trait, owner, name):
    """The path, in its crate, of the function of these names in a file of a crate's src/. One of a type alone stands in the module that declares the type,
    and behind a trait's name stand those of what it is given (`Lists`, `From<io::Error>`: `ListsFromError`)."""
    declared = re.compile(rf"^(?:pub(?:\(\w+\))? )?(?:struct|enum|trait) {owner}\b", re.M)
    homes = [] if trait or not owner else [it for it in sorted(folder.glob("src/**/*.rt")) if declared.search(it.read_text("utf-8"))]
    module = (homes[0].relative_to(folder) if len(homes) == 1 else pathlib.PurePath(file)).with_suffix("").parts[1:]
    while INNER.search(trait):
        trait = INNER.sub("", trait)
    of_trait = "".join(it.rpartition("::")[2] for it in re.split(r"[<, >]+", trait))
    names = [*(module[:-1] if module[-1] in ("lib", "main", "mod") else module), owner + of_trait, name]
    return "::".join(filter(None, names))


def rounds_of(bodies):
    """The bodies in rounds, each with one of a function at most, and those that are tried alone. A round has bodies of all functions of the rounds
    before it, so what a check proves of a function stays proved until its first body is tried."""
    of_function = collections.defaultdict(list)
    for body in bodies:
        of_function[body.place].append(body)
    alone = of_function.pop(None, [])
    length = max(map(len, of_function.values()), default=0)
    return [[group[at] for group in of_function.values() if at < len(group)] for at in reversed(range(length))], alone


def function_of(path):
    """The path of this function in its crate, or, of a closure, that of the function in which it stands (`lists::Lists::front` of
    `lists::fn::Lists::front::map+FnOnce::call_once`)."""
    closure = re.fullmatch(r"(|.*::)fn::(.+?)::[^:]+(?:::call(?:_mut|_once)?)?", path)
    return closure[1] + closure[2] if closure else path


def refusals(said):
    """By their paths in the crate, the functions of which the prover refuses a goal, and what it says of one: that the function's answer to it is refused, or
    that it is not proved, where no answer names a goal that isn't there (then it might be the answer to this one)."""
    told, renamed, notes, found = {}, set(), [], {}
    for line in said.splitlines():
        if at := re.match(r"(?:\./)?proofs/(\S+)/\w+\.antt:\d+:\d+: error: (.*)", line):
            told.update({} if NAMELESS.search(at[2]) or at[1] in told else {at[1]: at[2]})
            renamed.update([at[1]] if ".Goals` has no " in at[2] else [])
        elif at := re.match(r"note: src/\S+: (it is not proved that .*)", line):
            notes.append(at[1])
        elif at := re.match(r"fn \w+::(\S+): (.*)", line):
            place = at[1].replace("::", "/")
            if searched := re.match(r"no proof: expected answers in \S+ (`search` did not prove .*)", at[2]):
                found[function_of(at[1])] = searched[1]
            elif at[2].startswith("not proved") and (place in told or notes and place not in renamed):
                found[function_of(at[1])] = told.get(place) or notes[0]
            notes.clear()
    return found


def reasons(lines):
    """By their labels, the bodies of which `rt ci` or `rt must-fail` says that a goal is refused, and what it says of one."""
    told = (re.search(r"must-fail (\S+): refused, as it must be: (.*)", line) for line in lines)
    return {at[1]: at[2][:160] for at in told if at and not NAMELESS.search(at[2])}


def linked(folder, to):
    """Copies a folder that the kit keeps, if it is there: by second names those files that the kit replaces and never writes into."""

    def copy(one, other):
        try:
            (os.link if one.endswith(".oantt") or "/rlib/" in one else shutil.copy2)(one, other)
        except OSError:
            shutil.copy2(one, other)

    if os.path.isdir(folder):
        shutil.copytree(folder, to, copy_function=copy, dirs_exist_ok=True)


def stamps_of(root, names):
    """By the names of crates of a tree, the sums of what their libraries are made from, by which the kit knows them as built. They don't depend on where
    the tree lies."""
    found = {}

    def stamp(crate):
        if crate.name not in found:
            found[crate.name] = plain(crate)
        return found[crate.name]

    for name in names:
        rtlib, crate = kit.crate_at(f"{root}/crates/{name}")
        plain = rtlib.Crate.stamp
        try:
            rtlib.Crate.stamp = stamp
            crate.stamp()
        finally:
            rtlib.Crate.stamp = plain
    return found


class Rounds:
    """The wrong bodies of some crates of a tree, and a room beside it for their rounds.

    The libraries below are those that the tree has, each proved once more where it has none of the same sources; or those that a run of `rt ci` made in another copy of the
    tree, which fit one another. Each round of a crate goes over what the one before it proved; the first proves its other functions too, where nothing has."""

    def __init__(self, root, every, names, room, proved=None):
        self.root, self.crates, self.room = pathlib.Path(root), every, pathlib.Path(room)
        self.libraries = proved and pathlib.Path(proved)
        self.stamps = {}
        self.names, self.proved, self.last, self.refused, self.seconds = names, {}, {}, {}, collections.Counter()
        self.bodies = [Body.read(name, it) for name in names for it in sorted(self.root.glob(f"crates/{name}/must-fail/*.edit"))]
        self.planned = {name: rounds_of([body for body in self.bodies if body.crate == name]) for name in names}

    def furnish(self, name, over):
        """A folder of its own with the crate, the libraries below it as they were built, and what a check of the crate kept."""
        at = pathlib.Path(tempfile.mkdtemp(prefix=f"{name}-", dir=self.room))
        every = crates.below(self.crates, name)
        (at / "crates.txt").write_text("".join(f"{self.crates[it][0]}\n" for it in every), "utf-8")
        shutil.copy2(self.root / "HANDLES", at)
        for it in every:
            for part in PARTS:
                if (self.root / "crates" / it / part).is_dir():
                    shutil.copytree(self.root / "crates" / it / part, at / "crates" / it / part)
            if it != name or not self.libraries:
                linked((self.libraries or self.proved.get(it, self.root)) / "crates" / it / "out/rlib", at / "crates" / it / "out/rlib")
        linked(over / "crates" / name / "out/incremental", at / "crates" / name / "out/incremental")
        for it in every[:-1] if self.libraries else []:
            # (`rt ci` leaves its libraries without a stamp, since they fit only those of the same run)
            (at / "crates" / it / "out/rlib/stamp").write_text(self.stamps[it], "utf-8")
        return at

    def prove(self, name):
        """Proves the crate, and builds its library, over which those above go. Returns what was said if it failed."""
        at = self.furnish(name, self.root)
        status, said = self.run(("proof", name), at / "crates" / name, "lib", "--jobs", "1")
        self.proved.update({} if status else {name: at})
        return said if status else ""

    def run(self, task, at, *words):
        """Runs a command of the kit, and counts the processor's seconds that it took for the task. Returns its status, and what it said; of one that
        said nothing (since it was killed, say) that it did, so that nobody takes it for one with nothing to find fault with."""
        with tempfile.TemporaryFile("w+", encoding="utf-8", errors="replace") as said:
            ran = subprocess.Popen(["rt", *words], cwd=at, stdout=said, stderr=subprocess.STDOUT, env={**os.environ, "RT_JOBS": "1"})
            _, status, usage = os.wait4(ran.pid, 0)
            ran.returncode = os.waitstatus_to_exitcode(status)
            self.seconds[task] += usage.ru_utime + usage.ru_stime
            said.seek(0)
            return ran.returncode, said.read() or f"rt {' '.join(words)} said nothing, and ended with {ran.returncode}"

    def try_round(self, name, bodies):
        """Tries a round. Returns those of its bodies of which it doesn't tell that they are refused."""
        at = self.furnish(name, self.last.get(name) or self.proved.get(name, self.root))
        put_into(at / "crates" / name, bodies)
        found = refusals(self.run(("tries", name), at / "crates" / name, "check", "--allow-holes", "--jobs", "1")[1])
        if name in self.last:
            shutil.rmtree(self.last[name])
        self.last[name] = at
        if not found.keys() <= {body.place for body in bodies}:
            # (a goal of a function that is as it was: then the round tells nothing)
            return bodies
        left = []
        for body in bodies:
            reason = found.get(body.place)
            left += [] if reason else [body]
            self.refused.update({body: reason[:160]} if reason else {})
        return left

    def try_alone(self, name, bodies):
        """Tries these bodies one at a time. Returns what was said, if one of them isn't refused for a goal."""
        at = self.furnish(name, self.proved.get(name) or self.last.get(name, self.root))
        os.makedirs(at / "crates" / name / "must-fail")
        for body in bodies:
            shutil.copy2(body.path, at / "crates" / name / "must-fail")
        lines = self.run(("tries", name), at, "must-fail", name)[1].splitlines()
        shutil.rmtree(at)
        found = reasons(lines)
        self.refused.update({body: found[body.label] for body in bodies if body.label in found})
        return "\n".join(lines) if any(body not in self.refused for body in bodies) else ""

    def try_crate(self, name):
        """Tries all bodies of a crate. Those of which a round doesn't tell have rounds of their own, since a function's goals aren't tried while one that it
        calls isn't proved. Returns what was said of those that aren't refused."""
        rounds, alone = self.planned[name]
        for _ in range(2):
            left = [body for bodies in rounds for body in self.try_round(name, bodies)]
            rounds = rounds_of(left)[0]
        return self.try_alone(name, [*alone, *left]) if alone or left else ""

    def carry_out(self, lanes, is_late=lambda: False):
        """Tries the bodies of each crate, in their order, as many crates side by side as there are lanes, and begins none once it is late; where no run made
        the libraries, each crate is proved first, once those below it are. Gives what was said of each crate that was tried or isn't proved, as it ends:
        nothing, where all its bodies are refused."""
        above = collections.Counter(it for name in self.names for it in crates.below(self.crates, name))
        self.stamps = stamps_of(self.root, self.names) if self.libraries else {}
        waiting = [(self.try_crate, name) for name in self.names] if self.libraries else [(self.prove, name) for name, _ in above.most_common()]
        running = {}
        with concurrent.futures.ThreadPoolExecutor(lanes) as pool:
            while waiting or running:
                waiting = [] if is_late() else waiting
                ready = [it for it in waiting if it[0] == self.try_crate or all(dep in self.proved for dep in crates.below(self.crates, it[1])[:-1])]
                for task in ready[: lanes - len(running)]:
                    waiting.remove(task)
                    running[pool.submit(*task)] = task
                for done in concurrent.futures.wait(running, return_when="FIRST_COMPLETED").done:
                    call, name = running.pop(done)
                    said = f"{done.exception() or done.result()}"
                    if call == self.try_crate or said:
                        yield name, said
                    if call == self.prove and said:
                        waiting.clear()
                    elif call == self.prove and name in self.names:
                        waiting.append((self.try_crate, name))
