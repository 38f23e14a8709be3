"""A test of `bodies.py`: which wrong bodies share a round, and what counts as refused. It calls no prover."""
import os
import pathlib
import shutil
import sys
import tempfile

sys.dont_write_bytecode = True
import bodies
import figures


ROOM = tempfile.TemporaryDirectory()
CRATE = pathlib.Path(ROOM.name, "low")
FILES = {
    "src/lists.rt": "const MOST: u8 = 1;\n\npub struct Lists;\n\nimpl Lists {\n    pub fn front(&self) {\n        a\n    }\n\n    fn back() { a2 }\n}\n\nconst LEAST: u8 = 2;\n",
    "src/lib.rt": "pub(crate) fn f() {\n    c\n}\n",
    "src/rows.rt": """\
impl<T: Into<u8>> fmt::Display for Rows<'_, T> {
    fn fmt() { r }
}

impl Rows {
    fn fmt() { s }
}

impl Lists {
    fn fmt() { w }
}

impl<T> Play<io::Held<Vec<T>>, Seat<T::One, T>> for Rows<'_, T> {
    fn fmt() { x }
}

pub trait Made {
    fn fmt() { t }
}

fn fmt() { u }
""",
    "src/a/mod.rt": "fn f() {\n    c\n}\n",
    "src/a/b.rt": "fn f() {\n    c\n}\n",
    "specs/Words.antt": "def word = c\n",
}
for name, text in FILES.items():
    (CRATE / name).parent.mkdir(parents=True, exist_ok=True)
    (CRATE / name).write_text(text, "utf-8")
(CRATE / "must-fail").mkdir()


def body(name, file="src/lists.rt", old="        a", new="        b", more=""):
    path = CRATE / "must-fail" / f"{name}.edit"
    path.write_text(f"file: {file}\nold: {old}\nnew: {new}\n{more}", "utf-8")
    return bodies.Body.read("low", path)


FRONT = body("front.is_the_back")
ALSO = body("front.is_the_second", old="        a", new="        c")
BACK = body("back.is_the_front", old="fn back() { a2 }", new="fn back() { b2 }")
WORD = body("word.is_another", "specs/Words.antt", "c", "d")
TWICE = body("front.a_text_that_stands_twice", old="a", new="b")
BOTH = body("front.and_back", more="old: { a2 }\nnew: { b2 }\n")
CLAUSE = body("front.promises_less", new="        b requires { c }")
MOST = body("front.has_another_limit", old="MOST: u8 = 1", new="MOST: u8 = 2")
LEAST = body("back.has_another_limit", old="LEAST: u8 = 2", new="LEAST: u8 = 1")
FILES_OF_TWO = body("f.of_two_files", "src/lib.rt", "    c", "    d", "file: src/a/b.rt\nold:     c\nnew:     d\n")

ELSEWHERE = body("f.x", "src/lib.rt", "    c", "    d")
ALSO_F = body("f.y", "src/a/b.rt", "    c", "    d")
ALONE = [WORD, CLAUSE, TWICE, BOTH, MOST, LEAST, FILES_OF_TWO]
assert bodies.rounds_of([FRONT, ALSO, BACK, *ALONE]) == ([[ALSO], [FRONT, BACK]], ALONE), "a round has the functions of those before it"
OF_MOD = body("f.z", "src/a/mod.rt", "    c", "    d")
OF_ROWS = [body(f"fmt.{it}", "src/rows.rt", it, "v") for it in ("{ r", "{ s", "{ w", "{ x", "{ t", "{ u")]
assert [it.place for it in (FRONT, BACK, ELSEWHERE, ALSO_F, OF_MOD)] == ["lists::Lists::front", "lists::Lists::back", "f", "a::b::f", "a::f"]
PLACES = ["rows::RowsDisplay::fmt", "rows::Rows::fmt", "lists::Lists::fmt", "rows::RowsPlayHeldSeat::fmt", "rows::Made::fmt", "rows::fmt"]
assert [it.place for it in OF_ROWS] == PLACES
assert bodies.rounds_of([ELSEWHERE, ALSO_F, OF_MOD, *OF_ROWS]) == ([[ELSEWHERE, ALSO_F, OF_MOD, *OF_ROWS]], []), "functions of one name are told apart"
assert bodies.rounds_of([]) == ([], [])
assert body("f.x", old="a", new="").pairs == (("src/lists.rt", "a", ""),), "a text may be nothing"
assert body("f.x", old=" a: b", new="b").pairs == (("src/lists.rt", " a: b", "b"),), "one space behind the colon is left out, and no more"

SAID = """\
./proofs/lists/Lists/front/Answers.antt:8:70: error: `returns`: the two types differ
./proofs/lists/Lists/back/Answers.antt:8:70: error: `now` has no field `back`
./proofs/lists/Shared.antt:8:70: error: not this function's
fn low::lists::Lists::front: not proved; it stands on `returns`, which antt refuses
fn low::lists::Lists::back: not proved
fn low::lists::Lists::room: no holes
fn low::lists::is_full: no proof: expected answers in ./proofs/lists/is_full/Answers.antt; `search` did not prove `returns`
fn low::lists::swap: no proof: expected a proof in ./proofs/lists/swap/Proof.antt
fn low::lists::push: no proof: it calls `low::lists::is_full`, which is not proved
./proofs/lists/fn/Lists/sum/fold/Answers.antt:8:70: error: `returns`: the two types differ
fn low::lists::fn::Lists::sum::fold: not proved
fn low::lists::fn::first::map+FnOnce::call_once: no proof: expected answers in ./proofs/lists/fn/first/map+FnOnce/call_once/Answers.antt; `search` did not prove `returns`
fn low::lists::Maker::call: no proof: expected answers in ./proofs/lists/Maker/call/Answers.antt; `search` did not prove `returns`
./proofs/lists/Lists/join/Answers.antt:8:70: error: `returns`: record `Rattle.low.proofs.lists.Lists.join.Lts.After-f` has no field `in_ok-f`
note: src/lists.rt:5:9: it is not proved that what `f` requires holds at this call (`f-requires`)
help: test a value from outside
note: a goal may be false even if its line does not say so
fn low::lists::Lists::join: not proved; it stands on `returns`, which antt refuses
./proofs/lists/Lists/part/Answers.antt:8:70: error: `returns`: module `Rattle.low.proofs.lists.Lists.part.Goals` has no `returns-in_err-f` that can be named from here
note: src/lists.rt:5:9: it is not proved that what the function ensures holds when it returns (`returns-in_err-g`)
fn low::lists::Lists::part: not proved; it stands on `returns`, which antt refuses
fn low::lists::Lists::take: not proved
"""
PATHS = ["lists::Lists::front", "lists::is_full", "lists::Lists::sum", "lists::first", "lists::Maker::call", "lists::Lists::join"]
assert list(bodies.refusals(SAID)) == PATHS, "a goal, a closure's as its function's, no missing name, and no call of what isn't proved"
assert bodies.refusals(SAID)["lists::Lists::front"] == "`returns`: the two types differ"

REFUSED = [
    "rt: must-fail low/front.is_the_back.edit: refused, as it must be: ./src/lists.rt:5:9: error: `returns`: the two types differ",
    "rt: must-fail low/front.is_nameless.edit: refused, as it must be: ./proofs/lists/Shared.antt:8:70: error: `now` has no field `back`",
    "rt: must-fail low/front.takes_a_name.edit: refused, as it must be (only because a proof file names what the edit took away): error",
    "rt: must-fail low/front.is_the_same.edit: NOT REFUSED: the crate is still proved with this edit",
    "rt: must-fail low/front.is_no_code.edit: BAD EDIT: it did not reach the prover",
]
assert bodies.reasons(REFUSED) == {"low/front.is_the_back.edit": "./src/lists.rt:5:9: error: `returns`: the two types differ"}


TOWER = {"low": ("low:", []), "mid": ("mid: low", ["low"]), "high": ("high: mid", ["mid"])}


class Said(bodies.Rounds):
    """Rounds of which each check says that goals of these functions of the crate aren't proved."""

    def __init__(self, room, *paths):
        super().__init__(room, TOWER, [], room)
        self.lines = "".join(f"fn low::{it}: no proof: expected answers in ./proofs; `search` did not prove `returns`\n" for it in paths)
        self.proved["low"], self.overs = CRATE, []

    def furnish(self, name, over):
        self.overs.append(over)
        at = pathlib.Path(tempfile.mkdtemp(dir=self.room))
        shutil.copytree(CRATE, at / "crates" / name)
        return at

    def run(self, task, at, *words):
        return 1, self.lines


def left_of(tried, *paths):
    """The bodies of a round of which it doesn't tell, where goals of these functions are refused."""
    with tempfile.TemporaryDirectory() as room:
        told = Said(room, *paths)
        left = told.try_round("low", tried)
        assert told.refused.keys() == {*tried} - {*left}
        first = told.last["low"]
        assert told.try_round("low", tried) == left and told.overs == [CRATE, first], "a round goes over what the one before it proved"
        assert not first.exists() and told.last["low"].exists()
        return left


assert left_of([FRONT, ELSEWHERE, ALSO_F], "lists::Lists::front", "f", "a::b::f") == []
assert left_of([FRONT, ELSEWHERE, ALSO_F], "lists::fn::Lists::front::map+FnOnce::call_once", "a::b::f") == [ELSEWHERE], "a body that isn't refused is left"
assert left_of([FRONT, ELSEWHERE, ALSO_F], "lists::Lists::front", "f", "a::f") == [FRONT, ELSEWHERE, ALSO_F], "a goal of a function that is as it was, though of one's name"
assert left_of([FRONT, BACK], "lists::Lists::front", "lists::Others::back") == [FRONT, BACK]


class Masked(Said):
    """Rounds of which each tells of the next of these functions, and what is tried alone is told by its labels."""

    def run(self, task, at, *words):
        return 1, "".join(self.lines.splitlines()[len(self.overs) - 1 : len(self.overs)])

    def try_alone(self, name, bodies):
        return f"{[body.label for body in bodies]}"


with tempfile.TemporaryDirectory() as room:
    told = Masked(room, "lists::Lists::front", "f")
    told.planned["low"] = bodies.rounds_of([FRONT, ELSEWHERE])
    assert told.try_crate("low") == "" and told.refused.keys() == {FRONT, ELSEWHERE}, "what is masked is tried in a round of its own"
    told = Masked(room, "lists::Lists::front")
    told.planned["low"] = bodies.rounds_of([FRONT, ELSEWHERE, WORD])
    assert told.try_crate("low") == f"{[WORD.label, ELSEWHERE.label]}", "and then alone"

bodies.put_into(CRATE, [body("front.is_further_on", new="        { a2 }"), BACK])
assert (CRATE / "src/lists.rt").read_text("utf-8") == FILES["src/lists.rt"].replace("        a\n", "        { a2 }\n").replace("{ a2 }\n}", "{ b2 }\n}")

with tempfile.TemporaryDirectory() as room:
    pathlib.Path(room, "rt").write_text('#!/bin/sh\necho "rt $*"\nexit 3\n', "utf-8")
    os.chmod(f"{room}/rt", 0o755)
    os.environ["PATH"] = f"{room}:{os.environ['PATH']}"
    tower = bodies.Rounds(room, TOWER, [], room)
    assert tower.run(("proof", "low"), room, "lib", "--jobs", "1") == (3, "rt lib --jobs 1\n")
    assert 0 < tower.seconds["proof", "low"] < 1 and ("tries", "low") not in tower.seconds
    tower.seconds["proof", "low"] = 61.7
    pathlib.Path(room, "rt").write_text("#!/bin/sh\nkill -9 $$\n", "utf-8")
    assert tower.run(("tries", "mid"), room, "must-fail", "mid") == (-9, "rt must-fail mid said nothing, and ended with -9"), "what was killed refused nothing"
    del tower.seconds["tries", "mid"]
    assert figures.text_of(tower, "a kit", 59.4, 20.2).splitlines()[-1] == "| `low` | 62 | | | |", "a crate that no wrong body needs has no row"
    assert figures.by_hand(figures.text_of(tower, "a kit", 59.4, 20.2)) == "" and figures.by_hand(f"a\n{figures.BY_HAND}b\n") == f"{figures.BY_HAND}b\n"


class Told(bodies.Rounds):
    """Rounds of which each crate's finds nothing to say."""

    def try_crate(self, name):
        BEGUN.append(name)
        return ""


BEGUN = []


with tempfile.TemporaryDirectory() as room:
    tower = Told(room, TOWER, ["low", "mid", "high"], room)
    tower.proved = {name: room for name in TOWER}
    tower.prove = lambda name: ""
    assert sorted(name for name, _ in tower.carry_out(1)) == ["high", "low", "mid"]
    BEGUN.clear()
    assert [name for name, _ in tower.carry_out(1, lambda: len(BEGUN) == 1)] == BEGUN and len(BEGUN) == 1, "none is begun once it is late"
    tower.libraries, tower.names = pathlib.Path(room), ["mid", "low", "high"]
    for name in TOWER:
        pathlib.Path(room, "crates", name).mkdir(parents=True)
    bodies.stamps_of = lambda root, names: {}
    assert [name for name, _ in tower.carry_out(1)] == ["mid", "low", "high"], "they are begun in their order"

DONE = "rt: ok; must-fail edits: none; done in this run: {} proofs (of crates and of their tests)"
assert figures.is_from_nothing([DONE.format("66 of the 66")]) and figures.is_from_nothing([DONE.format("all 66")])
assert not any(map(figures.is_from_nothing, [[DONE.format("8 of the 66")], [DONE.format("0 of the 66")], []])), "what was kept took no time"
print("gate/test_bodies.py: ok")
