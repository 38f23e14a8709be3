"""A test of `tools/prose.py`: what it counts in pages, manual pages and sources, and when it fails."""
import os
import subprocess
import sys
import tempfile

sys.dont_write_bytecode = True
TOP = os.path.dirname(os.path.dirname(os.path.realpath(__file__)))
sys.path.insert(0, f"{TOP}/tools")
import prose

LONG = "One two three four five six seven eight nine ten one two three four five six seven eight nine ten one two three four five"
PAGE = f"""# A heading of a page

{LONG}. Next one.

- {LONG} six.
- An item, `where` in code font, and
  its second line: somewhere.

```text
{LONG} six, behind a block of code, which stands where nothing counts.
```

1. An item
   ```
   where
   ```
   that continues.

| Word | Cell |
|---|---|
| `{LONG}` | {LONG[:95]} |
| one | {LONG[:95]} one |

It runs behind the pool, at once. Two works wait; the hashes `#` don't.
[A link](where.md) of {LONG[:80]} `code` one `code` two.
"""
MANUAL = f""".TH PAGE 1
.SH NAME
page \\- a page
.TP
.BI where " FILE"
It is behind
.IR FILE ,
where
.B where
stands.
.nf
where behind
.fi
.PP
{LONG}
.B six
six.
"""
SOURCE = f"""// where a comment stands behind
const TEXT: &str = "\\
Prints a line where nothing is.
  cmwq where behind
  0  {LONG} six";
"""


def lines_of(pieces):
    return {kind: [(line, what.partition(":")[0]) for line, what in found] for kind, found in prose.counted(pieces).items()}


def counting():
    found = lines_of(prose.pieces_of_markdown(PAGE))
    assert found["sentences"] == [(5, "a sentence of 26 words")], found["sentences"]
    assert found["cells"] == [(22, "a cell of 21 words")], found["cells"]
    assert sorted(found["words"]) == [(24, "at once"), (24, "behind"), (24, "works")], found["words"]
    found = lines_of(prose.pieces_of_manual(MANUAL))
    assert found["sentences"] == [(15, "a sentence of 26 words")], found["sentences"]
    assert sorted(found["words"]) == [(6, "behind"), (6, "stands"), (6, "where")], found["words"]
    found = lines_of(prose.pieces_of_source(SOURCE))
    assert found["sentences"] == [(5, "a sentence of 27 words")], found["sentences"]
    assert found["words"] == [(3, "where")], found["words"]


def checking():
    """The figures are a most: a file that has as much is good, one that has more isn't, nor is one without a line that has anything."""
    with tempfile.TemporaryDirectory() as room:
        for path, text in {"docs/PAGE.md": PAGE, "man/page.1": MANUAL, "docs/CLEAN.md": "Short. Plain.\n"}.items():
            os.makedirs(os.path.dirname(f"{room}/{path}"), exist_ok=True)
            with open(f"{room}/{path}", "w", encoding="utf-8") as it:
                it.write(text)
        os.makedirs(f"{room}/tools")

        def faults(figures):
            with open(f"{room}/{prose.FIGURES}", "w", encoding="utf-8") as it:
                it.write(f"# a comment\n{figures}")
            return prose.faults_of(room)

        good = "docs/PAGE.md 1 1 3\nman/page.1 1 0 3\n"
        assert prose.table(prose.counts_of(room)).partition("\n")[2] == good
        assert not faults(good) and not faults(good.replace("1 0 3", "2 1 9"))
        assert faults(good.replace("1 1 3", "0 1 2")) == ["docs/PAGE.md: 1 long sentences, and 0 are allowed, 3 listed words, and 2 are allowed"]
        for size, wanted in [(1000, []), (1001, ["README.md: 1001 words, and 1000 are allowed"])]:
            with open(f"{room}/README.md", "w", encoding="utf-8") as it:
                it.write("Word.\n" * size)
            assert faults(good) == wanted, size
        assert len(faults("")) == 3 and faults(f"{good}docs/GONE.md 1 0 0\n")[0] == "docs/GONE.md: tools/prose.figures has it, and it isn't there"


def ending():
    """With `--check` the status is 1 if a file has more, and a line says so."""
    with tempfile.TemporaryDirectory() as room:
        os.makedirs(f"{room}/tools")
        for path, text in {"PAGE.md": PAGE, "tools/prose.py": open(prose.__file__, encoding="utf-8").read()}.items():
            with open(f"{room}/{path}", "w", encoding="utf-8") as it:
                it.write(text)
        for figures, status, lines in [("PAGE.md 1 1 3\n", 0, 0), ("PAGE.md 1 1 2\n", 1, 1)]:
            with open(f"{room}/{prose.FIGURES}", "w", encoding="utf-8") as it:
                it.write(figures)
            ran = subprocess.run([sys.executable, f"{room}/tools/prose.py", "--check"], stdout=subprocess.PIPE, text=True)
            assert (ran.returncode, ran.stdout.count("\n")) == (status, lines), ran


counting()
checking()
ending()
print("gate/test_prose.py: ok")
