"""A test of `tools/documents.py --page`: what it prints of a crate's functions, clauses and must-fail edits."""
import os
import subprocess
import sys
import tempfile

sys.dont_write_bytecode = True
TOP = os.path.dirname(os.path.dirname(os.path.realpath(__file__)))
sys.path.insert(0, f"{TOP}/tools")
import documents

FILES = {
    "crates/low/src/lib.rt": "//! The lowest crate.\n//!\n//! Proved: `rise` rises.\n#![tactic(auto)]\n\nmod high;\n",
    "crates/low/src/high.rt": """\
/// Rises.
pub fn rise(by: u8) -> u8
    requires room { by < 9 }
    ensures risen { result > by }
    ensures { result < 10 }
{
    by + 1
}

fn helped(by: u8) -> u8
    ensures risen { result > by }
{
    by + 1
}

fn lonely() {}

pub trait Rise: Drop {
    fn rise(&self) -> u8
        ensures high { result > 1 };
}

impl<T: Rise> Rise for Box<T> {
    fn rise(&self) -> u8 {
        2
    }
}

impl Low {
    pub fn rise(&self) -> u8 {
        3
    }
}
""",
    "crates/low/must-fail/rise.it_falls.edit": "file: src/high.rt\nold:     by + 1\nnew:     by - 1\n",
    "crates/low/must-fail/rise.the_box_is_low.edit": "file: src/high.rt\nold:         2\nnew:         1\n",
    "crates/low/must-fail/helped.it_stays.edit": "file: src/lib.rt\nold: mod high;\nnew: pub mod high;\nfile: src/high.rt\nold: by + 1\nnew: by\n",
    "crates/low/must-fail/nine.it_is_ten.edit": "file: specs/Low.antt\nold: nine = 9\nnew: nine = 10\n",
}
PAGE = """\
# low

The lowest crate.

Proved: `rise` rises.

## Functions

### `rise`, `src/high.rt`

- requires: `room`
- ensures: `risen`, one without a name
- `it_falls`: in `src/high.rt` `` by + 1 `` becomes `` by - 1 ``

### `helped`, `src/high.rt`, not public

- ensures: `risen`
- `it_stays`: in `src/lib.rt` `` mod high; `` becomes `` pub mod high; ``; in `src/high.rt` `` by + 1 `` becomes `` by ``

### `rise` of `Rise`, `src/high.rt`

- ensures: `high`

### `rise` of `Rise for Box<T>`, `src/high.rt`

- `the_box_is_low`: in `src/high.rt` `` 2 `` becomes `` 1 ``

### `rise` of `Low`, `src/high.rt`


## Edits of definitions and constants

- `nine.it_is_ten`: in `specs/Low.antt` `` nine = 9 `` becomes `` nine = 10 ``"""


def printing():
    """Each public function has its clauses and its edits; another one is there if it has an edit. Each edit is there once."""
    with tempfile.TemporaryDirectory() as room:
        for path, text in FILES.items():
            os.makedirs(os.path.dirname(f"{room}/{path}"), exist_ok=True)
            with open(f"{room}/{path}", "w", encoding="utf-8") as it:
                it.write(text)
        assert "\n".join(documents.page_rows(room, "low")) == PAGE, "\n".join(documents.page_rows(room, "low"))


def ending():
    """With the name of a crate the status is 0, with another word 1, and a line says so. No edit of the tree is left out."""
    for name, status, begins in [("cmwq_lock", 0, "# cmwq_lock\n"), ("cmwq_loch", 1, "documents: crates/ has no cmwq_loch\n")]:
        ran = subprocess.run([sys.executable, f"{TOP}/tools/documents.py", "--page", name], stdout=subprocess.PIPE, text=True)
        assert ran.returncode == status and ran.stdout.startswith(begins), ran
    for name in os.listdir(f"{TOP}/crates"):
        told = sum(row.startswith("- `") for row in documents.page_rows(TOP, name))
        assert told == len(documents.edits_of(f"{TOP}/crates/{name}")), name


printing()
ending()
print("gate/test_documents.py: ok")
