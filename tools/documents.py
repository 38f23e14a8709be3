"""Writes what documents compute from the tree, or says what in them isn't so.

  tools/documents.py                writes it
  tools/documents.py --check        compares, and says which document isn't as computed
  tools/documents.py --page CRATE   prints a page on a crate: its public functions with their clauses, and its must-fail edits

In docs/MAP.md the crates by storeys, from crates.txt and the first paragraph of each crate's root file; in docs/MODEL.md the definitions
that some public contracts cite, as far as these go, with their files and lines; in docs/PROVED.md what is proved of each crate, from the
lines `//! Proved: ..` and `//! Not proved: ..` of its root file. Each is between two comments. And it follows the links of the documents."""
import glob
import os
import pathlib
import re
import sys

sys.dont_write_bytecode = True
TOP = os.path.dirname(os.path.dirname(os.path.realpath(__file__)))

# What is promised, in words, and the functions whose contracts say it: a source file, and a name.
PROMISES = [
    ("`cmwq run`", [("cmwq_play/src/running.rt", "run")]),
    ("`cmwq asm`", [("cmwq_play/src/images.rt", "to_image")]),
    ("`cmwq debug`", [("cmwq_debug_session/src/debugging.rt", "debug")]),
    ("`cmwq play`", [("cmwq_interleaving/src/playing.rt", "play")]),
    ("`cmwq why`", [("cmwq_explain/src/explaining.rt", "why")]),
    ("`cmwq draw`", [("cmwq_draw/src/drawing_run.rt", "draw")]),
    ("`cmwq times`", [("cmwq_times/src/timing.rt", "times"), ("cmwq_sweep/src/sweeping.rt", "sweep")]),
    ("`cmwq trace`", [("cmwq_trace/src/json_trace.rt", "trace_json"), ("cmwq_trace/src/line_trace.rt", "trace_lines"),
                      ("cmwq_kernel_trace/src/text_trace.rt", "trace_text"), ("cmwq_kernel_trace/src/data_trace.rt", "trace_dat")]),
    ("`cmwq explore`", [("cmwq_explored/src/exploring.rt", "explore")]),
    ("`cmwq check`", [("cmwq_verdict/src/verdicts.rt", "verdict")]),
    ("the lock", [("cmwq_lock/src/lock.rt", "")]),
]
BEGINS = re.compile(r"^\s*(?:(?:abbrev|unfoldable|opaque|pub)\s+)*(?:record\s+|data\s+)?([^\s:(){},]+)\s*(?:[({].*)?:(?:\s|$)")
# A line on what is proved of a crate, or what isn't.
CLAIM = re.compile(r"(Proved|Not proved): (.+)")
# The head of a function, with its name; of a trait or of a type's functions, with the trait's name and the type's; a clause.
HEAD = re.compile(r"^( *)(pub )?(?:pub\(\w+\) )?(?:const |unsafe )*fn (\w+)", re.M)
OWNER = re.compile(r"^(?:pub\(\w+\) )?(pub trait|trait|impl(?:<.*?>)?) (?:(\S.*?) for )?(.+?)(?: \{)?$", re.M)
CLAUSE = re.compile(r"^ *(requires|ensures)(?: (\w+))? \{", re.M)
IMPORT = re.compile(r"^\s*(?:pub )?(?:ghost )?use Rattle\.([\w.]+?)(?:\.\{(.*?)\}| as (\w+));?\s*$")


class Module:
    """A file of definitions: each one's lines by its name, and what the file's names stand for."""

    def __init__(self, path):
        self.path, self.blocks, self.names = path, {}, {}
        current = None
        for line in pathlib.Path(path).read_text("utf-8").splitlines():
            found, begins = IMPORT.match(line), BEGINS.match(line)
            if found:
                self.names.update(imported(found))
            elif not line.strip():
                current = None
            elif begins and re.match(r"\s*(abbrev|unfoldable|opaque|pub|record|data)\b", line) and not self.is_field(current, line):
                current = begins[1]
                self.blocks[current] = [line]
            elif current and not line.strip().startswith("--"):
                self.blocks[current].append(line)

    def is_field(self, current, line):
        """Whether the line is a field of the record, or a constructor of the data, that it stands in."""
        head = self.blocks[current][0] if current else ""
        return bool(re.match(r"\s*(?:pub )?(?:record|data)\b", head)) and len(line) - len(line.lstrip()) > len(head) - len(head.lstrip())


def imported(found):
    """The names that an import brings, each with its module and its name there; of a whole module, its name and a dot."""
    module, names, alias = found.groups()
    if alias:
        return {f"{alias}.": (module, None)}
    pairs = [(it.strip().split(" as ")[-1], it.strip().split(" as ")[0]) for it in names.split(",")]
    return {here: (module, there) for here, there in pairs}


def cited(text, names, module, own=()):
    """The definitions that a text names."""
    plain = re.sub(r'"[^"]*"', "", text)
    for word in set(re.findall(r"[\w\-']+\.?(?=\w)?|◌\S+|[^\s\w(){},.;]+", plain)):
        if word in own:
            yield module, word
        elif word in names:
            yield names[word]


def modules_of(root):
    paths = glob.glob(f"{root}/crates/*/specs/**/*.antt", recursive=True)
    named = {path: f"{path.split('/specs/')[0].split('/')[-1]}.specs.{path.split('/specs/')[1][:-5].replace('/', '.')}" for path in paths}
    return {named[path]: Module(path) for path in sorted(paths)}


def contract_of(root, path, function):
    """The clauses of a public function, or of all of a file, with what its names stand for."""
    text = pathlib.Path(root, "crates", path).read_text("utf-8")
    names = {}
    for line in text.splitlines():
        if found := IMPORT.match(line):
            names.update(imported(found))
    parts = re.split(r"^(?=\s*pub fn )", text, flags=re.M)
    wanted = [part for part in parts[1:] if not function or re.match(rf"\s*pub fn {function}\b", part)]
    clauses = [clause for part in wanted for clause in re.findall(r"^\s*(?:ensures|requires) .*$", part.split("\n{\n")[0], re.M)]
    return "\n".join(clauses), names


def road(root, modules, functions):
    """The definitions that these functions' contracts cite, and what these cite in turn; and what of src/ they name."""
    todo = [it for path, function in functions for text, names in [contract_of(root, path, function)] for it in cited(text, names, "")]
    seen, declared = set(), set()
    while todo:
        module, name = todo.pop()
        if ".specs.declared." in module:
            declared.add(module.replace(".specs.declared.", "/src/").split(".")[0])
        if module not in modules or name not in modules[module].blocks or (module, name) in seen:
            continue
        seen.add((module, name))
        here = modules[module]
        todo.extend(cited("\n".join(here.blocks[name]), here.names, module, here.blocks))
    return seen, declared


def road_rows(root):
    """A row for each promise. Files that the first one's row has aren't named again."""
    modules, first = modules_of(root), None
    rows = ["| Promise | Definitions, lines | Their files in `specs/` | Files of `src/` with types and constants that they name |", "|---|---|---|---|"]
    for what, functions in PROMISES:
        seen, declared = road(root, modules, functions)
        files, lines = {module for module, _ in seen}, sum(len(modules[module].blocks[name]) for module, name in seen)
        new = sorted(files | declared if first is None else (files | declared) - first)
        cells = [grouped(it for it in new if (".specs." in it) == is_spec) for is_spec in (True, False)]
        rest = [f"; {len(kind & first)} of the first row's" if first and kind & first else "" for kind in (files, declared)]
        rows.append(f"| {what} | {len(seen)}, {lines} | {cells[0]}{rest[0]} | {cells[1]}{rest[1]} |")
        first = files | declared if first is None else first
    return rows


def grouped(paths):
    """Files, crate by crate."""
    crates = {}
    for path in paths:
        crate, file = re.split(r"\.specs\.|/src/", path)
        crates.setdefault(crate, []).append(f"`{file}`")
    return "; ".join(f"{crate}: {', '.join(names)}" for crate, names in crates.items())


def map_rows(root):
    """The crates, storey by storey, each with the first paragraph of its root file."""
    rows = []
    for line in pathlib.Path(root, "crates.txt").read_text("utf-8").splitlines():
        if line.startswith("# "):
            rows += ["", f"### {line[2:]}", ""]
        elif line.strip():
            name = line.split(":")[0].split()[0]
            head = re.match(r"((?://! .*\n)+)", root_file(root, name))[1]
            lines = [it[4:] for it in head.splitlines() if not CLAIM.match(it[4:])]
            rows.append(f"- `{name}`. {' '.join(lines)}")
    return rows[1:]


def root_file(root, name):
    """Returns the text of a crate's root file."""
    source = next(path for path in (f"{root}/crates/{name}/src/{it}.rt" for it in ("lib", "main")) if os.path.exists(path))
    return pathlib.Path(source).read_text("utf-8")


def claims_of(root, name):
    """Returns what a crate's root file says is proved, and isn't."""
    return [line[4:] for line in root_file(root, name).splitlines() if line.startswith("//! ") and CLAIM.match(line[4:])]


def proved_rows(root):
    """The crates, storey by storey, each with what is proved of it."""
    rows = []
    for line in pathlib.Path(root, "crates.txt").read_text("utf-8").splitlines():
        if line.startswith("# "):
            rows += ["", f"## {line[2:]}", ""]
        elif line.strip():
            name = line.split(":")[0].split()[0]
            claims = [f"*{found[1]}:* {found[2]}" for found in map(CLAIM.match, claims_of(root, name))]
            rows.append(f"- `{name}`. {' '.join(claims)}")
    return rows[1:]


def claim_faults(root):
    """The crates whose root file has no line on what is proved of it."""
    names = [line.split(":")[0].split()[0] for line in pathlib.Path(root, "crates.txt").read_text("utf-8").splitlines() if line.strip() and line[0] != "#"]
    return [f"{name}: its root file should say what is proved of it" for name in names if not claims_of(root, name)]


def lost_steps(root):
    """The functions that docs/MAP.md names and that aren't in the file beside them."""
    rows = re.findall(r"^\| `(\w+/src/\w+\.rt)`: (.*?) \|", pathlib.Path(root, "docs/MAP.md").read_text("utf-8"), re.M)
    sources = [(path, pathlib.Path(root, "crates", path).read_text("utf-8"), re.findall(r"`(\w+)`", names)) for path, names in rows]
    return [f"docs/MAP.md: {path} has no `{name}`" for path, text, names in sources for name in names if not re.search(rf"\bfn {name}\b", text)]


def anchors(text):
    """Returns the anchors of a page's headings, as viewers of Markdown make them."""
    plain = re.sub(r"^```.*?^```$", "", text, flags=re.S | re.M)
    found, seen = set(), {}
    for heading in re.findall(r"^#+ (.*)$", plain, re.M):
        name = re.sub(r"[^\w -]", "", heading.lower()).replace(" ", "-")
        found.add(f"{name}-{seen[name]}" if name in seen else name)
        seen[name] = seen.get(name, 0) + 1
    return found


def lost_links(root):
    """The links of the documents that lead to no file or to no heading."""
    paths = [path for it in ("*.md", "docs/**/*.md", "crates/*/*.md", "scenarios/**/*.md") for path in glob.glob(f"{root}/{it}", recursive=True)]
    faults, pages = [], {path: pathlib.Path(path).read_text("utf-8") for path in paths}
    for page, text in sorted(pages.items()):
        for link in re.findall(r"\]\((?!https?:)([^)\s]+)\)", re.sub(r"^```.*?^```$|`[^`\n]*`", "", text, flags=re.S | re.M)):
            file, _, anchor = link.partition("#")
            path = os.path.normpath(f"{os.path.dirname(page)}/{file}") if file else page
            if not os.path.exists(path) or anchor and anchor not in anchors(pages.get(path, "")):
                faults.append(f"{os.path.relpath(page, root)}: the link {link} leads nowhere")
    return faults


def functions_of(folder):
    """Yields the functions of a crate's sources: file, trait or type, name, whether it is public (None of a trait's function for a type), and its text."""
    for path in sorted(glob.glob(f"{folder}/src/**/*.rt", recursive=True)):
        text = pathlib.Path(path).read_text("utf-8")
        heads = list(HEAD.finditer(text))
        for head, end in zip(heads, [it.start() for it in heads[1:]] + [len(text)]):
            owners = OWNER.findall(text[:head.start()]) if head[1] else []
            kind, trait, owner = owners[-1] if owners else ("", "", "")
            is_public = None if trait else bool(head[2]) or kind == "pub trait"
            owner = re.sub(r": [^<>,]+", "", f"{trait} for {owner}" if trait else owner)
            yield os.path.relpath(path, folder), owner, head[3], is_public, text[head.start():end]


def edits_of(folder):
    """Returns the must-fail edits of a crate: the function, what is wrong, and in which file which text becomes which."""
    found = []
    for path in sorted(glob.glob(f"{folder}/must-fail/*.edit")):
        pairs, file = [], ""
        for word, _, text in (line.partition(":") for line in pathlib.Path(path).read_text("utf-8").splitlines()):
            file = text.strip() if word == "file" else file
            pairs += [[file, text.strip()]] if word == "old" else []
            pairs[-1:] = [[*pairs[-1], text.strip()]] if word == "new" else pairs[-1:]
        found.append((*os.path.basename(path).removesuffix(".edit").split(".", 1), pairs))
    return found


def edit_row(what, pairs):
    """Returns the line of a must-fail edit."""
    return f"- `{what}`: {'; '.join(f'in `{file}` `` {old} `` becomes `` {new} ``' for file, old, new in pairs)}"


def page_rows(root, name):
    """Returns the page of a crate: what its root file says, its functions that are public or have edits, and the other edits."""
    folder, every = f"{root}/crates/{name}", list(functions_of(f"{root}/crates/{name}"))
    head = re.match(r"((?://!.*\n)+)", root_file(root, name))[1]
    rows, left = [f"# {name}", "", *(line[4:] for line in head.splitlines()), "", "## Functions"], edits_of(folder)
    for file, owner, function, is_public, text in every:
        is_only = [it[0::2][:2] for it in every].count((file, function)) == 1
        mine = [it for it in left if it[0] == function and any(path == file and (is_only or old in text) for path, old, _ in it[2])]
        left = [it for it in left if it not in mine]
        names = {kind: [f"`{clause}`" if clause else "one without a name" for word, clause in CLAUSE.findall(text) if word == kind] for kind in ("requires", "ensures")}
        if is_public or mine or is_public is None and any(names.values()):
            rows += ["", f"### `{function}`{f' of `{owner}`' if owner else ''}, `{file}`{', not public' if is_public is False else ''}", ""]
            rows += [f"- {kind}: {', '.join(clauses)}" for kind, clauses in names.items() if clauses] + [edit_row(what, pairs) for _, what, pairs in mine]
    return rows + ["", "## Edits of definitions and constants", ""] + [edit_row(f"{function}.{what}", pairs) for function, what, pairs in left]


def computed(root):
    """Each document's path, the word that its comments have, and what should stand between them."""
    return [("docs/MAP.md", "crates", map_rows(root)), ("docs/MODEL.md", "road", road_rows(root)), ("docs/PROVED.md", "proved", proved_rows(root))]


def main(*words):
    if words[:1] == ("--page",) and len(words) == 2:
        is_there = os.path.isdir(f"{TOP}/crates/{words[1]}/src")
        print("\n".join(page_rows(TOP, words[1])) if is_there else f"documents: crates/ has no {words[1]}")
        return 0 if is_there else 1
    faults = lost_steps(TOP) + lost_links(TOP) + claim_faults(TOP)
    for path, word, rows in computed(TOP):
        text = pathlib.Path(TOP, path).read_text("utf-8")
        made = re.sub(rf"(<!-- {word}: .*-->\n)(?:.*\n)*?(<!-- end -->)", lambda it: it[1] + "\n".join(["", *rows, "", ""]) + it[2], text)
        if made != text and words == ("--check",):
            faults.append(f"{path} isn't as computed: run tools/documents.py")
        elif made != text:
            pathlib.Path(TOP, path).write_text(made, "utf-8")
    print("".join(f"documents: {fault}\n" for fault in faults), end="")
    return 1 if faults else 0


if __name__ == "__main__":
    sys.exit(main(*sys.argv[1:]))
