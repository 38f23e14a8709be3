"""Counts what makes the documents hard to read, file by file: sentences above 25 words, table cells above 20 words, and words that the
project replaces by plainer ones.

  tools/prose.py            prints the counts of each file, and the sums
  tools/prose.py FILE..     prints each place in these files, with its line
  tools/prose.py --check    compares the counts with tools/prose.figures: it prints a line for each file that has more, and fails then
  tools/prose.py --write    writes the counts into tools/prose.figures

It reads the documents, the manual pages, and the texts that the program prints, in the sources that hold them. Code font, code blocks and
the programs' own formats don't count. A file that has no line in tools/prose.figures may have nothing that counts. README.md and
CONTRIBUTING.md have a most number of words."""
import glob
import os
import pathlib
import re
import sys

sys.dont_write_bytecode = True
TOP = os.path.dirname(os.path.dirname(os.path.realpath(__file__)))
FIGURES = "tools/prose.figures"
MOST_WORDS_OF_A_SENTENCE, MOST_WORDS_OF_A_CELL = 25, 20
# Pages that are short on purpose, and their most words, with all that is in code font.
MOST_WORDS_OF_A_PAGE = {"README.md": 1000, "CONTRIBUTING.md": 1200}
DOCUMENTS = ["*.md", "docs/**/*.md", "crates/*/*.md", "scenarios/**/*.md", "man/*.[15]"]
# The sources of the texts that the program prints.
PRINTED = [
    *("cmwq_command_line/src/help.rt", "cmwq_language/src/*.rt", "cmwq_advice/src/*.rt", "cmwq_remarks/src/noted.rt", "cmwq_remarks/src/remarked.rt", "cmwq_remarks/src/traps.rt"),
    *("cmwq_debug_lines/src/verb.rt", "cmwq_request/src/*.rt", *(f"cmwq_verdict/src/{name}.rt" for name in ("cures", "hints", "mending", "offers"))),
]
# What stands for a piece in code font. It is no word.
CODE = "§"

# Each word that is replaced, and how it is found.
LISTED = {
    "where": r"where(?!as)\b",
    "in which": r"in which",
    "behind": r"behind",
    "in front of": r"in front of",
    "stands": r"st(?:ands?|ood|anding)(?= (?:for|in|at|on|there|here|behind|before|beside|below|between|to|with|still|alone|over|so|first|last|just|where|of)\b|[.,;:)]|$)",
    "tells": r"(?:tells?|told)",
    "says of": r"sa(?:ys?|id) of",
    "comes to": r"c(?:omes?|ame|oming) (?:to|out as)",
    "asks": r"(?:asks|(?:is|are|was|be) asked|asked (?:of|for))",
    "goes on": r"(?:go|goes|going|went|gets?|got|getting) on",
    "at once": r"at once",
    "takes turns": r"(?:tak(?:es?|ing) turns|by turns|in turns)",
    "but for": r"but for",
    "of which": r"(?:of which|of whom|whose)",
    "just": r"just",
    "a row a work": r"an? (?:row|line|column|letter|mark|cell|second) an? \w+",
    "the same": r"(?<!all )(?<!one after )the (?:same|one|other|others)(?=[.,;:)]|$)",
    "ring": r"rings?",
    "wrong body": r"(?:wrong bod(?:y|ies)|teeth)",
    "aloud": r"aloud",
    "works": r"works",
    "pends": r"(?:pends?|(?:is|are) pending or runs?)",
    "call for memory": r"calls? for memory",
}
LISTED = {word: re.compile(rf"(?<![\w-])(?:{found})(?![\w-])", re.I) for word, found in LISTED.items()}


class Piece:
    """A stretch of text that ends for itself: a paragraph, an item of a list, a cell of a table, a heading."""

    def __init__(self, line, text, is_cell=False):
        self.line, self.text, self.is_cell = line, text, is_cell


def plain(text):
    """The text without code font, links, emphasis and tags."""
    text = re.sub(r"``.+?``|`[^`]*`", CODE, text, flags=re.S)
    text = re.sub(r"<!--.*?-->|</?[a-z]+>", " ", text, flags=re.S)
    text = re.sub(r"!?\[([^\]]*)\]\([^)]*\)", r"\1", text)
    return re.sub(r"[*_]{1,2}(?=\S)|(?<=\S)[*_]{1,2}", "", text)


def pieces_of_markdown(content):
    """The pieces of a page in Markdown. Blocks of code have none."""
    text = re.sub(r"^ *```.*?^ *```$|<!--.*?-->", lambda it: "\n" * it[0].count("\n"), content, flags=re.S | re.M)
    pieces, is_open = [], False
    for number, line in enumerate(text.splitlines(), 1):
        bare = re.sub(r"^\s*(?:[-*]|\d+\.|#+|>) +(?:\[[ x]\] )?", "", line)
        if line.startswith("|"):
            cells = re.split(r"(?<!\\)\|", re.sub(r"``.+?``|`[^`]*`", CODE, line))[1:-1]
            pieces += [Piece(number, cell.strip(), True) for cell in cells if re.search(r"\w", cell)]
            is_open = False
        elif not line.strip():
            is_open = False
        elif is_open and bare == line.strip() and not pieces[-1].is_cell:
            pieces[-1].text += f"\n{bare}"
        else:
            pieces.append(Piece(number, bare))
            is_open = not line.startswith("#")
    return [Piece(it.line, plain(it.text), it.is_cell) for it in pieces]


def roman(line):
    """A line of a manual page, with a sign for each piece in bold or italics."""
    macro, _, rest = line.partition(" ")
    if re.fullmatch(r"\.[BIR]{1,2}", macro):
        words = re.findall(r'"([^"]*)"|(\S+)', rest)
        fonts = macro[1:] * len(words) if len(macro) == 3 else macro[1] * len(words)
        joint = "" if len(macro) == 3 else " "
        return joint.join((a or b) if font == "R" else CODE for font, (a, b) in zip(fonts, words))
    return re.sub(r"\\f[BI].*?\\f[RP]", CODE, line)


def pieces_of_manual(content):
    """The pieces of a manual page. The tag of an item is code."""
    text = re.sub(r"^\.nf$.*?^\.fi$", lambda it: "\n" * it[0].count("\n"), content, flags=re.S | re.M)
    pieces, is_open, is_tag = [], False, False
    for number, line in enumerate(text.splitlines(), 1):
        if re.match(r"\.(TP|SH|SS|PP|IP|br|RS|RE|TH|TQ|\\\")", line):
            is_open, is_tag = False, line.startswith((".TP", ".TQ"))
        elif is_tag:
            is_tag = "\\c" in line
        elif is_open:
            pieces[-1].text += f"\n{roman(line)}"
        elif line.strip():
            pieces.append(Piece(number, roman(line)))
            is_open = True
    return [Piece(it.line, it.text.replace("\\-", "-").replace("\\c", "").replace("\\(dq", '"'), it.is_cell) for it in pieces]


def pieces_of_source(content):
    """The pieces of the texts in a source's quotes: paragraphs, and lines that are set in. A line that begins with the program's name is code."""
    bare = re.sub(r"^\s*//.*$", "", content, flags=re.M)
    pieces = []
    for found in re.finditer(r'"((?:[^"\\]|\\.|\\\n)*)"', bare, re.S):
        number, is_open = bare.count("\n", 0, found.start()) + 1, False
        for line in re.sub(r"\\n(?!\n)", "\n", found[1].replace("\\\n", "\n")).splitlines():
            if not line.strip() or re.match(r"\s*(?:\./)?cmwq ", line):
                is_open = False
            elif is_open and not re.match(r" {2}\S", line):
                pieces[-1].text += f"\n{plain(line)}"
            else:
                pieces.append(Piece(number, plain(line)))
                is_open = True
            number += 1
    return [it for it in pieces if len(words_of(it.text)) > 1]


def words_of(text):
    return re.findall(r"[A-Za-z0-9](?:[\w'’,.:/-]*\w)?", text)


def sentences_of(text):
    """The sentences of a piece. A point behind a letter alone, or in a number, ends none."""
    ready = re.sub(r"\b(e\.g|i\.e|cf|vs)\.", lambda it: it[1].replace(".", ""), text).replace("..", CODE)
    return [it for it in re.split(r"(?<=[.!?])[\"')]*\s+(?=[\"'(]*[A-Z0-9§])", ready) if it.strip()]


def counted(pieces):
    """What counts of these pieces: long sentences, long cells, and listed words, each with its line and what it is."""
    found = {"sentences": [], "cells": [], "words": []}
    for piece in pieces:
        if piece.is_cell and (size := len(words_of(piece.text))) > MOST_WORDS_OF_A_CELL:
            found["cells"].append((piece.line, f"a cell of {size} words: {short(piece.text)}"))
        for sentence in sentences_of(piece.text) if not piece.is_cell else []:
            if (size := len(words_of(sentence))) > MOST_WORDS_OF_A_SENTENCE:
                found["sentences"].append((piece.line, f"a sentence of {size} words: {short(sentence)}"))
        for word, pattern in LISTED.items():
            found["words"] += [(piece.line, f"{word}: .. {short(piece.text[max(it.start() - 20, 0):it.end() + 20])} ..") for it in pattern.finditer(piece.text)]
    return found


def short(text):
    return " ".join(text.split())[:90]


def found_in(path):
    content = pathlib.Path(path).read_text("utf-8")
    reader = {".md": pieces_of_markdown, ".rt": pieces_of_source}.get(os.path.splitext(path)[1], pieces_of_manual)
    return counted(reader(content))


def counts_of(root):
    """The counts of each file, by its path."""
    patterns = DOCUMENTS + [f"crates/{it}" for it in PRINTED]
    paths = sorted({os.path.relpath(path, root) for it in patterns for path in glob.glob(f"{root}/{it}", recursive=True)})
    return {path: tuple(map(len, found_in(f"{root}/{path}").values())) for path in paths}


def figures_of(root):
    """The counts that each file may have, by its path."""
    lines = [line.split() for line in pathlib.Path(root, FIGURES).read_text("utf-8").splitlines() if line and not line.startswith("#")]
    return {path: tuple(map(int, figures)) for path, *figures in lines}


def faults_of(root):
    """A line for each file that has more than its figures, and for each figure of no file."""
    counts, allowed = counts_of(root), figures_of(root)
    faults = [f"{path}: {FIGURES} has it, and it isn't there" for path in sorted(allowed.keys() - counts.keys())]
    for path, found in counts.items():
        most = allowed.get(path, (0, 0, 0))
        more = [f"{now} {what}, and {then} are allowed" for now, then, what in zip(found, most, ("long sentences", "long cells", "listed words")) if now > then]
        faults += [f"{path}: {', '.join(more)}"] if more else []
    sizes = {path: len(pathlib.Path(root, path).read_text("utf-8").split()) for path in MOST_WORDS_OF_A_PAGE if path in counts}
    return faults + [f"{path}: {size} words, and {MOST_WORDS_OF_A_PAGE[path]} are allowed" for path, size in sizes.items() if size > MOST_WORDS_OF_A_PAGE[path]]


def table(counts):
    """The counts as text, with what the columns are."""
    rows = [f"{path} {' '.join(map(str, found))}\n" for path, found in counts.items() if any(found)]
    return f"# file, sentences above {MOST_WORDS_OF_A_SENTENCE} words, cells above {MOST_WORDS_OF_A_CELL} words, words that are replaced\n{''.join(rows)}"


def main(*words):
    if words == ("--check",):
        faults = faults_of(TOP)
        print("".join(f"prose: {fault}\n" for fault in faults), end="")
        return 1 if faults else 0
    if words == ("--write",):
        pathlib.Path(TOP, FIGURES).write_text(table(counts_of(TOP)), "utf-8")
        return 0
    if words:
        print("".join(f"{path}:{line}: {what}\n" for path in words for found in found_in(path).values() for line, what in sorted(found)), end="")
        return 0
    counts = counts_of(TOP)
    print(table(counts) + f"# in all {' '.join(str(sum(column)) for column in zip(*counts.values()))}")
    return 0


if __name__ == "__main__":
    sys.exit(main(*sys.argv[1:]))
