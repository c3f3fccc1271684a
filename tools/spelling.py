#!/usr/bin/env python3
"""Spells the repository's own names as today's Rattle does: words of definitions, lemmas and fields
are joined by underscores. Run it once, behind the kit's own script. The table beside it has a line
for each name: old, a tab, new. Functions of the code, strings, inputs and outputs keep their names.
In a crate's file Determined a theorem has the name of its function, so it gets no ending there."""

import pathlib
import re

ROOT = pathlib.Path(__file__).resolve().parent.parent
TABLE = dict(line.split("\t") for line in
             (ROOT / "tools" / "spelling.tsv").read_text().splitlines())

# names that have today's spelling already, and would now be another's in the same file
MET = {
    "pieces/proofs/LineLaws.antt": {"end_line": "end_line_lem"},
    "controller/proofs/HeardLaws.antt": {"goes_on": "goes_on_lem"},
    "actions/proofs/ActionLaws.antt": {"in_order": "ordered"},
    "tray_laws/proofs/ByActions.antt": {"in_order": "ordered"},
    "monitor/proofs/WordLaws.antt": {"stored_back": "stored_back_lem"},
    "watch/proofs/HeardLaws.antt": {"heard_all": "heard_all_lem"},
    "watch/proofs/TurnLaws.antt": {"heard_all": "heard_all_lem"},
}

# a name as antt cuts words
NAME = r'[^\s(){}.;,@"«»\[\]\\:=λ→|`/]+'
COMMENT = re.compile(r"--[^\n]*")
SPAN = re.compile(r"`[^`\n]+`")
GHOST = re.compile(r"ghost use\b[^;]*;|\b(?:requires|ensures)\b[^{]*\{[^}]*\}")
QUOTED = re.compile(r'"(?:\\.|[^"\\\n])*"')
STATED = re.compile(r"(\b[a-z_]+/(?:[A-Za-z0-9]+/)*)([A-Za-z0-9]+)\.(" + NAME + ")")


def spelled(name, determined):
    """The new spelling of a name, or the name itself."""
    new = TABLE.get(name, name)
    return name.replace("-", "_") if determined and new.endswith("_lem") else new


def is_humped(name):
    return name in TABLE and "-" not in name


def names(text, determined, humped=False):
    """The text with each name spelled anew; or those alone that have a capital within."""
    def one(match):
        word = match[0]
        return word if humped and not is_humped(word) else spelled(word, determined)
    return re.sub(NAME, one, text)


def remark(text, determined):
    """A comment: names with a capital, and any name between backticks."""
    text = SPAN.sub(lambda span: names(span[0], determined), text)
    return names(text, determined, humped=True)


def of_antt(text, determined):
    parts, at = [], 0
    for comment in COMMENT.finditer(text):
        parts.append(names(text[at:comment.start()], determined))
        parts.append(remark(comment[0], determined))
        at = comment.end()
    return "".join(parts) + names(text[at:], determined)


def of_code(text):
    """Code: clauses and ghost items, and names with a capital in remarks."""
    text = GHOST.sub(lambda part: names(part[0], False), text)
    parts, at = [], 0
    for quoted in QUOTED.finditer(text):
        parts += [names(text[at:quoted.start()], False, humped=True), quoted[0]]
        at = quoted.end()
    return "".join(parts) + names(text[at:], False, humped=True)


def of_edit(text):
    determined = "Determined.antt" in text
    return "".join(of_antt(line, determined) if line.startswith(("old:", "new:")) else line
                   for line in text.splitlines(keepends=True))


def of_page(text):
    """A document: names between backticks, a theorem where its file stands before it."""
    def span(match):
        part = STATED.sub(
            lambda stated: f"{stated[1]}{stated[2]}."
            + spelled(stated[3], stated[2] == "Determined"), match[0])
        return names(part, False, humped=True)
    return SPAN.sub(span, text)


def main():
    for path in sorted((ROOT / "crates").rglob("*")):
        if "out" in path.parts or not path.is_file():
            continue
        turn = {".antt": lambda text: of_antt(text, path.stem == "Determined"),
                ".rt": of_code, ".edit": of_edit}.get(path.suffix)
        if turn:
            text = path.read_text()
            for old, new in MET.get("/".join(path.parts[-3:]), {}).items():
                text = re.sub(rf"(?<![\w-]){old}(?![\w-])", new, text)
            path.write_text(turn(text))
    for path in [ROOT / "README.md", *sorted((ROOT / "docs").rglob("*.md"))]:
        path.write_text(of_page(path.read_text()))


if __name__ == "__main__":
    main()
