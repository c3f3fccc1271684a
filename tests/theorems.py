#!/usr/bin/env python3
"""The names of docs/THEOREMS.md against the crates: every definition, theorem, function and row of
the program `vectors` stands where the page says, every path is there, and every public function and
every must-fail edit is on the page, an edit by its name alone. A public function has a contract and
requires nothing, and an edit changes no proof. Leaves 1 on a difference."""

import pathlib
import re
import sys

ROOT = pathlib.Path(__file__).resolve().parent.parent
CRATES = ROOT / "crates"
PAGE = ROOT / "docs" / "THEOREMS.md"

# what stands between backticks: `card/Memory.wordAddress`, `card::place::word_address`, a path
STATED = re.compile(r"^([a-z_]+)/((?:[A-Za-z0-9]+/)*[A-Za-z0-9]+)\.([^\s.]+)$")
CODED = re.compile(r"^([a-z_]+)::((?:\w+::)*)(\w+)$")
# .. a row of `vectors` by its group and title, `vectors: words/a third word is 4`
ROW = re.compile(r"^vectors: (.+)$")
# .. or words of the language, the parts that every crate has, and the command that proves them
PLAIN = {"u8", "u16", "pub", "requires", "main", "specs/", "proofs/", "must-fail/", "rt ci"}
TYPE = re.compile(r"^pub (?:struct|enum) (\w+)", re.MULTILINE)
FUNCTION = re.compile(r'^(\s*)(?:(pub )|pub\(crate\) )?(?:extern "C" )?fn (\w+)', re.MULTILINE)
# a public function up to its first brace: with a contract that is the one behind `ensures`
SIGNATURE = re.compile(r'^\s*pub (?:extern "C" )?fn (\w+)([^{]*)\{', re.MULTILINE)
BLOCK = re.compile(r"^impl(?:<[^>]*>)? (\w+)(?:<[^>]*>)? \{$(.*?)^\}$", re.MULTILINE | re.DOTALL)


def stated(crate, file, name):
    """Whether a file of the crate's specs or proofs has the definition or theorem."""
    line = re.compile(r"^ *(?:unfoldable |abbrev )?(?:pub )?(?:data |record )?"
                      + re.escape(name) + r"(?=[ :]|$)", re.MULTILINE)
    texts = (CRATES / crate / part / f"{file}.antt" for part in ("specs", "proofs"))
    return any(path.exists() and line.search(path.read_text()) for path in texts)


def functions(crate):
    """The crate's functions and public types: module, type or none, name, whether it is a public
    function."""
    for path in sorted((CRATES / crate / "src").rglob("*.rt")):
        text = path.read_text()
        for name in TYPE.findall(text):
            yield path.stem, None, name, False
        for block in BLOCK.finditer(text):
            for _, public, name in FUNCTION.findall(block[2]):
                yield path.stem, block[1], name, bool(public)
        for _, public, name in FUNCTION.findall(BLOCK.sub("", text)):
            yield path.stem, None, name, bool(public)


def coded(crate, places, name):
    """What such a path names in the crate: by module, by type, or by neither."""
    wanted = [place for place in places.split("::") if place]
    return [found for found in functions(crate)
            if found[2] == name and all(place in found[:2] for place in wanted)
            and (wanted or found[0] in ("lib", "main"))]


def rows():
    """The rows of `vectors`, by group and title. A recording is named by what stands behind its
    star, a call by the remark above it."""
    names = set()
    text = (CRATES / "vectors" / "stdin").read_text()
    for group in re.split(r"^@", text, flags=re.MULTILINE)[1:]:
        kind, name = re.match(r"(.) (.*)", group).groups()
        titles = re.findall(r"^\* (.*)" if kind in "rR" else r"^# (.*)", group, re.MULTILINE)
        names |= {f"{name}/{title}" for title in titles}
    return names


def main():
    tokens = set(re.findall(r"`([^`\n]+)`", PAGE.read_text()))
    crates = {path.name for path in CRATES.iterdir()}
    edits = {path.stem: path for path in CRATES.glob("*/must-fail/*.edit")}
    cases = rows()
    wrong, named = [], set()
    for token in sorted(tokens):
        if token in crates | PLAIN | set(edits) or (ROOT / token).exists():
            right = True
        elif match := ROW.match(token):
            right = match[1] in cases
        elif match := STATED.match(token):
            right = match[1] in crates and stated(*match.groups())
        elif match := CODED.match(token):
            found = coded(*match.groups()) if match[1] in crates else []
            named |= {(match[1], *function) for function in found}
            right = bool(found)
        else:
            right = False
        if not right:
            wrong.append(f"{token} is not there")
    for crate in sorted(crates):
        wrong += [f"{crate}::{kind or module}::{name} is public and not on the page"
                  for module, kind, name, public in functions(crate)
                  if public and (crate, module, kind, name, public) not in named]
    wrong += [f"{path.relative_to(ROOT)} is not on the page"
              for name, path in sorted(edits.items()) if name not in tokens]
    wrong += [f"{path.relative_to(ROOT)} changes a proof"
              for path in sorted(edits.values()) if "\nfile: proofs/" in path.read_text()]
    wrong += [f"{path.relative_to(ROOT)}: {name} has no contract, or requires something"
              for path in sorted(CRATES.glob("*/src/*.rt"))
              for name, until in SIGNATURE.findall(path.read_text())
              if not re.search(r"ensures(?: \w+)?$", until.rstrip())]
    for line in wrong:
        print(f"FAILED THEOREMS: {line}")
    print(f"THEOREMS: {len(tokens)} names, {len(wrong)} wrong")
    return 1 if wrong or not tokens else 0


if __name__ == "__main__":
    sys.exit(main())
