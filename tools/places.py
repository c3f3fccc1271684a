#!/usr/bin/env python3
"""Counts, in the code of every crate, the places that docs/DESIGN-PASS.md speaks of.

    tools/places.py [-v] [TREE]

A line for each kind of place, under the number of its point; with -v the places themselves.
What a pattern finds is a candidate: the page says what became of each.
"""
import difflib
import itertools
import pathlib
import re
import sys

verbose = "-v" in sys.argv[1:]
named = [word for word in sys.argv[1:] if word != "-v"]
tree = pathlib.Path(named[0] if named else pathlib.Path(__file__).parent.parent)
files = sorted(tree.glob("crates/*/src/*.rt"))
texts = {path: path.read_text() for path in files}


def lines_of(pattern):
    """The lines that a pattern finds, clauses and comments left out."""
    found = []
    for path, text in texts.items():
        for number, line in enumerate(text.split("\n"), 1):
            bare = line.split("//")[0]
            if re.search(pattern, bare):
                found.append(f"{path.relative_to(tree)}:{number}: {line.strip()}")
    return found


def items_of(kind):
    """Each enum or struct: where it stands, its name and the lines of its body."""
    for path, text in texts.items():
        head = rf"^(?:pub(?:\(crate\))? )?{kind} (\w+)[^;{{]*\{{\n(.*?)^\}}"
        for match in re.finditer(head, text, re.S | re.M):
            body = [re.sub(r"//.*", "", line).rstrip() for line in match[2].split("\n")]
            body = [line for line in body if line.strip()]
            number = text[: match.start()].count("\n") + 1
            yield f"{path.relative_to(tree)}:{number}", match[1], body


def variants(body):
    """The variants of an enum's body, each with whether it holds something."""
    heads = [re.match(r"    ([A-Z]\w*)( \{|\()?", line) for line in body]
    return [(head[1], bool(head[2])) for head in heads if head]


def option_shaped():
    """Enums of two variants, one of which holds nothing, and those with a case for no value."""
    found = []
    for place, name, body in items_of("enum"):
        shape = variants(body)
        of_two = len(shape) == 2 and [held for _, held in shape].count(False) == 1
        if of_two or any(word in ("Refused", "Unknown") for word, _ in shape):
            found.append(f"{place}: enum {name} {{ {', '.join(word for word, _ in shape)} }}")
    return found


def flagged():
    """Structs that carry a refusal's number, or a flag by which other fields say nothing."""
    return [f"{place}: struct {name}" for place, name, body in items_of("struct")
            if re.search(r"refusal: u8|legal: bool|answer: isize|whole: bool", " ".join(body))]


def functions():
    for path, text in texts.items():
        head = r"^( *)(?:pub(?:\(crate\))? )?fn (\w+)(.*?)^\1\}"
        for match in re.finditer(head, text, re.S | re.M):
            number = text[: match.start()].count("\n") + 1
            code = re.sub(r"(ensures|requires)\b.*?\{.*?\}\n", "", match[3], flags=re.S)
            code = re.sub(r"//.*", "", code)
            yield f"{path.relative_to(tree)}:{number}", match[2], code


def twins():
    """Pairs of functions that are three quarters the same, word by word."""
    shapes = []
    for place, name, code in functions():
        shape = re.findall(r"\w+|[^\w\s]", code[code.find("{\n"):])
        if len(shape) > 40:
            shapes.append((f"{place}: {name}", shape))
    found = []
    for (one, shape), (other, second) in itertools.combinations(shapes, 2):
        alike = difflib.SequenceMatcher(None, shape, second, autojunk=False)
        if alike.real_quick_ratio() > 0.75 and alike.quick_ratio() > 0.75 and alike.ratio() > 0.75:
            found.append(f"{one} ~ {other}")
    return found


COPIES = r"^\s*(\w+): (self|old|core|run|tray|passed|held|message|ring)\.\1,$"
NUMBERS = r"\* (256|65536) \+|num::wrapping_|fn least|left_from\(|% 65536\) as"
points = [
    ("1 enums of the shape of Option or Result", option_shaped()),
    ("1 a refusal's number or a flag beside a value", flagged()),
    ("1 functions that answer a refusal by number",
     lines_of(r"fn \w*(refusal|write)\w*\(.*-> u(8|32)")),
    ("1 refusals and answers tested as numbers",
     lines_of(r"(refusal|number|answer) (!=|==|<) 0|\breturn [1-9];|high: 16|== 16\b")),
    ("2 pairs of functions three quarters the same", twins()),
    ("3 loops that count by hand", lines_of(r"^\s*(while|loop)\b")),
    ("4 predicates written out arm by arm", lines_of(r"=> (true|false),$")),
    ("4 fields copied by hand", lines_of(COPIES)),
    ("4 conversions and limits by hand", lines_of(NUMBERS)),
    ("5 a buffer and a place in it as parameters", lines_of(r"out: &mut \[u8\], at: usize")),
    ("5 the queue's ring and its places apart",
     lines_of(r"places: &(mut )?\[u16; 256\]|ring: Ring")),
    ("6 a buffer with a length beside it",
     lines_of(r"have: usize|\[0; (4096|65536|524288|20|4|2)\]")),
    ("7 a number that picks a step", lines_of(r"^\s*(\d+|b'.') => \w+.*\(.*,$")),
]
for name, found in points:
    print(f"{len(found):4}  {name}")
    if verbose:
        for place in found:
            print(f"        {place}")
