#!/usr/bin/env python3
"""Counts, in crates/*/src, the places that docs/DESIGN-PASS.md speaks of: a row for each of its points 1 to 8, and with --list every place.

It goes by text alone. A place counts as kept where a comment says 'Stays:' on its line, right above it or above the function or type that it
stands in, or 'Stays here:' at the head of its file.

    tools/design_count.py [--list] [FOLDER]
"""

from __future__ import annotations

import re
import sys
from collections import Counter, defaultdict
from pathlib import Path

NAME = r"[A-Za-z_]\w*"
FUNCTION = re.compile(rf"^( *)(?:pub )?(?:extern \"C\" )?fn ({NAME})(?:<[^>]*>)?\(((?:[^()]|\([^()]*\))*)\)([^{{]*?)(?=\n *(?:requires|ensures)|\s*\{{)", re.M)
ENUM = re.compile(rf"^(?:pub )?enum ({NAME}) \{{\n(.*?)^\}}", re.M | re.S)
STRUCT = re.compile(rf"^(?:pub )?struct ({NAME})[^{{;\n]* \{{\n(.*?)^\}}", re.M | re.S)
LOOP = re.compile(r"^ *(?:'\w+: )?(?:while|loop)\b", re.M)
FIELDS = re.compile(r"(?:^ *(\w+): \w+(?:\.\w+)*\.\1,\n){3,}", re.M)
CLAUSE = re.compile(r"^ *(?:requires|ensures)(?: \w+)? \{(.*?)\}(?=\n *(?:requires|ensures|\{)|\n)", re.M | re.S)
KINDS = re.compile(r"\b(?:kind|test|edition|defect|refusal|clip): u(?:8|32|64)\b|fn (?!from|glyph)\w+\([^)]*\) -> u8\b|\bn: u8\b|\(u8\)")
BY_HAND = re.compile(
    r"^ *(?:pub )?fn (lesser|greater|lower|higher|less|before|same\w*|is_edge|\w+_number|profile_of|flags_fit|with_float|offset|record_words"
    r"|edge_if|marked|then_by|precedes)(?:<[^>]*>)?\(", re.M)


class Text:
    """A file of src/, and where its places stand."""

    def __init__(self, path: Path, top: Path) -> None:
        self.name = str(path.relative_to(top))
        self.text = path.read_text()
        self.lines = self.text.split("\n")

    def at(self, position: int) -> int:
        return self.text.count("\n", 0, position) + 1

    def said(self, line: int) -> str:
        """The line with the comments and attributes right above it."""
        above = line - 1
        while above > 0 and self.lines[above - 1].lstrip().startswith(("//", "#[")):
            above -= 1
        return "\n".join(self.lines[above:line])

    def head(self) -> str:
        """The comment that the file begins with."""
        return "\n".join(self.lines[:next((i for i, one in enumerate(self.lines) if not one.startswith("//")), 0)])

    def kept(self, line: int) -> bool:
        """Is the place marked as staying?"""
        whole = line
        while whole > 1 and not re.match(r" *(?:pub )?(?:extern \"C\" )?(?:fn|struct|enum|impl|trait)\b", self.lines[whole - 1]):
            whole -= 1
        section = re.search(r"^// Stays:.*(?:\n//.*)*\n\n", self.text, re.M)
        return "Stays:" in self.said(line) or "Stays:" in self.said(whole) or "Stays here:" in self.head() or section is not None


def signature(text: Text) -> list[tuple[str, int, list[tuple[str, str]], str]]:
    """The functions: name, line, parameters with types, what stands behind them."""
    found = []
    for match in FUNCTION.finditer(text.text):
        parts = [part.strip() for part in re.split(r",(?![^<\[(]*[>\])])", match[3]) if part.strip()]
        pairs = [tuple(part.split(":", 1)) for part in parts if ":" in part]
        found.append((match[2], text.at(match.start(2)), [(a.strip(), b.strip()) for a, b in pairs], match[4]))
    return found


def shaped(text: Text):
    """1: enums of the shape of Option or Result, a flag with values beside it, numbers for kinds and refusals."""
    for match in ENUM.finditer(text.text):
        body = re.sub(r"//.*", "", match[2])
        variants = re.findall(rf"^ +({NAME})(\(.*\))?,", body, re.M)
        filled = [name for name, what in variants if what]
        wrong = {"Refused", "Refuse", "Fault", "Err", "Boundary", "NotComputed", "Valid", "None"}
        if filled and (len(variants) <= 2 or wrong & {name for name, _ in variants}):
            yield text.at(match.start()), f"enum {match[1]}"
    for match in STRUCT.finditer(text.text):
        flags = re.findall(rf"^ +(?:pub )?({NAME}): bool,", match[2], re.M)
        if len(flags) == 1 and re.fullmatch(r"failed|entered|in_range|found|valid|ok", flags[0]):
            yield text.at(match.start()), f"struct {match[1]}: {flags[0]}"
    for match in KINDS.finditer(text.text):
        yield text.at(match.start()), match[0]
    for match in re.finditer(rf"^ *(?:pub )?const {NAME}: u8 = \d+;", text.text, re.M):
        yield text.at(match.start()), match[0].strip()


TWINS = re.compile(r"64|32|16|_behind|_wide|_narrow|Bits|_stl|_large|_words|_floats|_present|_unbalanced|_crowded|_unpaired|_incoherent")


def twins(texts: list[Text]):
    """2: functions and types of a crate whose names differ in a width, a format or a place alone."""
    groups = defaultdict(list)
    for text in texts:
        crate = text.name.split("/")[0]
        for match in re.finditer(rf"^ *(?:pub )?(?:fn|struct|enum) ({NAME})", text.text, re.M):
            groups[crate, TWINS.sub("", match[1].replace("read_bits", "read"))].append((text, text.at(match.start()), match[1]))
    for (_, _), places in sorted(groups.items(), key=lambda group: group[0]):
        if len({name for _, _, name in places}) > 1:
            for text, line, name in places:
                yield text, line, name


def loops(text: Text):
    """3: loops that are not a `for`."""
    for match in LOOP.finditer(text.text):
        yield text.at(match.start()) + (1 if match[0].startswith("\n") else 0), match[0].strip()


def by_hand(text: Text):
    """4: equality, order, copying, conversion and fixed values written by hand."""
    for match in BY_HAND.finditer(text.text):
        yield text.at(match.start(1)), f"fn {match[1]}"
    for match in FIELDS.finditer(text.text):
        yield text.at(match.start()), "fields copied one by one"


def together(texts: list[Text]):
    """5: facts and groups of parameters that stand in three functions of a crate or more."""
    facts, groups = defaultdict(set), defaultdict(set)
    said = {text.name.split("/")[0] for text in texts if "Stays:" in text.text or "Stays here:" in text.text}
    for text in texts:
        crate = text.name.split("/")[0]
        for match in re.finditer(r"^ *requires(?: \w+)? \{(.*?)\}$", text.text, re.M | re.S):
            for part in re.split(r" × ", " ".join(match[1].split())):
                word = re.match(r"\(*\s*([A-Z]\w+)", part)
                if word and word[1] != "T":
                    facts[crate, word[1]].add((text.name, text.at(match.start())))
        for name, line, pairs, _ in signature(text):
            names = [f"{a}: {b}" for a, b in pairs if not re.match(r"&?self|rt$", a)]
            for size in (2, 3):
                for i in range(len(names) - size + 1):
                    groups[crate, ", ".join(names[i:i + size])].add((text.name, line))
    for (crate, word), places in sorted(facts.items()):
        if len(places) >= 3:
            yield crate, f"fact {word}", len(places), crate in said
    for (crate, group), places in sorted(groups.items()):
        if len(places) >= 3:
            yield crate, f"parameters {group}", len(places), crate in said


def lengths(text: Text):
    """6: a slice with a length or a place beside it."""
    for name, line, pairs, _ in signature(text):
        slices = [a for a, b in pairs if re.match(r"&(?:mut )?\[", b)]
        beside = [a for a, b in pairs if b == "usize" and a in {"n", "at", "m", "len", "count"}]
        if slices and beside:
            yield line, f"fn {name}({', '.join(slices + beside)})"


def switches(text: Text):
    """7: a bool or a number among the parameters that selects what is run."""
    for name, line, pairs, _ in signature(text):
        for a, b in pairs:
            if re.fullmatch(r"whole|wide|winding|stl|test", a):
                yield line, f"fn {name}({a}: {b})"


def places(top: Path) -> dict[int, list[tuple[str, int, str, bool]]]:
    texts = [Text(path, top) for path in sorted(top.glob("*/src/**/*.rt"))]
    found: dict[int, list[tuple[str, int, str, bool]]] = {point: [] for point in range(1, 9)}
    for point, search in ((1, shaped), (3, loops), (4, by_hand), (6, lengths), (7, switches)):
        for text in texts:
            for line, what in search(text):
                found[point].append((text.name, line, what, text.kept(line)))
    for text, line, name in twins(texts):
        found[2].append((text.name, line, name, text.kept(line)))
    for crate, what, many, stays in together(texts):
        found[5].append((crate, many, what, stays))
    for path in sorted(top.glob("*/proofs/**/Answers.antt")):
        answers = len(re.findall(r"^pub [\w'-]+ : goal\.", path.read_text(), re.M))
        found[8].append((str(path.relative_to(top)), answers, "answers", False))
    return found


def main() -> None:
    arguments = [one for one in sys.argv[1:] if one != "--list"]
    top = Path(arguments[0] if arguments else Path(__file__).resolve().parent.parent) / "crates"
    found = places(top)
    for point, rows in found.items():
        kept = sum(row[3] for row in rows)
        more = f", answers {sum(row[1] for row in rows)}" if point == 8 else ""
        print(f"point {point}: {len(rows)} places, {kept} of them marked as staying{more}")
        if "--list" in sys.argv:
            for name, line, what, stays in rows:
                print(f"    {name}:{line}: {what}{' (stays)' if stays else ''}")


if __name__ == "__main__":
    main()
