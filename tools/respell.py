#!/usr/bin/env python3
"""Spells the repository's own definitions and lemmas in snake case: totalsTo becomes totals_to, all-cancel-tells all_cancel_tells.

usage: tools/respell.py [--check]        at the top of the repository

Types and modules keep their capitals, functions of src/ and exported names keep theirs, and a name that a file has from a library stays there.
What turns: names that an .antt file of specs/ or proofs/ declares, wherever code has them: in specs/, in proofs/, in the clauses and `ghost use`
items of src/, in the texts of must-fail edits; and in the code spans of comments and of the pages. Where a lemma would meet its definition, or a
name of a library, it gets `_lem` behind its name. It was run once, right behind the kit's port.py; a second run changes nothing.
"""
import collections
import os
import re
import sys

W = r'[^\s(){}.;,@"«»`]+'
TOKEN = re.compile(r'(?P<str>"(?:[^"\\\n]|\\.)*")|(?P<com>(?<![^\s(){}.;,@"«»])--[^\n]*)|(?P<word>' + W + r")|(?P<other>[\s\S])")
DECLARED = re.compile(r"(?m)^(?P<gap> *)(?:(?:pub|abbrev|unfoldable|private|opaque) )*(?P<names>" + W + r"(?: " + W + r")*?) :(?= |$)")
USE = re.compile(r"(?m)^ *(?:pub )?(?:ghost )?use ([^\s{;]+?)\.?(\{[^}]*\})?(?: as (\S+))?;?$", re.S)
SPAN = re.compile(r"`[^`\n]+`")
# words that a page's code span can hold beside our names
PAGES = ("README.md", "CONTRIBUTING.md", "docs", "examples")
# lemmas that had the plain spelling of a definition
LEMMAS = ("all_whole", "least_above", "part_in", "too_large", "too_many")


def read(path):
    with open(path, encoding="utf-8") as f:
        return f.read()


def snake(word):
    word = re.sub(r"(?<=[a-z0-9])([A-Z])(?![A-Z])", lambda m: "_" + m[1].lower(), word)
    word = re.sub(r"(?<=[a-z0-9])([A-Z]+)", lambda m: "_" + m[1].lower(), word)
    return re.sub(r"(?<=[\w'≡≢≤→←ℕℤ])-(?=[\w'≡≢≤→←ℕℤ])", "_", word)


def files(top, *ends):
    for folder, dirs, names in os.walk(top):
        dirs[:] = sorted(d for d in dirs if d not in ("out", "target", ".git"))
        for name in sorted(names):
            if name.endswith(ends):
                yield os.path.join(folder, name)


def bare(text):
    """The text without comments."""
    return "".join(m[0] for m in TOKEN.finditer(text) if not m["com"])


def is_ours(path, crates):
    steps = path.split(".")
    return steps[0] == "package" or steps[0] == "Rattle" and len(steps) > 1 and steps[1] in crates


def is_walk(path):
    return os.path.basename(path) in ("Proof.antt", "Answers.antt", "Invariants.antt") and "/proofs/" in path


def gathered(crates):
    """The names that the texts declare and that are not in snake case."""
    found = collections.Counter()
    everything = set()
    for path in files("crates", ".antt"):
        text = bare(read(path))
        for m in DECLARED.finditer(text):
            names = m["names"].split(" ")
            names = names if m["gap"] else names[:1]
            for name in names:
                name = name.strip("«»")
                everything.add(name)
                if re.match(r"[a-z]", name) and snake(name) != name and not is_walk(path):
                    found[name] += 1
        for m in USE.finditer(text):
            for item in (m[2] or "").strip("{}").split(","):
                _, is_as, alias = item.strip().partition(" as ")
                if is_as and re.match(r"[a-z]", alias) and snake(alias) != alias:
                    found[alias] += 1
    for path in files("crates", ".rt"):
        for m in re.finditer(r"ghost use ([^;{]+)\{([^}]*)\};", read(path)):
            for item in m[2].split(","):
                _, is_as, alias = item.strip().partition(" as ")
                if is_as and re.match(r"[a-z]", alias) and snake(alias) != alias:
                    found[alias] += 1
    return set(found), everything


def from_others(text, crates):
    """The names that a file has from a library, and so keeps."""
    out = set()
    for m in re.finditer(r"(?m)^ *(?:pub )?(?:ghost )?use ([^\s{;]+?)\.?\s*\{([^}]*)\}", text):
        if not is_ours(m[1], crates):
            for item in m[2].split(","):
                out.update(item.strip().split(" as ")[-1:])
                out.update(item.strip().split(" as ")[:1])
    return out


def is_word(word):
    return re.fullmatch(r"[a-z][\w'≡≢≤→←ℕℤ-]*", word)


def turned_antt(text, table, keep, steps=()):
    """Steps are names of functions: behind a dot a walk of the code's steps has them, and no lemma."""
    out = []
    for m in TOKEN.finditer(text):
        if m["word"]:
            word = m[0]
            generated = "".join(out[-2:]).endswith(("tie.", "goal.")) or word in LEMMAS and out[-1:] == ["."]
            generated = generated or out[-1:] == ["."] and snake(word) in steps
            out.append(word if word in keep or generated else table.get(word, word))
        elif m["com"]:
            out.append(SPAN.sub(lambda s: turned_span(s[0], table), m[0]))
        else:
            out.append(m[0])
    return "".join(out)


def turned_span(span, table):
    return re.sub(W, lambda m: table.get(m[0], m[0]), span)


def ghost_places(text):
    """Where the ghost parts of a source stand: `ghost use` items, clauses, ghost blocks."""
    for m in re.finditer(r"ghost use [^;]*;", text):
        yield m.span()
    for m in re.finditer(r"(?:requires|ensures)\*?(?: \w+)? \{|ghost \w+(?::)? ?=? ?\{", text):
        depth, at = 1, m.end()
        while depth and at < len(text):
            depth += (text[at] == "{") - (text[at] == "}")
            at += 1
        yield (m.end(), at)


def turned_rt(text, table, keep):
    out, at = [], 0
    for a, b in sorted(ghost_places(text)):
        if a < at:
            continue
        out.append(re.sub(r"//[^\n]*", lambda m: SPAN.sub(lambda s: turned_span(s[0], table), m[0]), text[at:a]))
        out.append(turned_antt(text[a:b], table, keep))
        at = b
    out.append(re.sub(r"//[^\n]*", lambda m: SPAN.sub(lambda s: turned_span(s[0], table), m[0]), text[at:]))
    return "".join(out)


def main(argv):
    check = "--check" in argv
    crates = {c for c in os.listdir("crates") if os.path.isdir(os.path.join("crates", c))}
    ours, everything = gathered(crates)
    table = {old: snake(old) for old in ours}
    texts = {path: read(path) for path in files("crates", ".antt", ".rt")}
    kept = {path: from_others(text, crates) for path, text in texts.items()}
    words = {}
    for path, text in texts.items():
        if path.endswith(".rt"):
            text = " ".join(text[a:b] for a, b in ghost_places(text)) + " " + " ".join(re.findall(r"(?<![\w.])(\w+): ", text))
        # a step of a path is no name, nor is a field behind a dot or a label
        text = re.sub(r"(?m)\buse [^\s{;]+?\.?(?=\{| as |$|;)", " ", bare(text))
        text = re.sub(r"(?<=[\w)'])\." + W, " ", text)
        text = re.sub(r"(?<=[{;] )" + W + r"(?= =)|(?m:^ +)" + W + r"(?= = )", " ", text)
        words[path] = {m["word"] for m in TOKEN.finditer(text) if m["word"]}
    met = collections.defaultdict(set)
    for path, here in words.items():
        for old in here & ours - kept[path]:
            new = table[old]
            if new in here:
                met[old].add(path)
    twice = collections.defaultdict(set)
    for old, new in table.items():
        twice[new].add(old)
    for new, olds in twice.items():
        if len(olds) > 1:
            for old in olds:
                met[old].add("beside " + " ".join(sorted(olds - {old})))
    for old, where in sorted(met.items()):
        if "-" in old:
            table[old] += "_lem"
            print(f"lemma: {old} -> {table[old]}")
    table.update((it, it + "_lem") for it in LEMMAS if it in set(table.values()))
    if len(set(table.values())) < len(table):
        sys.exit("two names fall together")
    pages = {old: new for old, new in table.items() if old not in LEMMAS}
    functions = set(re.findall(r"\bfn (\w+)", " ".join(text for path, text in texts.items() if path.endswith(".rt"))))
    changed = 0
    for path, text in texts.items():
        walks = (functions,) if is_walk(path) else ()
        new = (turned_rt if path.endswith(".rt") else turned_antt)(text, table, kept[path], *walks)
        changed += put(path, text, new, check)
    for path in files("crates", ".edit"):
        text = read(path)
        table_or_plain = lambda m: table.get(m[0], m[0])
        new = re.sub(W, table_or_plain, text)
        changed += put(path, text, new, check)
    for page in PAGES:
        for path in [page] if page.endswith(".md") else files(page, ".md"):
            text = read(path)
            changed += put(path, text, SPAN.sub(lambda s: turned_span(s[0], pages), text), check)
    print(f"{len(table)} names, {changed} files")


def put(path, old, new, check):
    if new != old and not check:
        with open(path, "w", encoding="utf-8") as f:
            f.write(new)
    return new != old


if __name__ == "__main__":
    main(sys.argv[1:])
