#!/usr/bin/env python3
"""Brings this repository's own definitions, lemmas, fields and constructors to snake case.

usage: python3 tools/respell.py [--list]      at the top of the checkout, once, right after the kit's port.py

A name that a library declares keeps its spelling in the files that import it from there. Functions of src/, strings, comments, inputs and
outputs are not touched. Edits of specs/ and names between backquotes in the pages are turned too. Names that would fall together are printed, and then nothing is written. (In a proof that walks the code by hand they may:
it is written anew.)
"""

import os
import re
import sys

OWN = set(os.listdir("crates"))
WORD = re.compile(r"[^\s(){}\[\].,;:«»`\"]+")
DASHED = re.compile(r"[-·′]")
# Aliases of the modules of variants, whose plain spelling is a lemma's.
SPECIAL = {"added·is": "added_case", "came·is": "came_case", "marked·is": "marked_case", "stepped·is": "stepped_case"}
COMMENT = re.compile(r"(?:^|(?<=\s))--(?:\s.*|)$")


def files(kinds):
    for folder, dirs, names in os.walk("crates"):
        dirs[:] = sorted(d for d in dirs if d != "out")
        for n in sorted(names):
            if n.endswith(kinds):
                yield os.path.join(folder, n)


def text_of(path):
    with open(path, encoding="utf-8") as f:
        return f.read()


def own_module(path):
    parts = path.split(".")
    return len(parts) > 1 and parts[0] == "Rattle" and parts[1] in OWN


def is_own(name):
    return DASHED.search(name) and not name.startswith("◌") and not name.startswith("#")


def new_name(name):
    if name in SPECIAL:
        return SPECIAL[name]
    return name.replace("-", "_").replace("·", "_").replace("′", "'")


def uses(text):
    for m in re.finditer(r"^(?:pub )?(?:ghost )?use ([^\s{]+)\.\{([^}]*)\}", text, re.M):
        for item in m.group(2).split(","):
            words = item.split()
            if words:
                yield m.group(1), words[0], (words[2] if len(words) == 3 else None)


def declared(text):
    """Names that a file declares: definitions and lemmas, records and data with their fields and constructors, aliases of imports."""
    for line in text.split("\n"):
        line = COMMENT.sub("", line)
        m = re.match(r"(?:abbrev |unfoldable )?(?:pub )?([^\s:(){}]+) : (?!tie\.|goal\.|statement )", line)
        if m:
            yield m.group(1)
        m = re.match(r"\s*(?:pub )?(?:record|data|ruleset|module) ([^\s:(){}]+)", line)
        if m:
            yield m.group(1)
        m = re.match(r"  (?:pub )?((?:[^\s:(){}=]+ )+): ", line)
        if m:
            yield from m.group(1).split()
        m = re.match(r"\s+(?:abbrev |unfoldable )?(?:pub )?([^\s:(){}=,]+) : ", line)
        if m:
            yield m.group(1)
        m = re.match(r"infix[lr]? \d+ ([^\s]+)", line)
        if m:
            yield m.group(1)
        m = re.match(r"(?:pub )?use \S+ as (\S+)$", line)
        if m:
            yield m.group(1)
    for module, name, alias in uses(text):
        if alias:
            yield alias


def clause_lines(text):
    """The lines of a source file that hold clauses: from a word of clauses to the line whose braces close."""
    out, depth, on = [], 0, False
    for line in text.split("\n"):
        if not on and re.match(r"\s*(?:requires|ensures|ghost)\b", line):
            on, depth = True, 0
        if on:
            depth += line.count("{") - line.count("}")
            out.append((line, True))
            if depth <= 0:
                on = False
        else:
            out.append((line, False))
    return out


DECLARED = set()


def quoted(text, names):
    """Between backquotes also the names that port.py respelled, which are declared by their new spelling already."""
    def one(m):
        return WORD.sub(lambda w: new_name(w.group()) if w.group() in names or (is_own(w.group()) and new_name(w.group()) in DECLARED) else w.group(), m.group())

    return re.sub(r"`[^`\n]*`", one, text)


def turn_line(line, names, kept):
    cut = COMMENT.search(line)
    body, rest = (line[: cut.start()], line[cut.start():]) if cut else (line, "")
    rest = quoted(rest, names)
    return WORD.sub(lambda m: new_name(m.group()) if m.group() in names and m.group() not in kept else m.group(), body) + rest


def main():
    names = set()
    for path in files((".antt", ".rt")):
        if re.search(r"/proofs/.+/(?:Answers|Invariants)\.antt$", path):
            continue  # the names there are the check's own
        text = text_of(path)
        names.update(n for n in declared(text) if is_own(n))
        if path.endswith(".antt"):
            DECLARED.update(declared(text))
        names.update(a for _, _, a in uses(text) if a and is_own(a))
        if path.endswith(".antt") and not path.endswith("/Proof.antt"):
            # what else a lemma file or a definition names with a dash, and no library gave it: its variables and its local lemmas
            foreign = {alias or name for module, name, alias in uses(text) if not own_module(module)}
            words = {w for line in text.split("\n") for w in WORD.findall(COMMENT.sub("", line))}
            names.update(w for w in words - foreign if is_own(w) and re.search("[a-z]", w))
    if "--list" in sys.argv:
        print("\n".join(sorted(names)))
        return 0
    clash, turned = [], {}
    for path in files((".antt", ".rt")):
        text = text_of(path)
        kept = {alias or name for module, name, alias in uses(text) if not own_module(module)}
        kept -= {n for n in declared(text)}
        words = {w for line in text.split("\n") for w in WORD.findall(COMMENT.sub("", line))}
        for n in sorted(names & words - kept):
            if new_name(n) in words and path.endswith(".antt") and not path.endswith("Proof.antt"):
                clash.append(f"{path}: {n} and {new_name(n)}")
        if path.endswith(".antt"):
            turned[path] = "\n".join(turn_line(l, names, kept) for l in text.split("\n"))
        else:
            turned[path] = "\n".join(turn_line(l, names, kept) if clause else l for l, clause in clause_lines(text))
    for path in files((".edit",)):
        text = text_of(path)
        if re.search(r"^file: (?:specs|proofs)/", text, re.M):
            turned[path] = "\n".join(re.sub(r"(?<=[\w)]) \.(?=\w)", ".", turn_line(l, names, ())) if re.match(r"(?:old|new): ", l) else l for l in text.split("\n"))
    for path in ["README.md"] + sorted(os.path.join("docs", n) for n in os.listdir("docs") if n.endswith(".md")):
        turned[path] = quoted(text_of(path), names)
    for c in clash:
        print("falls together: " + c)
    if clash:
        return 1
    for path, text in turned.items():
        if text != text_of(path):
            with open(path, "w", encoding="utf-8") as f:
                f.write(text)
    return 0


if __name__ == "__main__":
    raise SystemExit(main())
