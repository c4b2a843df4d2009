#!/usr/bin/env python3
"""Where src/ still has the forms that docs/DESIGN-PASS.md counts: tools/places.py [COMMIT] [POINT..].

Prints a count for each point and the places below it, of a commit or else of the files as they stand. It goes by the text, so it finds what may be
such a place; which of them are, and which stay, is said on the page.
"""
import difflib
import io
import os
import re
import subprocess
import sys
import tarfile
from collections import Counter, defaultdict


def files(commit, pattern):
    """The names and texts of the files whose path matches, sorted."""
    if commit:
        packed = subprocess.check_output(["git", "archive", commit, "crates"])
        with tarfile.open(fileobj=io.BytesIO(packed)) as archive:
            for member in sorted(archive.getmembers(), key=lambda m: m.name):
                if member.isfile() and re.fullmatch(pattern, member.name):
                    yield member.name, archive.extractfile(member).read().decode()
        return
    for name in sorted(subprocess.check_output(["git", "ls-files", "crates"], text=True).split("\n")):
        if re.fullmatch(pattern, name) and os.path.exists(name):
            with open(name) as file:
                yield name, file.read()


def uncommented(text):
    return re.sub(r"//[^\n]*", "", text)


def short(path):
    m = re.match(r"crates/(\w+)/src/(\w+)\.rt", path)
    return f"{m.group(1)}/{m.group(2)}" if m else path


def functions(sources):
    """Each function: place, name, parameters, contract, body."""
    for path, text in sources:
        plain = uncommented(text)
        for m in re.finditer(r"\bfn (\w+)", plain):
            start = m.end()
            depth, i = 0, plain.index("(", start)
            first = i
            while True:
                depth += {"(": 1, ")": -1}.get(plain[i], 0)
                i += 1
                if depth == 0:
                    break
            parameters = plain[first + 1:i - 1]
            body_at = re.compile(r"\n\s*\{\n|\{\n|;\n").search(plain, i)
            rest = plain[i:]
            b = re.search(r"(?m)^(\s*)\{$|\{$|;$", rest)
            contract = rest[:b.start()] if b else rest
            if not b or b.group(0).strip() == ";":
                continue
            j = i + b.end()
            depth = 1
            while depth and j < len(plain):
                depth += {"{": 1, "}": -1}.get(plain[j], 0)
                j += 1
            yield short(path), m.group(1), parameters, contract, plain[i + b.end():j - 1]


def tokens(body):
    return [t if not re.match(r"[A-Za-z_]\w*$|\d", t) or t in KEPT else ("n" if t[0].isdigit() else "i")
            for t in re.findall(r"[A-Za-z_]\w*|\d\w*|\S", body)]


KEPT = {"let", "mut", "if", "else", "while", "loop", "for", "in", "match", "return", "as", "fn", "Some", "None", "Ok", "Err"}


def enums(sources):
    for path, text in sources:
        for m in re.finditer(r"\benum (\w+)[^{]*\{\n(.*?)\n\}", uncommented(text), re.S):
            yield short(path), m.group(1), [v.strip().rstrip(",") for v in m.group(2).split("\n") if v.strip()]


def point_1(sources):
    for place, name, variants in enums(sources):
        carrying = [v for v in variants if "(" in v or "{" in v]
        if carrying and len(carrying) < len(variants):
            yield "enum of the shape of Option or Result", f"{place}: {name}"
        elif len(variants) == 2 and len(carrying) == 2 and any(re.match(r"(Refused|Bad|Err)", v) for v in variants):
            yield "enum of the shape of Option or Result", f"{place}: {name}"
    for place, name, parameters, contract, body in functions(sources):
        if re.search(r"return (16|256);|_ => 16,|next: end \+ 1", body):
            yield "a number that stands for none", f"{place}: {name}"
        if len(re.findall(r"\w+::\w+(?:\(\w+\))? => (?:\d|0x)", body)) >= 2:
            yield "a match that gives numbers for cases", f"{place}: {name}"
        if re.search(r"\b(class|kind): u(8|32)\b", parameters):
            yield "a kind passed by its number", f"{place}: {name}"
    for path, text in sources:
        for m in re.finditer(r"pub (kind|class): u\d+,|struct Outcome|struct RunOutcome|pub struct Import ", uncommented(text)):
            yield "a kind held by its number, or an answer beside values", f"{short(path)}: {m.group(0).strip().rstrip(',')}"


def point_2(sources):
    found = [f for f in functions(sources) if len(tokens(f[4])) >= 12]
    shapes = [tokens(f[2] + f[4]) for f in found]
    for i in range(len(found)):
        for j in range(i + 1, len(found)):
            a, b = shapes[i], shapes[j]
            if abs(len(a) - len(b)) * 5 > max(len(a), len(b)):
                continue
            m = difflib.SequenceMatcher(None, a, b, autojunk=False)
            if m.quick_ratio() >= 0.92 and m.ratio() >= 0.92:
                yield "functions of one shape", f"{found[i][0]}: {found[i][1]} ~ {found[j][0]}: {found[j][1]}"
    types = []
    for path, text in sources:
        for m in re.finditer(r"\b(struct|enum) (\w+)[^{;]*(\{\n.*?\n\}|\([^)]*\);)", uncommented(text), re.S):
            types.append((short(path), m.group(2), re.sub(r"\s+", " ", re.sub(r"pub ", "", m.group(3)))))
    for i in range(len(types)):
        for j in range(i + 1, len(types)):
            a = re.findall(r"\w+|\S", types[i][2])
            b = re.findall(r"\w+|\S", types[j][2])
            if difflib.SequenceMatcher(None, a, b, autojunk=False).ratio() >= 0.8:
                yield "types of one shape", f"{types[i][0]}: {types[i][1]} ~ {types[j][0]}: {types[j][1]}"


def point_3(sources):
    for place, name, parameters, contract, body in functions(sources):
        for m in re.finditer(r"(?m)^\s*(?:let \w+ = )?(while|loop)\b[^\n]*", body):
            yield "loop", f"{place}: {name}: {m.group(0).strip()}"


def point_4(sources):
    by_hand = (r"\b(number_of|\w+_number|place_of|machine_of|machine_held|write_back|signed|signed_word|word_of|names|cleared|choose|weight|value_if"
               r"|word_changed|word_place|word_value|one_or_zero|digit_of|digit_value|\w+_line|put_\w+|unnamed)$")
    for place, name, parameters, contract, body in functions(sources):
        if re.match(by_hand, name):
            yield "conversion or printing in a function of its own", f"{place}: {name}"
    for path, text in sources:
        for m in re.finditer(r"std::num::wrapping_\w+", uncommented(text)):
            yield "a method of std called as a function", f"{short(path)}: {m.group(0)}"


def point_5(sources):
    facts, pairs = defaultdict(list), defaultdict(list)
    for place, name, parameters, contract, body in functions(sources):
        for clause in re.findall(r"requires(?: \w+)? \{(.*)\}", contract):
            for fact in re.split(r" × ", clause):
                fact = fact.strip()
                while fact.startswith("(") and fact.endswith(")"):
                    fact = fact[1:-1].strip()
                facts[re.sub(r"\.(old|now)\b", "", fact)].append(f"{place}: {name}")
        names = sorted(p.split(":")[0].strip() for p in parameters.replace("\n", " ").split(",") if ":" in p)
        for i in range(len(names)):
            for j in range(i + 1, len(names)):
                pairs[names[i], names[j]].append(f"{place}: {name}")
    for fact, where in sorted(facts.items(), key=lambda x: -len(x[1])):
        if len(where) >= 3:
            yield "a fact in three contracts or more", f"{fact}: {len(where)}: {', '.join(where)}"
    for pair, where in sorted(pairs.items(), key=lambda x: -len(x[1])):
        if len(where) >= 10:
            yield "parameters that travel together", f"{pair[0]}, {pair[1]}: {len(where)}"


def point_6(sources):
    for path, text in sources:
        for m in re.finditer(r"struct (\w+)[^{;]*(\{\n.*?\n\}|\([^)]*\);)", uncommented(text), re.S):
            if re.search(r"\[u(8|32); \w+\]", m.group(2)) and "usize" in m.group(2):
                yield "an array with a length beside it, in a struct", f"{short(path)}: {m.group(1)}"
    for place, name, parameters, contract, body in functions(sources):
        if re.search(r"&mut \[u8(; \w+)?\]", parameters) and re.search(r"->\s*usize", contract):
            yield "an output whose length is answered", f"{place}: {name}"


def point_7(sources):
    for place, name, parameters, contract, body in functions(sources):
        if re.search(r"\b(class|fsf|msf|dsf|rsf) (==|<|>=|>|<=) \d|match (fsf|msf|dsf|rsf|class)\b|match form\b", body):
            yield "a switch on a number or a form", f"{place}: {name}"


def point_8(commit):
    lines = answers = 0
    for name, text in files(commit, r"crates/\w+/proofs/.*/Answers\.antt"):
        lines += text.count("\n")
        answers += len(re.findall(r"(?m)^pub [\w'-]+ :", text))
    yield "answers", f"{answers} in {lines} lines"
    for folder in ("specs", "proofs"):
        names, whole = [], ""
        for name, text in files(commit, r"crates/\w+/(specs|proofs|src)/.*\.(antt|rt)"):
            whole += "\n" + re.sub(r"--[^\n]*|^use [^\n]*", "", text, flags=re.M)
            if re.match(r"crates/\w+/%s/\w+\.antt" % folder, name):
                for m in re.finditer(r"(?m)^(?:pub |abbrev pub |unfoldable pub |abbrev |unfoldable )?([\w'-]+) :", text):
                    names.append((name, m.group(1)))
        times = Counter(re.findall(r"[\w'-]+", whole))
        once = [(f, n) for f, n in names if times[n] <= 2]
        if folder == "proofs":
            for f, n in once:
                yield "lemma that no other proof names (theorems among them)", f"{f}: {n}"


def main():
    arguments = sys.argv[1:]
    commit = arguments.pop(0) if arguments and not re.fullmatch(r"[1-8]", arguments[0]) else None
    wanted = arguments or list("12345678")
    sources = list(files(commit, r"crates/\w+/src/.*\.rt"))
    for point in wanted:
        found = list(point_8(commit) if point == "8" else globals()[f"point_{point}"](sources))
        kinds = defaultdict(list)
        for kind, place in found:
            kinds[kind].append(place)
        print(f"point {point}: {len(found)}")
        for kind, places in kinds.items():
            print(f"  {kind}: {len(places)}")
            for place in places:
                print(f"    {place}")


main()
