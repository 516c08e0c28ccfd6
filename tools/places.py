#!/usr/bin/env python3
"""Lists the places of docs/DESIGN-PASS.md's points in the sources: tools/places.py [POINT ..] [--count] [--at FOLDER]

A place is printed as CRATE: what. Points 1 to 8 are those of docs/DESIGN-PASS.md. --at looks at another checkout."""
import collections
import glob
import os
import re
import sys


def functions(text):
    """Yields name, parameters, clauses and body of each function."""
    for m in re.finditer(r"^( *)(?:pub )?(?:extern \"C\" )?fn (\w+)(?:<[^(]*?>)?\(", text, re.M):
        shut = closing(text, m.end() - 1)
        stop = text.find("\n", shut)
        if text[shut:stop].rstrip().endswith("{"):
            opens = text.rindex("{", shut, stop)
        else:
            found = re.compile(rf"^{m[1]}\{{\n", re.M).search(text, shut)
            if found is None:
                continue
            opens = found.start() + len(m[1])
        yield m[2], text[m.end() : shut], text[shut + 1 : opens], text[opens : closing(text, opens) + 1]


def closing(text, at):
    """Returns the place of the bracket that closes the one at a place."""
    depth = 0
    while at < len(text):
        if text[at] in "([{":
            depth += 1
        elif text[at] in ")]}":
            depth -= 1
            if depth == 0:
                return at
        elif text.startswith("//", at):
            at = text.index("\n", at) - 1
        elif text[at] == '"':
            at = text.index('"', at + 1)
        at += 1
    return len(text) - 1


def enums(text):
    """Yields the name of each enum, and its variants with what they hold."""
    for m in re.finditer(r"^(?:pub )?enum (\w+) \{\n(.*?)^\}", text, re.M | re.S):
        yield m[1], re.findall(r"^    (\w+)(\([^)]*\))?,", m[2], re.M)


def point_1(crate, text):
    """Enums of the shape of Option or Result, refusals handed on by hand, numbers for kinds."""
    no = {"Refused", "Wrong", "Nothing", "NotANumber", "NotAWeight", "Neither", "Spent", "End", "No", "Stopped", "Unknown"}
    for name, variants in enums(text):
        if len(variants) <= 3 and any(v in no for v, _ in variants) and any(d for _, d in variants):
            yield f"enum {name}"
    for m in re.finditer(r"(\w+)::Refused\((\w+)\) => return (\w+)::Refused\(\2\)", text):
        yield f"{m[1]} handed on as {m[3]}"
    for m in re.finditer(r"if (outcome|number) == (\d)", text):
        yield f"number for a kind: {m[0][3:]}"
    if re.search(r"^    Unknown,", text, re.M):
        yield "variant for nothing: Unknown"
    if "pub last: isize" in text:
        yield "flag beside a value: last"


def point_2(crate, text, seen):
    """Functions whose bodies differ in numbers, sizes, types, words or names of constants alone."""
    for name, params, _, body in functions(text):
        plain = re.sub(r"//.*", "", body)
        plain = re.sub(r"\b\d+(?:u\d+|usize)?\b|\b[A-Z][A-Z_]+\b|b\"[^\"]*\"|\bu(?:8|16|32|64|size)\b", "N", plain)
        plain = re.sub(rf"\b{name}\b", "F", plain)
        for k, p in enumerate(re.findall(r"(\w+): ", params)):
            plain = re.sub(rf"\b{p}\b", f"p{k}", plain)
        for k, p in enumerate(dict.fromkeys(re.findall(r"let (?:mut )?(\w+)", plain))):
            plain = re.sub(rf"\b{p}\b", f"v{k}", plain)
        plain = re.sub(r"\s+", "", plain)
        if len(plain) > 25:
            seen[plain].append(f"{crate}::{name}")


def point_3(crate, text):
    """Loops by `while`: those that count an index by hand, and all others."""
    for name, _, _, body in functions(text):
        for m in re.finditer(r"^( *)while (.*?) \{\n(.*?)^\1\}\n", body, re.M | re.S):
            v = re.match(r"(\w+) (<|<=|>) ", m[2])
            counts = v and re.search(rf"^ *(?:{v[1]} (?:\+|-)= 1;|let e = {v[1]} - 1;)", m[3], re.M)
            yield f"{name}: while {m[2]} ({'counts an index' if counts else 'counts no index'})"


def point_4(crate, text):
    """Comparisons of wrapped numbers, and functions that std has."""
    for name, _, _, body in functions(text):
        for m in re.finditer(r"\b[\w.:]+\.0 (?:==|!=|<=|>=|<|>) (?:Weight::|Mark::)?\w[\w.]*\.0\b", body):
            yield f"{name}: {m[0]}"
        by_std = r"\.(?:min|max|fill|copy_from_slice|copy_within|contains|count|saturating_sub)\(|^\{\s*(?:\w+ == \w+|match \w+ \{|self\.\w+\(\)\.\w+)\s"
        if name in {"lesser", "greater", "deeper", "capped", "cap", "equal", "set_all", "put", "stands_in", "mirror", "repeat", "digit"}:
            if not re.search(by_std, body) and not re.search(r"for e in 0\.\.", body):
                yield f"{name} is std's"


def point_5(crate, text):
    """Functions with parameters that travel together: a table's columns, answers, working columns, an appended line."""
    groups = {
        "table": ["heads", "own", "strikes", "spans", "tails"],
        "answers": ["weights", "depths", "edges"],
        "lists": ["first", "next", "at", "joined", "deepest"],
        "new line": ["head", "figure", "mark", "needed"],
    }
    for name, params, _, _ in functions(text):
        names = re.findall(r"(\w+): ", params)
        for group, members in groups.items():
            if all(x in names for x in members):
                yield f"{name}: {group}"


def point_6(crate, text):
    """Fixed arrays that are used in part, and functions that return how much of a room they filled."""
    for name, params, _, body in functions(text):
        for m in re.finditer(r"let mut (\w+) = \[[^;\]]*; *(\w+)\]", body):
            yield f"{name}: array {m[1]} of {m[2]}"
    for m in re.finditer(r"fn (\w+)\(\s*room: &mut \[u8\][^{]*?-> (usize|Reply)", text):
        yield f"{m[1]}: fills a room and returns how much"


def point_7(crate, text):
    """Chains of tests and matches that choose a step by a name."""
    for name, _, _, body in functions(text):
        if len(re.findall(r"if agree\(", body)) > 2:
            yield f"{name}: a table of words"
        if len(re.findall(r"(?:Name|Question|Query|Command)::\w+[^=]*=> \w*put_|=> put_\w+\(", body)) > 2:
            yield f"{name}: a step for each name"


def point_8(folder):
    """Files of answers and invariants, and lines in them."""
    answers = glob.glob(f"{folder}/crates/*/proofs/**/Answers.antt", recursive=True)
    invariants = glob.glob(f"{folder}/crates/*/proofs/**/Invariants.antt", recursive=True)
    lines = [sum(1 for _ in open(p)) for p in answers]
    lets = sum(len(re.findall(r"^ *let [^\n]{120,}", open(p).read(), re.M)) for p in answers)
    yield f"{len(answers)} files of answers with {sum(lines)} lines"
    yield f"{len(invariants)} files of invariants with {sum(sum(1 for _ in open(p)) for p in invariants)} lines"
    yield f"{lets} long lets in answers"


def main():
    words = sys.argv[1:]
    folder = words[words.index("--at") + 1] if "--at" in words else os.path.dirname(os.path.dirname(os.path.abspath(__file__)))
    wanted = [int(w) for w in words if re.fullmatch(r"[1-8]", w)] or list(range(1, 9))
    for point in wanted:
        places, seen = [], collections.defaultdict(list)
        if point == 8:
            print(f"point 8: {'; '.join(point_8(folder))}")
            continue
        for path in sorted(glob.glob(f"{folder}/crates/*/src/*.rt")):
            crate = path.split("/")[-3]
            with open(path) as file:
                text = file.read()
            if point == 2:
                point_2(crate, text, seen)
            else:
                places += [f"{crate}: {it}" for it in globals()[f"point_{point}"](crate, text)]
        if point == 2:
            places = [", ".join(names) for names in seen.values() if len(names) > 1]
        print(f"point {point}: {len(places)}")
        if "--count" not in words:
            print("".join(f"    {it}\n" for it in places), end="")


main()
