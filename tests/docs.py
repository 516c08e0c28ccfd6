"""Holds the documents to the repository. The last line is 'N passed, M failed'.

Checks that links and cited names exist, that README's commands print what README says, that documents keep to
their sizes, that ARCHITECTURE lists the crates of crates.txt, and that PROMISES names every wrong version and has
the counts that docs/believed prints, by which the three demands take fewer than 900 lines, statements too.
"""
import glob
import os
import pathlib
import re
import subprocess
import sys
import tempfile

ROOT = pathlib.Path(__file__).resolve().parent.parent
os.chdir(ROOT)
DOCUMENTS = ["README.md", "CONTRIBUTING.md", "tests/README.md", "bench/README.md"] + sorted(glob.glob("docs/*.md"))
passed = failed = 0


def read(path):
    return pathlib.Path(path).read_text(encoding="utf-8")


def holds(name, wrong):
    """Counts a check; what is wrong is a list or a text, empty if nothing is."""
    global passed, failed
    if wrong:
        failed += 1
        print(f"FAILED: {name}: {wrong}"[:1500])
    else:
        passed += 1
        print(f"ok: {name}")


# --- sizes ---

LIMITS = {"README.md": (130, "lines"), "docs/DECISIONS.md": (25_000, "bytes")}


def check_sizes():
    for path, (most, unit) in LIMITS.items():
        size = len(read(path).splitlines()) if unit == "lines" else len(read(path).encode())
        holds(f"size of {path}", f"{size} {unit}, at most {most}" if size > most else "")
    for note in re.split(r"^## (?=2026)", read("docs/CHANGES.md"), flags=re.M)[1:]:
        words = len(note.split())
        holds(f"length of the note on {note[:7]}", "" if 150 <= words <= 250 else f"{words} words, where 150 to 250 are asked")


# --- links and names ---


def anchors(path):
    heads = re.findall(r"^#+ (.*)$", read(path), re.M)
    return {re.sub(r"[^\w\- ]", "", h.lower()).replace(" ", "-") for h in heads}


def broken_links(path):
    for target in re.findall(r"\]\(([^)\s]+)\)", read(path)):
        if "://" in target:
            continue
        file, _, anchor = target.partition("#")
        where = (pathlib.Path(path).parent / file) if file else pathlib.Path(path)
        if not where.exists() or (anchor and anchor not in anchors(where)):
            yield target


def words_of_code():
    """Every word of the crates, the header, the C sources and the scripts."""
    files = [p for kind in ("rt", "antt") for part in ("src", "specs", "proofs") for p in glob.glob(f"crates/*/{part}/**/*.{kind}", recursive=True)]
    files += glob.glob("include/*.h") + glob.glob("src/**/*.[ch]", recursive=True) + glob.glob("bench/**/*.[ch]", recursive=True)
    words = set()
    for path in files:
        words.update(re.split(r"[\s(){}<>;,.:\[\]⌜⌝&*'\"]+", read(path)))
    return words


# names that a note on a change cites because they are gone
GONE = {"TOZBIERDU_STRUCK", "count_tested", "days-is", "days-never-over", "same-graph"}


# names that the page on the design pass cites because it replaced them
REPLACED = {
    "bestfirst::label_small",
    "bill::Budget",
    "bill::spend_few",
    "by_bounds",
    "by_rank",
    "bytes_all",
    "bytes_next",
    "clear_columns",
    "clear_lines",
    "command::Numbers",
    "compare::greater",
    "compare::rank",
    "count_many",
    "cursor::Found",
    "cursor::FoundWeight",
    "deepest_new",
    "deepest_same",
    "digit_is",
    "end_over",
    "equal_end",
    "equal_lengths",
    "equal_more",
    "equal_stop",
    "filled_more",
    "held_in",
    "indextable::index_in",
    "inventory::Step",
    "label_large",
    "label_middle",
    "ledger::Counts",
    "ledger::Events",
    "low_end",
    "low_pass",
    "low_stop",
    "member_end",
    "member_more",
    "member_stop",
    "minima::lesser",
    "offers::lesser",
    "passed_more",
    "pieces::count_few",
    "put_measure",
    "queue::mirror",
    "reading::lesser",
    "reading::line_with",
    "right_few",
    "right_many",
    "settle::few_lines",
    "settle::right_few",
    "spend_many",
    "tail_vertex",
    "weights::Offer",
    "writing::measure_width",
}


def other_names():
    """Names in snake case that are no words of the code: wrong versions, files and folders, parts of names."""
    edits = glob.glob("crates/*/must-fail/*.edit") + glob.glob("tests/wrong/*/*.edit")
    return {pathlib.Path(p).stem for p in edits} | {p.name for p in pathlib.Path("crates").iterdir()}


def missing_names(path, words, crates):
    for name in sorted(set(re.findall(r"`([^`\n]+)`", read(path)))):
        pair = re.fullmatch(r"(\w+)::(\w+)(?:::(\w+))?", name)
        if pair and pair[1] in crates:
            sources = "".join(read(p) for p in glob.glob(f"crates/{pair[1]}/src/*.rt"))
            if not all(re.search(rf"\b{part}\b", sources) for part in pair.groups()[1:] if part):
                yield name
        elif re.fullmatch(r"[a-z][\w′]*(?:-[\w′]+)+|[a-z]+[A-Z]\w*|[A-Z][a-z]+[A-Z]\w*|[a-z]\w*_\w*[a-z0-9]", name) and name not in words | GONE:
            yield name


def check_names():
    # a static library has that word behind its name
    crates = set(re.findall(r"^(\w+)[^:#\n]*:", read("crates.txt"), re.M))
    words = words_of_code() | other_names()
    for path in DOCUMENTS:
        holds(f"links of {path}", sorted(broken_links(path)))
        gone = REPLACED if path == "docs/DESIGN-PASS.md" else set()
        missing = list(missing_names(path, words, crates))
        holds(f"names that {path} cites", [n for n in missing if n not in COMMANDS | gone])
        holds(f"names that {path} says were replaced", sorted(gone - set(missing)))
    listed = set(re.findall(r"`(\w+)`", " ".join(re.findall(r"^\| (`.*?) \|", read("docs/ARCHITECTURE.md"), re.M))))
    holds("crates that ARCHITECTURE lists", sorted(crates ^ (listed & crates)) or sorted(listed - crates))
    picture = set(re.findall(r"[a-z_]+", "".join(re.findall(r"^    (?:data|samples|theory|settling|calls|text|programs|outside| ) .*$", read("docs/ARCHITECTURE.md"), re.M))))
    holds("crates in ARCHITECTURE's picture", sorted(crates - picture))


COMMANDS = {"check-order", "pkg-config", "rattle-kit-5b-plain", "must-fail"}  # words that look like names of definitions

# --- README's commands ---


def console_blocks():
    """Yields the commands of README's console blocks, each with what README says it prints."""
    for block in re.findall(r"^```console\n(.*?)^```", read("README.md"), re.M | re.S):
        for part in re.split(r"^\$ ", block, flags=re.M)[1:]:
            command, _, output = part.partition("\n")
            yield command, output


def check_readme():
    """Runs README's commands with the programs that are built, in a folder of its own."""
    if not all(os.access(f"target/bin/{name}", os.X_OK) for name in ("listing", "parts")):
        holds("README's commands", "target/bin is not built")
        return
    with tempfile.TemporaryDirectory() as folder:
        for name in ("price", "desk", "examples"):
            os.symlink(ROOT / name, f"{folder}/{name}")
        for command, expected in console_blocks():
            run = subprocess.run(["bash", "-c", command], cwd=folder, stdin=subprocess.DEVNULL, capture_output=True, text=True, check=False)
            ended = 1 if expected.startswith("refused") else 0
            right = run.stdout == expected and run.returncode == ended
            holds(f"README: {command}", "" if right else f"status {run.returncode}, it prints {run.stdout!r} {run.stderr!r}")


# --- PROMISES ---


def check_believed():
    page = read("docs/PROMISES.md")
    counts = subprocess.run([sys.executable, "docs/believed"], capture_output=True, text=True, check=True).stdout

    def said(text):
        return re.search(r"^\*\*The three demands: .*?^Only the type counts of: [^\n]*", text, re.M | re.S)

    there, counted = said(page), said(counts)
    holds("what must be believed", "" if there and counted and there[0] == counted[0] else "docs/PROMISES.md differs from what docs/believed prints")
    demands = re.search(r"^\*\*The three demands: (\d+) lines of definitions and (\d+) of statements", counts, re.M)
    holds("fewer than 900 lines", "" if int(demands[1]) + int(demands[2]) < 900 else f"{demands[1]} and {demands[2]}")
    requests = []
    for entry in re.search(r"^statements: (.*)$", counts, re.M)[1].split(","):
        file, number = entry.split()
        if file.startswith("Request"):
            requests.append(number)
        else:
            holds(f"statements of {file}", "" if re.search(rf"^\| `{file}` \|.*\| {number} \|$", page, re.M) else f"{number}, which PROMISES does not say")
    row = rf"^\| `Request01` to .*\| {', '.join(requests)} \|$"
    holds("statements of the requests", "" if re.search(row, page, re.M) else f"{', '.join(requests)}, which PROMISES does not say")


def rows_after(page, head):
    """The rows of the table whose first line begins so, as lists of cells."""
    table = page.split(f"\n| {head} |", 1)
    if len(table) == 1:
        return []
    lines = table[1].split("\n")[2:]
    return [[c.strip() for c in line.strip("|").split("|")] for line in lines[: next(i for i, l in enumerate(lines + [""]) if not l.startswith("|"))]]


def check_wrong_versions():
    page = read("docs/PROMISES.md")
    gate = [(p.split("/")[1], pathlib.Path(p).stem) for p in sorted(glob.glob("crates/*/must-fail/*.edit"))]
    # a label that two crates have is named twice
    for label in sorted({label for _, label in gate}):
        kept, named = sum(label == other for _, other in gate), page.count(f"`{label}`")
        holds(f"wrong version {label}", "" if named >= kept else f"docs/PROMISES.md names it {named} times, and not {kept}")
    outside = {pathlib.Path(p).stem for p in glob.glob("tests/wrong/*/*.edit")}
    holds("wrong versions outside the gate", sorted(outside ^ set(re.findall(r"`(\w+)`‡", page))))
    shams = rows_after(page, "sham or error of document 01 | refused as")
    for row in shams:
        named = re.findall(r"`(\w+)/(\w+)`", row[1])
        holds(f"refused: {row[0]}", [e for e in named if e not in gate] or ("" if named else "nothing is named"))
    holds("shams and errors of document 01", "" if len(shams) == 13 else f"{len(shams)} rows, where there are 13")


check_sizes()
check_names()
check_readme()
check_believed()
check_wrong_versions()
print(f"{passed} passed, {failed} failed")
sys.exit(failed > 0)
