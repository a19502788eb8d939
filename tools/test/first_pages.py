"""What tools/test/check_documents holds the pages to that a newcomer reads first: README.md, docs/TUTORIAL.md,
docs/TROUBLESHOOTING.md, docs/GLOSSARY.md and examples/README.md. Each function answers what it has looked at, in words, and what
is wrong."""
import json
import pathlib
import re
import shlex

TOP = pathlib.Path(__file__).resolve().parent.parent.parent
# A paragraph of one line that ends with a colon, and the text below it; or commands, which need no such paragraph.
BLOCK = re.compile(r"^(?:([^\n]*):\n\n)?```(\w+)\n(.*?)^```$", re.MULTILINE | re.DOTALL)
SHOWN = re.compile(r"`(examples/[\w/.]+)`")
SCRIPT = re.compile(r"(?:^|=)(examples/[\w/]+\.(?:json|c))$")
# What the gate calls on the scripts of a folder; `.args` beside a script has more words.
CALLS = {
    "examples": [["ccan", "<"], ["make", "run"]],
    "examples/outcomes": [["ccan-lab", "outcomes", "--all"]],
    "examples/questions": [["ccan-lab", "outcomes"]],
    "examples/explain": [["ccan-lab", "explain"]],
}


def stands_in(text, whole):
    """Whether the pieces of a text, between lines of three dots, stand in another one so, in their order."""
    at = 0
    for piece in re.split(r"^\.\.\.\n", text, flags=re.MULTILINE):
        found = f"\n{whole}".find(f"\n{piece}", at)
        if not piece or found < 0:
            return False
        at = found + len(piece)
    return True


def wrong_command(words):
    """What is amiss with a command on an example, and the file that has what it prints; neither if it is on none."""
    names = [SCRIPT.search(word)[1] for word in words if SCRIPT.search(word)]
    if not names:
        return None, None
    path = TOP / names[0]
    if not path.is_file():
        return f"there is no {names[0]}", None
    if path.suffix == ".c":
        return None, names[0].removesuffix(".c") + (".CURED.stdout" if "-DCURED" in words else ".stdout")
    more = path.with_name(path.name + ".args")
    calls = [call + (more.read_text().splitlines() if more.is_file() else []) for call in CALLS[str(path.parent.relative_to(TOP))]]
    others = [word for word in words if not SCRIPT.search(word)]
    return (None if others in calls else f"the gate has no such call: {shlex.join(words)}"), names[0] + ".stdout"


def wrong_block(said, kind, text, printed):
    """What is wrong with a text that a page shows of a file, below a paragraph; of what a command printed if one stands above."""
    names = SHOWN.findall(said or "")
    if not names:
        return f"a text names no file of examples/: {text.splitlines()[0]}"
    path = TOP / names[-1]
    if not path.is_file():
        return f"there is no {names[-1]}"
    if kind == "json":
        is_so = json.loads(text) == json.loads(path.read_text())
    else:
        is_so = stands_in(text, path.read_text())
    if printed and names[-1].endswith("stdout") and "CURED" not in names[-1] and names[-1] != printed:
        return f"a command prints {printed}, and the text below it is of {names[-1]}"
    return None if is_so else f"another text than that of {names[-1]}: {text.splitlines()[0]}"


def wrong_in_shown():
    """What README.md and docs/TUTORIAL.md show of examples and is not so there, and calls that the gate doesn't make."""
    wrong, count = [], 0
    for name in ("README.md", "docs/TUTORIAL.md"):
        printed = None
        for said, kind, text in BLOCK.findall((TOP / name).read_text()):
            count += 1
            if kind == "sh":
                for line in text.splitlines():
                    amiss, file = wrong_command(shlex.split(line, comments=True))
                    wrong += [f"{name}: {amiss}"] if amiss else []
                    printed = file or printed
            else:
                amiss = wrong_block(said, kind, text, printed)
                wrong += [f"{name}: {amiss}"] if amiss else []
    return f"first pages: {count} texts shown", wrong


def wrong_in_list():
    """Examples that examples/README.md doesn't list, and names in it that are no example."""
    folder = TOP / "examples"
    there = {str(path.relative_to(folder)) for path in folder.rglob("*") if path.suffix in (".json", ".c", ".cpp")}
    listed = re.findall(r"\]\(([\w/]+\.(?:json|c|cpp))\)", (folder / "README.md").read_text())
    wrong = [f"examples/README.md doesn't list {name}" for name in sorted(there - set(listed))]
    wrong += [f"examples/README.md lists {name}, which is not there" for name in sorted(set(listed) - there)]
    wrong += [f"examples/README.md lists {name} twice" for name in sorted({name for name in listed if listed.count(name) > 1})]
    return f"examples: {len(there)} to be listed", wrong


def wrong_in_troubles():
    """Codes of the header and faults of both programs that docs/TROUBLESHOOTING.md has not once in its tables, and others."""
    page = (TOP / "docs/TROUBLESHOOTING.md").read_text()
    first = "".join(re.findall(r"^\|(.*?)\|", page, re.MULTILINE))
    header = (TOP / "include/ccan.h").read_text().partition("enum ccan_code {")[2].partition("};")[0]
    faults = (TOP / "docs/FORMATS.md").read_text().partition("\n## Faults\n")[2].partition("\n#")[0]
    codes = re.findall(r"^    (CCAN_\w+) = ", header, re.MULTILINE)
    lines = re.findall(r"^\| `(ccan: [^`]*)` \|", faults, re.MULTILINE)
    source = (TOP / "crates/ccan_lab/src/lab_error.rt").read_text()
    lines += [re.sub(r"\{\d\}", "N", line) for line in re.findall(r'#\[error\("(ccan-lab: .*)"\)\]', source)]
    wrong, codes_here, lines_here = [], re.findall(r"`(CCAN_(?!STEP_)\w+)`", first), re.findall(r"`(ccan(?:-lab)?: [^`]*)`", first)
    for what, asked, found in (("code", codes, codes_here), ("fault", lines, lines_here)):
        if not asked or sorted(asked) != sorted(found):
            differ = sorted(set(asked) ^ set(found)) or [name for name in asked if found.count(name) > 1]
            wrong.append(f"docs/TROUBLESHOOTING.md: each {what} has to stand once in its tables: {' '.join(differ)}")
    return f"troubles: {len(codes)} codes and {len(lines)} faults", wrong


def wrong_in_words():
    """Rows of docs/GLOSSARY.md that are out of the order of the alphabet, or have an empty cell."""
    wrong, count = [], 0
    for table in re.findall(r"^\|---.*\n((?:\|.*\n)+)", (TOP / "docs/GLOSSARY.md").read_text(), re.MULTILINE):
        rows = [[cell.strip() for cell in row.strip("|").split("|")] for row in table.splitlines()]
        count += len(rows)
        wrong += [f"docs/GLOSSARY.md: not three cells: {row[0]}" for row in rows if len(row) != 3 or not all(row)]
        words = [row[0].lower() for row in rows]
        wrong += [f"docs/GLOSSARY.md: {later} stands behind {word}" for word, later in zip(words, words[1:]) if later <= word]
    return f"words: {count}", wrong


def wrong_in_readme():
    """Documents that README.md doesn't lead to, and whether it says of the licence what the packages say."""
    page = (TOP / "README.md").read_text()
    names = [f"docs/{path.name}" for path in sorted((TOP / "docs").glob("*.md"))] + ["examples/README.md", "CHANGELOG.md"]
    wrong = [f"README.md has no link to {name}" for name in names if f"({name})" not in page.partition("\n## The documents\n")[2]]
    none = "Ask the maintainers before you pass copies on."
    packaged = " ".join((TOP / "packaging/debian/copyright").read_text().split())
    if (none in page) != (none in packaged):
        wrong.append("README.md says something else of the licence than packaging/debian/copyright")
    return f"README: {len(names)} documents", wrong


PAGES = ("README.md", "docs/TUTORIAL.md", "docs/TROUBLESHOOTING.md", "docs/GLOSSARY.md", "examples/README.md")
LOOKS = (wrong_in_shown, wrong_in_list, wrong_in_troubles, wrong_in_words, wrong_in_readme)
