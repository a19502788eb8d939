"""The table of the members of scripts, as crates/ccan_script/specs defines it: which members a line of each operation has, and a
frame, which of them each must have, and the ranges of its numbers; and the numbers of a script itself."""
import pathlib
import re

CRATES = pathlib.Path(__file__).resolve().parent.parent.parent / "crates"
# A member of a row, after its abbreviations are written out: whether it is needed, its name, and the range of a number.
MEMBER = re.compile(r"(Needed|Optional) (\w+) (?:kind\.\w+|\(kind\.Number (?:range\.(\w+)|\(range\.Between (\w+) (\w+)\))\))")


def source(name):
    """A file of definitions, by its crate and its name."""
    crate, _, file = name.partition("/")
    return (CRATES / crate / "specs" / f"{file}.antt").read_text()


def limits():
    """The numbers that definitions give names to."""
    text = "".join(source(name) for name in ("ccan_line/Limits", "ccan_ram/Port", "ccan_ram/Tries"))
    return {name: int(value) for name, value in re.findall(r"^((?:most|default)_\w+) = (\d+)$", text, re.MULTILINE)}


def texts(name, definition):
    """The texts that a definition gives to the variants of an enum."""
    return dict(re.findall(rf'^{definition} (?:\w+\.)?(\w+) = codes "(\w+)"$', source(name), re.MULTILINE))


def ranges():
    """The ranges that depend on a script, each the widest that one may have."""
    nodes = limits()["most_nodes"]
    return {"Object": (1, 64), "Sender": (1, nodes), "Node": (0, nodes), "Identifier": (0, 2 ** 29 - 1)}


def members(row):
    """The members of a row: by name whether each line has it, and the range of a number, else None."""
    written = re.sub(r"switch (\w+)", r"Needed \1 (kind.Number (range.Between 0 1))", row)
    written = written.replace("operation_member", "Needed Op kind.Operation").replace("flag_member", "Needed Flag kind.Flag")
    named, known = texts("ccan_script/MemberName", "name_text"), {**limits(), **ranges()}
    found = {}
    for need, name, kind, least, greatest in MEMBER.findall(written):
        between = tuple(int(it) if it.isdecimal() else known[it] for it in (least, greatest)) if least else None
        found[named[name]] = (need == "Needed", known[kind] if kind else between)
    assert len(found) == written.count(" ∷ ") and found, row
    return found


def rows():
    """The rows of the lines of hosts and of the bus, by operation, and that of a frame. A row of `other` is that of each operation
    without a row."""
    text = source("ccan_script/Member")
    found = {}
    for port, name in (("host", "ccan_script/HostOp"), ("bus", "ccan_script/BusOp")):
        written = dict(re.findall(rf"^{port}_row (?:{port}\.)?(\w+) =\s(.*?\[\])$", text, re.MULTILINE | re.DOTALL))
        named = texts(name, f"{port}_op_name")
        other = written.pop("other", None)
        assert named and set(written) <= set(named) and (other or len(written) == len(named)), port
        found[port] = {word: members(written.get(variant, other)) for variant, word in named.items()}
    found["frame"] = members(re.search(r"^frame_row =\s(.*?\[\])$", text, re.MULTILINE | re.DOTALL)[1])
    return found


def numbers():
    """The numbers of a script itself: by name the least, the greatest, and what each is without a member."""
    text, known = source("ccan_script/ScriptNumber"), limits()
    found = {}
    for variant, name in texts("ccan_script/ScriptNumber", "number_text").items():
        said = [re.search(rf"^{it} {variant} = (\w+)$", text, re.MULTILINE)[1] for it in ("least_of", "greatest_of", "default_of")]
        found[name] = tuple(int(it) if it.isdecimal() else known[it] for it in said)
    return found
