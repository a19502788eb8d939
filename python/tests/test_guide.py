"""The guide docs/PYTHON.md: each block of Python runs, and prints the block of text below it."""
from __future__ import annotations

import contextlib
import importlib.util
import io
import re
from typing import Any, Dict, List, Tuple

import pytest

from conftest import TOP

#: The words of a block that needs another module, and of one that needs the program.
MODULES = {"import can\n": "can", "can.Bus(": "can", "import cantools\n": "cantools"}
QUESTIONS = ("ccan.outcomes(", "ccan.never_comes(")


def blocks() -> List[Tuple[int, str, str]]:
    """The blocks of Python: the line where each begins, its code, and what it has to print."""
    text = (TOP / "docs/PYTHON.md").read_text()
    found = re.finditer(r"```python\n(.*?)```\n(?:\n```text\n(.*?)```\n)?", text, re.DOTALL)
    return [(text.count("\n", 0, each.start()) + 1, each[1], each[2] or "") for each in found]


@pytest.fixture(scope="module")
def names() -> Dict[str, Any]:
    """The names that the blocks share, as the cells of a notebook do."""
    return {}


@pytest.mark.parametrize("line, code, printed", blocks(), ids=[f"line {line}" for line, _, _ in blocks()])
def test_block(line: int, code: str, printed: str, names: Dict[str, Any], request: pytest.FixtureRequest) -> None:
    for words, module in MODULES.items():
        if words in code and importlib.util.find_spec(module) is None:
            pytest.skip(f"{module} is not installed")
    if any(question in code for question in QUESTIONS):
        request.getfixturevalue("lab")
    out = io.StringIO()
    with contextlib.redirect_stdout(out):
        exec(compile("\n" * line + code, "docs/PYTHON.md", "exec"), names)
    assert out.getvalue() == printed


def test_no_sentence_is_long() -> None:
    text = re.sub(r"```.*?```", "", (TOP / "docs/PYTHON.md").read_text(), flags=re.DOTALL)
    pieces = [piece for line in text.splitlines() for cell in line.split("|") for piece in re.split(r"(?<=[.:?])\s", cell)]
    assert [piece for piece in pieces if len(piece.split()) > 35] == []


def test_each_public_name_is_in_the_guide_or_has_words() -> None:
    import ccan

    assert [name for name in ccan.__all__ if not (getattr(ccan, name).__doc__ or "").strip()] == []
