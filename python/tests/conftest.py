"""What the tests share."""
from __future__ import annotations

import os
import pathlib
import shutil
from typing import Iterator

import pytest

import ccan

#: The top of the repository.
TOP = pathlib.Path(__file__).resolve().parents[2]


@pytest.fixture
def chip() -> Iterator[ccan.Chip]:
    """A chip whose registers are all zero, with two other nodes."""
    with ccan.Chip(other_nodes=2, zeroed=True) as opened:
        yield opened


@pytest.fixture
def shared() -> Iterator[ccan.Chip]:
    """The same for several threads."""
    with ccan.Chip(other_nodes=2, zeroed=True, concurrent=True) as opened:
        yield opened


@pytest.fixture
def lab() -> None:
    """Skips the test where the program is not there."""
    if shutil.which(os.environ.get("CCAN_LAB", "ccan-lab")) is None:
        pytest.skip("there is no program ccan-lab")
