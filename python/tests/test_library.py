"""The file that mirrors the header, against the header."""
from __future__ import annotations

import ctypes
import enum
import os
import re
import subprocess
import sys
from typing import Any, Dict, List, Type

import pytest

import ccan
from ccan import _library
from conftest import TOP

HEADER = (TOP / "include/ccan.h").read_text()
CODE = re.sub(r"/\*.*?\*/", "", HEADER, flags=re.DOTALL)

ENUMS: Dict[str, Type[enum.IntEnum]] = {
    "ccan_code": _library.Code,
    "ccan_layout": _library.Layout,
    "ccan_offset": _library.Offset,
    "ccan_register": _library.Register,
    "ccan_flag": _library.Flag,
    "ccan_load_kind": _library.LoadKind,
    "ccan_fault": _library.Fault,
    "ccan_round_kind": _library.RoundKind,
    "ccan_step": _library.Step,
    "ccan_state": _library.State,
    "ccan_role": _library.Role,
    "ccan_wire_kind": _library.WireKind,
    "ccan_part": _library.Part,
    "ccan_event": _library.Event,
    "ccan_counting": _library.Counting,
}

#: What stands before the names of an enum, where it is more than CCAN_.
PREFIXES = {
    "ccan_layout": "CCAN_LAYOUT_",
    "ccan_offset": "CCAN_OFFSET_",
    "ccan_load_kind": "CCAN_LOAD_",
    "ccan_step": "CCAN_STEP_",
    "ccan_role": "CCAN_ROLE_",
    "ccan_wire_kind": "CCAN_WIRE_",
    "ccan_part": "CCAN_PART_",
    "ccan_event": "CCAN_EVENT_",
    "ccan_counting": "CCAN_COUNTS_",
}

C_TYPES = {
    "bool": ctypes.c_bool,
    "void *": ctypes.c_void_p,
    "uint8_t": ctypes.c_uint8,
    "uint16_t": ctypes.c_uint16,
    "uint32_t": ctypes.c_uint32,
    "uint64_t": ctypes.c_uint64,
    "size_t": ctypes.c_size_t,
}


def numbers_of(body: str) -> Dict[str, int]:
    """The names of an enum of C with their numbers."""
    numbers: Dict[str, int] = {}
    following = 0
    for name, value in re.findall(r"(\w+)(?:\s*=\s*(\w+))?\s*(?:,|$)", body.strip()):
        following = int(value, 0) if value else following
        numbers[name] = following
        following += 1
    return numbers


def test_each_enum_is_mirrored() -> None:
    assert set(re.findall(r"enum (ccan_\w+)\s*\{", CODE)) == set(ENUMS)


@pytest.mark.parametrize("name", ENUMS)
def test_numbers_of_enums(name: str) -> None:
    body = re.search(rf"enum {name}\s*\{{(.*?)\}}", CODE, re.DOTALL)
    assert body is not None
    prefix = PREFIXES.get(name, "CCAN_")
    mirrored = {prefix + member.name: member.value for member in ENUMS[name]}
    assert mirrored == numbers_of(body[1])


def test_other_numbers() -> None:
    assert re.search(r"#define CCAN_VERSION (\d+)", HEADER)[1] == str(_library.VERSION)  # type: ignore[index]
    assert re.search(r"CCAN_NO_NODE = (\d+)", HEADER)[1] == str(_library.NO_NODE)  # type: ignore[index]


def test_texts() -> None:
    body = re.search(r"texts\[\] = \{(.*?)\};", HEADER, re.DOTALL)
    assert body is not None
    assert list(_library.TEXTS) == re.findall(r'"(.*?)"', body[1])
    assert _library.ccan_text(32) == "no code"


def field_types(fields: str) -> List[object]:
    """The names and types of the fields of a struct of C."""
    found: List[object] = []
    for kind, star, name, length in re.findall(r"(\w+)\s+(\*?)(\w+)(?:\[(\d+)\])?;", fields):
        base = C_TYPES.get(f"{kind} *" if star else kind) or getattr(_library, kind)
        found.append((name, base * int(length) if length else base))
    return found


@pytest.mark.parametrize("struct", _library.LAYOUT, ids=lambda struct: str(struct.__name__))
def test_structs(struct: Type[ctypes.Structure]) -> None:
    body = re.search(rf"typedef struct \{{([^}}]*)\}} {struct.__name__};", CODE)
    assert body is not None
    assert list(struct._fields_) == field_types(body[1])


def test_layout_is_that_of_the_asserts() -> None:
    asserted = re.findall(r"sizeof\((ccan_\w+)\) == (\d+)", HEADER)
    assert {struct.__name__: str(size) for struct, (size, _) in _library.LAYOUT.items()} == dict(asserted)
    offsets = {(struct.__name__, name, str(at)) for struct, (_, each) in _library.LAYOUT.items() for name, at in each.items()}
    assert offsets == set(re.findall(r"offsetof\((ccan_\w+), (\w+)\) == (\d+)", HEADER))


def test_a_layout_that_differs_is_refused(monkeypatch: pytest.MonkeyPatch) -> None:
    layout: Any = _library.LAYOUT
    monkeypatch.setitem(layout, _library.ccan_counts, (12, {"rec": 8}))
    with pytest.raises(ImportError, match="ccan_counts does not lie here as it does in the library"):
        _library._check_layout()


def test_functions() -> None:
    declared = dict(re.findall(r"^(?:CCAN_CODE|uint32_t|bool) (ccan_\w+)\((.*?)\);", CODE, re.MULTILINE))
    assert set(declared) == set(_library.CALLS) | {"ccan_version", "ccan_is_open", "ccan_bit_time"}
    for name, arguments in _library.CALLS.items():
        expected: List[object] = []
        for argument in declared[name].split(", "):
            kind, star = re.fullmatch(r"(?:const )?(\w+) (\*?)\w+", argument).groups()  # type: ignore[union-attr]
            base = C_TYPES.get(kind) or getattr(_library, kind)
            expected.append(ctypes.POINTER(base) if star else base)
        assert arguments == expected, name


def test_the_version_of_the_library() -> None:
    assert _library.lib.ccan_version() == _library.VERSION
    _library._check_version(_library.VERSION + 1)
    for other in (_library.VERSION - 1, _library.VERSION + 100):
        with pytest.raises(ImportError, match=f"the library is of version {other}"):
            _library._check_version(other)


def test_the_version_of_the_package() -> None:
    first, second, third = (int(number) for number in ccan.__version__.split("."))
    assert first * 10000 + second * 100 + third == _library.VERSION
    assert f'\nversion = "{ccan.__version__}"\n' in (TOP / "python/pyproject.toml").read_text()


def test_a_library_that_is_not_there() -> None:
    environment = {**os.environ, "CCAN_LIBRARY": "/nowhere/libccan.so.0"}
    run = subprocess.run([sys.executable, "-c", "import ccan"], env=environment, capture_output=True, text=True, check=False)
    assert run.returncode == 1
    assert "ImportError: the library libccan.so.0 was not found: /nowhere/libccan.so.0" in run.stderr
