"""Questions about scripts, which the program ``ccan-lab`` answers.

Its manual page, docs/FORMATS.md and docs/OUTPUT.md say what each answer is.
"""
from __future__ import annotations

import dataclasses
import json
import os
import re
import shutil
import subprocess
from typing import Any, Dict, List, Mapping, Optional, Sequence, Tuple, Type, Union

#: A script: an object as JSON has it, or the path of a file.
Script = Union[Mapping[str, Any], str, "os.PathLike[str]"]


class LabError(Exception):
    """``ccan-lab`` ended with another status than 0.

    Attributes
    ----------
    status : int
        Its exit status, negative where a signal ended it.
    output : str
        What it wrote on standard output.
    told : str
        What it told on standard error.
    """

    def __init__(self, status: int, output: str, told: str) -> None:
        super().__init__((told or output).strip() or f"ccan-lab ended with status {status}")
        self.status = status
        self.output = output
        self.told = told


class LabNotFoundError(FileNotFoundError):
    """There is no program ``ccan-lab``."""


class ScriptError(LabError, ValueError):
    """Status 1: the script is refused, or has faults. ``output`` lists those that a check found."""


class LabUsageError(LabError, ValueError):
    """Status 2: the program does not take these words, or a name is that of no line and no object of the script."""


class LabMemoryError(LabError, MemoryError):
    """Status 3: the program ran out of memory."""


class LabStreamError(LabError):
    """Status 4: the script could not be opened or read, or the answer not be written."""


class TooManyStatesError(LabError):
    """Status 5: the search comes to more states than it may keep, or the outcomes to more nodes.

    If only the nodes are too many, ``output`` of a short list still says what each line may be, without the number of outcomes, and a
    search for lines ends so only if they are several, each of which some outcome has.
    """


class NotAsAskedError(LabError, AssertionError):
    """Status 6: an outcome has the line that none should have, or none has the one that was asked for. ``output`` shows it."""


class ScriptWarningsError(LabError):
    """Status 7: a strict check found warnings, and no faults. ``output`` lists them."""


class OtherTextError(LabError, AssertionError):
    """Status 8: the run prints another text than was expected. ``output`` shows the first difference."""


class NoSuchOutcomeError(LabError, LookupError):
    """Status 9: there is no outcome of this number."""


_BY_STATUS: Dict[int, Type[LabError]] = {
    1: ScriptError,
    2: LabUsageError,
    3: LabMemoryError,
    4: LabStreamError,
    5: TooManyStatesError,
    6: NotAsAskedError,
    7: ScriptWarningsError,
    8: OtherTextError,
    9: NoSuchOutcomeError,
}


def program() -> str:
    """The program: ``CCAN_LAB`` of the environment, or else ``ccan-lab`` on the path.

    Raises
    ------
    LabNotFoundError
        Where there is none.
    """
    named = os.environ.get("CCAN_LAB", "ccan-lab")
    found = shutil.which(named)
    if found is None:
        raise LabNotFoundError(f"the program {named!r} was not found; set CCAN_LAB to its path, or add its folder to PATH")
    return found


def _named(path: Union[str, "os.PathLike[str]"]) -> str:
    """A path that the program takes for no option."""
    name = os.fspath(path)
    return f"./{name}" if name.startswith("-") else name


def _answer(command: str, script: Script, *words: str) -> str:
    """What a command of the program writes of a script. Raises the exception of its status."""
    call, given = [program(), command, *words], b""
    if isinstance(script, Mapping):
        given = json.dumps(script).encode()
    else:
        call.append(_named(script))
    run = subprocess.run(call, input=given, capture_output=True, check=False)
    output, told = run.stdout.decode(), run.stderr.decode()
    if run.returncode != 0:
        raise _BY_STATUS.get(run.returncode, LabError)(run.returncode, output, told)
    return output


def _bound(most: Optional[int]) -> List[str]:
    return [] if most is None else [f"--most={most}"]


def _framed(frames: bool) -> List[str]:
    return ["--frames"] if frames else []


@dataclasses.dataclass(frozen=True)
class ScriptOutcomes:
    """What can come of a script when its two hosts and its bus run at once.

    Attributes
    ----------
    count : int
        How many outcomes there are.
    same : tuple of str
        The lines that are the same in all outcomes. Behind the line of a round and a line feed is its frame, if that is asked for.
    may_be : dict of str to tuple of str
        What each other line may be, by its head, as ``if1[2]`` or ``final 01``.
    """

    count: int
    same: Tuple[str, ...]
    may_be: Mapping[str, Tuple[str, ...]]


def _read_outcomes(text: str) -> ScriptOutcomes:
    first, *rest = text.splitlines()
    heading = re.fullmatch(r"(?:at least )?(\d+) outcomes?", first)
    if heading is None:
        raise ValueError(f"ccan-lab began with {first!r}")
    same: List[str] = []
    may_be: Dict[str, List[str]] = {}
    head, last = "", same
    for line in rest:
        if line.startswith("same in all: "):
            last = same
            last.append(line[len("same in all: ") :])
        elif line.startswith("  may be: "):
            last = may_be[head]
            last.append(line[len("  may be: ") :])
        elif line.startswith("    can0 "):
            last[-1] += "\n" + line
        elif line != "each outcome, with a history: --all":
            head = line
            may_be[head] = []
    lines = {head: tuple(each) for head, each in may_be.items()}
    return ScriptOutcomes(int(heading[1]), tuple(same), lines)


def outcomes(script: Script, *, frames: bool = False, most: Optional[int] = None) -> ScriptOutcomes:
    """Every outcome of a script under any schedule, in short.

    Parameters
    ----------
    script : dict or path
        The script.
    frames : bool
        Whether outcomes are told apart by the frames that won the bus too, each below the line of its round.
    most : int, optional
        The most states to keep, and the most nodes that the outcomes are put together of; a million if left out.

    Raises
    ------
    LabError
        By the status of the program: :class:`ScriptError`, :class:`TooManyStatesError` and others.
    """
    return _read_outcomes(_answer("outcomes", script, *_framed(frames), *_bound(most)))


def outcomes_text(
    script: Script,
    *,
    observe: Sequence[str] = (),
    brief: bool = False,
    frames: bool = False,
    most: Optional[int] = None,
) -> str:
    """The list of every outcome with a history, as ``ccan-lab outcomes --all`` prints it.

    Parameters
    ----------
    script : dict or path
        The script.
    observe : sequence of str
        Lines and objects, as ``if1[2]`` or ``final 01``: only what they can be is told apart.
    brief : bool
        Whether each history has few lines, with what each change left and each frame on the bus.
    frames, most : optional
        As with :func:`outcomes`.
    """
    observed = ["--observe", ",".join(observe)] if observe else []
    short = ["--brief"] if brief else []
    return _answer("outcomes", script, "--all", *observed, *short, *_framed(frames), *_bound(most))


def outcomes_data(script: Script, *, frames: bool = False, most: Optional[int] = None) -> Dict[str, Any]:
    """The same list as ``ccan-lab outcomes --json`` prints it, decoded: each outcome with what the steps of its history changed.

    Parameters
    ----------
    script : dict or path
        The script.
    frames, most : optional
        As with :func:`outcomes`.
    """
    data: Dict[str, Any] = json.loads(_answer("outcomes", script, "--json", *_framed(frames), *_bound(most)))
    return data


def can_come(script: Script, line: str, *more: str, most: Optional[int] = None) -> str:
    """The first outcome that has a line which begins so, for each line that is given, with its history. A ``*`` is any bytes. A line
    of a frame is, for example, ``can0 123#1122``. If the outcomes need too many nodes, it says only that an outcome has the line.

    Raises
    ------
    NotAsAskedError
        Where no outcome has one.
    """
    return _answer("outcomes", script, *(f"--can={each}" for each in (line, *more)), *_bound(most))


def never_comes(script: Script, line: str, *more: str, most: Optional[int] = None) -> None:
    """Asks that no outcome has a line which begins so, for each line that is given. A ``*`` is any bytes. It is a test: its
    exception shows the outcome that has them.

    Raises
    ------
    NotAsAskedError
        Where an outcome has one. It is an ``AssertionError``.
    """
    _answer("outcomes", script, *(f"--never={each}" for each in (line, *more)), *_bound(most))


def explain(script: Script) -> List[Dict[str, Any]]:
    """A run of the script in its order, told line by line: the objects that ``ccan-lab explain --json`` prints."""
    return [json.loads(line) for line in _answer("explain", script, "--json").splitlines()]


def explain_text(script: Script) -> str:
    """The same for people, as ``ccan-lab explain`` prints it."""
    return _answer("explain", script)


def candump(script: Script) -> str:
    """The frames that the nodes of the bus received, as ``candump -L`` writes them."""
    return _answer("explain", script, "--candump")


def draw(script: Script, *, outcome: Optional[int] = None) -> str:
    """A run of the script as one picture, a text in SVG; or the outcome of this number in the list of all."""
    return _answer("draw", script, *([] if outcome is None else [f"--outcome={outcome}"]))


@dataclasses.dataclass(frozen=True)
class Finding:
    """A fault or a warning of a script.

    Attributes
    ----------
    line, column : int
        Its place, both from 1, the column in bytes.
    is_warning : bool
        Whether it is a warning.
    words : str
        What is wrong, and what would be right.
    """

    line: int
    column: int
    is_warning: bool
    words: str


def findings_in(output: str) -> Tuple[Finding, ...]:
    """The findings that a check wrote, as the ``output`` of a :class:`ScriptError` has them."""
    found = re.finditer(r"^.*?:(\d+):(\d+): (warning: )?(.*)$", output, re.MULTILINE)
    return tuple(Finding(int(each[1]), int(each[2]), each[3] is not None, each[4]) for each in found)


def check(script: Script, *, strict: bool = False, expect: Union[str, "os.PathLike[str]", None] = None) -> Tuple[Finding, ...]:
    """Checks a script, which is not run, and gives its warnings.

    Parameters
    ----------
    script : dict or path
        The script.
    strict : bool
        Whether warnings raise, too.
    expect : path, optional
        A file with what a run of the script has to print: it is then run, and the text compared.

    Raises
    ------
    ScriptError
        Where it has faults.
    ScriptWarningsError
        Where `strict` is True, and it has warnings alone.
    OtherTextError
        Where the run prints another text.
    """
    words = ["--strict"] if strict else []
    if expect is not None:
        words += ["--expect", _named(expect)]
    return findings_in(_answer("check", script, *words))
