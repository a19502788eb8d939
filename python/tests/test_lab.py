"""The questions that ``ccan-lab`` answers. Answers are those of examples/, docs/FORMATS.md and docs/OUTPUT.md."""
from __future__ import annotations

import json
import os
import pathlib
import re
import stat
from typing import Any, Dict

import pytest

import ccan
from conftest import TOP

pytestmark = pytest.mark.usefixtures("lab")

LOST = TOP / "examples/questions/lost_message.json"
SCRIPT: Dict[str, Any] = {
    "if1": [{"op": "transfer", "request": "0001", "set": {"cmask": "00f3", "arb2": "a48c", "ctrl": "0088"}}]
}
#: A standard identifier that was not shifted: docs/FORMATS.md, "The check of a script".
UNSHIFTED: Dict[str, Any] = {
    "if1": [{"op": "transfer", "request": "0001", "set": {"cmask": "00f0", "arb2": "8123", "ctrl": "0080"}}]
}


def test_outcomes_of_a_race() -> None:
    outcomes = ccan.outcomes(LOST)
    assert outcomes.count == 4
    assert outcomes.same == ("if1 write 01 848c0000 00000000 8088 1111000000000000",)
    listed = LOST.with_name("lost_message.json.stdout").read_text().splitlines()
    assert list(outcomes.may_be) == [line for line in listed if re.fullmatch(r"(if1|bus)\[\d\]|final 01", line)]
    reads, _, rounds, finals = outcomes.may_be.values()
    assert reads == (
        "if1 read 01 848c0000 00000000 8088 1111000000000000",
        "if1 read 01 848c0000 00000000 c082 2222000000000000",
    )
    assert (rounds[-1], len(rounds), len(finals)) == ("bus received none", 3, 3)


def test_outcomes_of_a_script_as_an_object() -> None:
    outcomes = ccan.outcomes(json.loads(LOST.read_text()))
    assert outcomes == ccan.outcomes(str(LOST))
    assert ccan.outcomes({}).count == 1


def test_outcomes_by_their_frames() -> None:
    mixed = TOP / "examples/questions/mixed_frame.json"
    # The round is idle, or it loads and finishes behind any of the three writes, in this order.
    outcomes = ccan.outcomes(mixed, frames=True)
    assert outcomes.count == 7
    sent = "bus sent 01 a48c0000 00000000 0088 "
    assert outcomes.may_be["bus[0]"] == (
        "bus idle",
        sent + "1111000011110000\n    can0 123#1111000011110000",
        sent + "2222000011110000\n    can0 123#1111000011110000",
        sent + "2222000011110000\n    can0 123#2222000011110000",
        sent + "2222000022220000\n    can0 123#1111000011110000",
        sent + "2222000022220000\n    can0 123#2222000011110000",
        sent + "2222000022220000\n    can0 123#2222000022220000",
    )
    # Without frames it is told apart only behind which write the round finishes.
    assert ccan.outcomes(mixed).count == 4
    assert "can0 123#2222000011110000\n" in ccan.can_come(mixed, "can0 123#22220000*1111")
    with pytest.raises(ccan.NotAsAskedError):
        ccan.never_comes(mixed, "can0 123#2222000011110000")


def test_the_whole_list() -> None:
    script = TOP / "examples/outcomes/lost_message.json"
    assert ccan.outcomes_text(script) == script.with_name("lost_message.json.stdout").read_text()
    assert ccan.outcomes_text({}, observe=["final"], most=10).splitlines()[0] == "1 outcome, 1 as observed"


def test_the_whole_list_as_data() -> None:
    data = ccan.outcomes_data(LOST)
    assert (data["file"], data["count"], len(data["outcomes"])) == (str(LOST), 4, 4)
    # MsgLst is set where the frame is stored before the host has cleared NewDat: in the first two outcomes.
    losing = [
        outcome["number"]
        for outcome in data["outcomes"]
        if any(changed["after"]["msglst"] for step in outcome["history"] for changed in step["objects"])
    ]
    assert losing == [1, 2]
    assert ccan.outcomes_data({}, most=10)["outcomes"][0]["order"] == []


def test_questions() -> None:
    ccan.never_comes(LOST, "if1 busy")
    assert "bus received none" in ccan.can_come(LOST, "bus received none").splitlines()


def test_a_run_told_line_by_line() -> None:
    script = TOP / "examples/explain/lost_arbitration.json"
    assert ccan.explain_text(script) == script.with_name("lost_arbitration.json.stdout").read_text()
    told = ccan.explain(script)
    winner = next(line for line in told if line.get("answer") == "received")
    assert winner["port"] == "bus" and sorted(winner["lost"]) == [0, 2]
    assert winner["frame"] == {"node": 1, "id": 256, "xtd": 0, "rtr": 0, "dlc": 2, "data": "abcd"}
    assert winner["stored"]["number"] == 2


def test_a_log_and_a_picture() -> None:
    script = TOP / "examples/remote_answer.json"
    assert ccan.candump(script).splitlines()[1] == "(0000000001.000000) can0 123#1122334455667788"
    assert ccan.draw(script).startswith("<svg")
    assert ccan.draw(LOST, outcome=1) != ccan.draw(LOST)


def test_a_script_in_order_and_its_warnings() -> None:
    assert ccan.check(SCRIPT) == ()
    (finding,) = ccan.check(UNSHIFTED)
    assert finding.is_warning and finding.line == 1 and "has bits of an extended identifier" in finding.words


def test_a_run_as_expected() -> None:
    example = TOP / "examples/first_write.json"
    assert ccan.check(example, expect=example.with_name("first_write.json.stdout")) == ()


def test_faults_of_a_script() -> None:
    with pytest.raises(ccan.ScriptError) as caught:
        ccan.check({"nodes": 9, "bus": [{"op": "statis"}]})
    findings = ccan.findings_in(caught.value.output)
    assert [finding.words.split(":")[0] for finding in findings] == ["nodes", "bus[0].op"]
    assert not any(finding.is_warning for finding in findings)


def test_a_path_that_begins_as_an_option(tmp_path: pathlib.Path, monkeypatch: pytest.MonkeyPatch) -> None:
    monkeypatch.chdir(tmp_path)
    (tmp_path / "--json").write_text("{}")
    assert ccan.check("--json") == ()


#: What is asked, and the exception with the exit status.
STATUSES: Dict[int, Any] = {
    1: (lambda: ccan.explain({"if1": 0}), ccan.ScriptError, "ccan: script: shape, if1 0"),
    2: (lambda: ccan.outcomes_text({}, observe=["if3"]), ccan.LabUsageError, "name 1 is no line or object"),
    4: (lambda: ccan.explain("/nowhere/script.json"), ccan.LabStreamError, "file could not be opened"),
    5: (lambda: ccan.outcomes(LOST, most=3), ccan.TooManyStatesError, "more than 3 states"),
    6: (lambda: ccan.never_comes(LOST, "bus received none"), ccan.NotAsAskedError, "bus received none"),
    7: (lambda: ccan.check(UNSHIFTED, strict=True), ccan.ScriptWarningsError, "warning:"),
    8: (lambda: ccan.check(SCRIPT, expect=os.devnull), ccan.OtherTextError, "expected the end, printed"),
    9: (lambda: ccan.draw(SCRIPT, outcome=2), ccan.NoSuchOutcomeError, "no outcome 2, the list has 1"),
}


@pytest.mark.parametrize("status", STATUSES)
def test_exit_statuses(status: int) -> None:
    call, kind, words = STATUSES[status]
    with pytest.raises(kind, match=words) as caught:
        call()
    assert caught.value.status == status
    assert words in caught.value.output + caught.value.told


@pytest.mark.parametrize("status, kind", [(3, ccan.LabMemoryError), (77, ccan.LabError), (-9, ccan.LabError)])
def test_statuses_of_a_stand_in(status: int, kind: Any, tmp_path: pathlib.Path, monkeypatch: pytest.MonkeyPatch) -> None:
    program = tmp_path / "ccan-lab"
    program.write_text(f"#!/bin/sh\n{'kill -9 $$' if status < 0 else f'exit {status}'}\n")
    program.chmod(program.stat().st_mode | stat.S_IXUSR)
    monkeypatch.setenv("CCAN_LAB", str(program))
    with pytest.raises(kind, match=f"ccan-lab ended with status {status}") as caught:
        ccan.explain({})
    assert caught.value.status == status and type(caught.value) is kind


def test_no_program(monkeypatch: pytest.MonkeyPatch) -> None:
    monkeypatch.setenv("CCAN_LAB", "/nowhere/ccan-lab")
    with pytest.raises(ccan.LabNotFoundError, match="'/nowhere/ccan-lab' was not found"):
        ccan.check({})


def test_a_program_that_answers_something_else(tmp_path: pathlib.Path, monkeypatch: pytest.MonkeyPatch) -> None:
    program = tmp_path / "ccan-lab"
    program.write_text("#!/bin/sh\necho something else\n")
    program.chmod(program.stat().st_mode | stat.S_IXUSR)
    monkeypatch.setenv("CCAN_LAB", str(program))
    with pytest.raises(ValueError, match="ccan-lab began with 'something else'"):
        ccan.outcomes({})
