"""The example scripts, played on a chip: each line has to answer what the example's text says."""
from __future__ import annotations

import json
from typing import Any, Callable, Dict, Iterator

import pytest

import ccan
from conftest import TOP

#: Those of a quota are of scripts alone: a chip has none.
EXAMPLES = sorted(path for path in (TOP / "examples").glob("*.json") if path.stem != "spent_quota")

ROUNDS = {
    ccan.RoundKind.IDLE: "idle",
    ccan.RoundKind.PASSED: "passed",
    ccan.RoundKind.COLLISION: "collision",
    ccan.RoundKind.NO_ACK: "ack",
    ccan.RoundKind.FAULT: "fault",
}
FAULTS = {"none": ccan.Fault.QUIET, **{fault.name.lower(): fault for fault in ccan.Fault if fault}}


def shown(record: ccan.Record) -> str:
    return f"{record.arbitration:08x} {record.masks:08x} {record.control:04x} {record.data.hex()}"


def shown_flags(chip: ccan.Chip, word: int) -> str:
    return f"{word:0{chip.objects // 4}x}"


def object_of(chip: ccan.Chip, request: int) -> int:
    """The object of a request, by the table of docs/REGISTERS.md, "Command Request"."""
    return ((request & 63) - 1) % chip.objects + 1


class Player:
    """Plays lines of a script on a chip, and writes what each answers as docs/OUTPUT.md has it."""

    def __init__(self, chip: ccan.Chip) -> None:
        self.chip = chip

    def host(self, name: str, line: Dict[str, Any]) -> str:
        port: ccan.HostPort = getattr(self.chip, name)
        if line["op"] == "transfer":
            request = int(line["request"], 16)
            record = port.transfer(request, **{name: int(value, 16) for name, value in line.get("set", {}).items()})
            done = "write" if port["CMASK"] & ccan.CommandMask.WRITE else "read"
            return f"{name} {done} {object_of(self.chip, request):02} {shown(record)}"
        if line["op"] == "until":
            seen = port.until(line["object"], ccan.Flag[line["flag"].upper()], line["turns"])
            return f"{name} until {line['object']:02} {line['flag']} {'yes' if seen else 'no'}"
        return self.either(name, port, line)

    def either(self, name: str, port: ccan.Port, line: Dict[str, Any]) -> str:
        if line["op"] == "interrupt":
            return f"{name} interrupt {port.interrupt():04x}"
        assert line["op"] == "flags"
        return f"{name} flags {line['flag']} {shown_flags(self.chip, port.flags(ccan.Flag[line['flag'].upper()]))}"

    def bus(self, line: Dict[str, Any]) -> str:
        bus = self.chip.bus
        answers: Dict[str, Callable[[], str]] = {
            "load": self.load,
            "round": lambda: self.round(line),
            "status": lambda: f"status {bus.status():04x}",
            "counters": lambda: self.counters(line["node"]),
            "recessive": lambda: f"recessive {bus.recessive(line['groups']).name.lower()}",
        }
        switches: Dict[str, Callable[..., None]] = {"control": bus.control, "init": bus.init, "loopback": bus.loop_back}
        if line["op"] in switches:
            values = [line[name] for name in ("sie", "eie", "on") if name in line]
            switches[line["op"]](*values)
            return " ".join(["bus", line["op"], *map(str, values)])
        return f"bus {answers[line['op']]()}" if line["op"] in answers else self.either("bus", bus, line)

    def load(self) -> str:
        loaded = self.chip.bus.load()
        if loaded.kind is ccan.LoadKind.NOTHING:
            return "loaded none"
        if loaded.kind is ccan.LoadKind.HELD:
            return f"held {loaded.object:02}"
        assert loaded.held is not None
        return f"loaded {loaded.object:02} {shown(loaded.held)}"

    def counters(self, node: int) -> str:
        counts = self.chip.bus.counters(node)
        return f"counters {node} {counts.tec} {counts.rec} {counts.state.name.lower()}"

    def round(self, line: Dict[str, Any]) -> str:
        frames = {frame["node"]: frame_of(frame) for frame in line.get("send", [])}
        outcome = self.chip.bus.round(frames, FAULTS[line.get("fault", "none")])
        stored = "none" if outcome.stored_record is None else f"{outcome.stored:02} {shown(outcome.stored_record)}"
        if outcome.kind is ccan.RoundKind.SENT:
            assert outcome.finished is not None
            return f"sent {outcome.object:02} {shown(outcome.finished)}"
        if outcome.kind is ccan.RoundKind.RECEIVED:
            return f"received {stored}"
        if outcome.kind is ccan.RoundKind.LOOPED:
            return f"looped {outcome.object:02} {stored}"
        return ROUNDS[outcome.kind]


def frame_of(frame: Dict[str, Any]) -> ccan.Frame:
    data = bytes.fromhex(frame.get("data", ""))
    return ccan.Frame(frame["id"], data, bool(frame.get("xtd", 0)), bool(frame.get("rtr", 0)), frame.get("dlc", 0))


def printed(script: Dict[str, Any]) -> Iterator[str]:
    """What a script prints, played on a chip."""
    lines = {port: iter(script.get(port, [])) for port in ("if1", "if2", "bus")}
    order = script.get("order", [port for port in lines for _ in script.get(port, [])])
    chip = ccan.Chip({1: 32, 2: 64}[script.get("profile", 1)], script.get("nodes", 0), zeroed=True)
    player = Player(chip)
    for port in order:
        line = next(lines[port])
        yield player.bus(line) if port == "bus" else player.host(port, line)
    for number, record in enumerate(chip.end(), start=1):
        if record != ccan.Record():
            yield f"final {number:02} {shown(record)}"


@pytest.mark.parametrize("path", EXAMPLES, ids=lambda path: str(path.stem))
def test_example(path: Any) -> None:
    expected = path.with_name(path.name + ".stdout").read_text().splitlines()
    assert list(printed(json.loads(path.read_text()))) == expected
