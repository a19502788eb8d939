"""The calls of the library that lines of made scripts stand for, as text for tools/test/c/replay.c and
tools/test/c/replay_network.c."""
from second_model import D_CAN, INTERFACES, REGISTER_LINES, in_layout, number_of

NAMES = ("cmask", "mask1", "mask2", "arb1", "arb2", "ctrl", "dataa1", "dataa2", "datab1", "datab2")
# what is written into the Command Request of a D_CAN beside the numbers of objects: the number has eight bits
WILD_REQUESTS = ("0", "21", "40", "41", "80", "81", "ff", "120", "101")


def register_call(port, line, layout):
    """A read or a write of a register by its offset, or of a word of 32 bits, or the interrupt line."""
    if line["op"] == "line":
        return f"{port} line"
    place = line["place"] if "place" in line else in_layout(layout, line["offset"])
    words = [port, line["op"], f"{place:04x}"]
    return " ".join(words + ([f"{line['value']:x}"] if "value" in line else []))


def at_offsets(port, line, layout):
    """A transfer by registers at their offsets. The places of the registers that show it come with the request."""
    places = [in_layout(layout, INTERFACES[port] + 2 * number) for number in range(11)]
    sets = [f"{port} set16 {places[1 + NAMES.index(name)]:04x} {text}" for name, text in line.get("set", {}).items()]
    return sets + [" ".join([port, "request16", line["request"], *(f"{place:04x}" for place in places)])]


def in_words(port, line, layout):
    """As `at_offsets`, by words of 32 bits, but where half of a word is to stay as it is. The request comes last; where Command
    Mask is in its word, both are one call."""
    places = [in_layout(layout, INTERFACES[port] + 2 * number) for number in range(11)]
    values = {places[1 + NAMES.index(name)]: int(text, 16) for name, text in line.get("set", {}).items()}
    values[places[0]] = int(line["request"], 16)
    calls = []
    for word in sorted({place & ~3 for place in values}, reverse=True):
        halves = [place for place in (word, word + 2) if place in places]
        if all(place in values for place in halves):
            value = sum(values[place] << 8 * (place - word) for place in halves)
            calls.append(f"{port} set32 {word:04x} {value:08x}")
        else:
            calls += [f"{port} set16 {place:04x} {values[place]:04x}" for place in halves if place in values]
    return calls + [" ".join([port, "shown32", line["request"], *(f"{place:04x}" for place in places)])]


def host_calls(port, line, layout, objects, dice):
    """The calls that a line of a host stands for. Of a transfer by registers the line says so, since that of a D_CAN may do more.
    Most requests of a D_CAN get the number of an object, and some one that no object may have."""
    if line["op"] in REGISTER_LINES:
        return [register_call(port, line, layout)]
    if line["op"] == "transfer" and dice.randrange(2):
        line["by_offset"] = True
        if layout == D_CAN:
            line["request"] = f"{number_of(line['request'], objects):x}" if dice.randrange(8) else dice.choice(WILD_REQUESTS)
        return dice.choice((at_offsets, in_words))(port, line, layout)
    if line["op"] == "transfer":
        sets = [f"{port} set {name} {text}" for name, text in line.get("set", {}).items()]
        return sets + [f"{port} request {line['request']}"]
    if line["op"] == "until":
        return [f"{port} until {line['object']} {line['flag']} {line['turns']}"]
    return [" ".join([port, line["op"]] + ([line["flag"]] if line["op"] == "flags" else []))]
