"""Scripts in order and faulty ones, each with what the program says of it, for tools/test/check_documents and tools/test/check_faulty_scripts."""

import json

LINE = {"op": "interrupt"}


def transfer(**members):
    return {"if1": [{"op": "transfer", **members}]}


def until(**members):
    return {"if1": [{"op": "until", "object": 1, "flag": "newdat", "turns": 1, **members}]}


def bus(line, nodes=1):
    return {"nodes": nodes, "bus": [line]}


def sends(*frames, nodes=1):
    return bus({"op": "round", "send": list(frames)}, nodes)


def frame(**members):
    return sends({"node": 1, "id": 1, **members})


# Scripts in order, with values at the ends of their ranges.
TAKEN = [
    *((f"{dlc} for a length code", frame(dlc=dlc, data="00" * min(dlc, 8))) for dlc in range(16)),
    *((f"node {n} of {n}", sends({"node": n, "id": 1}, nodes=n)) for n in range(1, 9)),
    ("nothing at all", {}),
    ("no nodes, and nothing at all on the bus", bus({"op": "round", "send": []}, 0)),
    ("the least numbers", {"profile": 1, "quota": 1, "tries": 1, "nodes": 0, "if1": [], "if2": [], "bus": [], "order": []}),
    ("the greatest numbers", {"profile": 2, "quota": 4096, "tries": 1000, "nodes": 8}),
    ("2,000 lines in a list", {"if2": [LINE] * 2000}),
    ("6,000 names in order", {p: [LINE] * 2000 for p in ("if1", "if2", "bus")} | {"order": ["if1", "if2", "bus"] * 2000}),
    ("digits of either case", transfer(request="00fF", set={"arb2": "A48c"})),
    ("a transfer that sets nothing", transfer(request="0001", set={})),
    ("object 32 in profile 1", until(object=32, turns=1000000)),
    ("object 64 in profile 2", until(object=64) | {"profile": 2}),
    ("the greatest standard identifier", frame(id=2047)),
    ("the greatest extended identifier", frame(id=536870911, xtd=1)),
    ("a length code of 15 with 8 bytes", frame(dlc=15, data="0102030405060708")),
    ("a length code of 0 with its empty text", frame(dlc=0, data="")),
    ("a remote frame with a length code and no data", frame(rtr=1, dlc=8)),
    ("a standard data frame that says so", frame(xtd=0, rtr=0, dlc=1, data="aF")),
    ("eight nodes that send", sends(*({"node": n, "id": n} for n in range(1, 9)), nodes=8)),
    ("the counters of the last node", bus({"op": "counters", "node": 8}, 8)),
    ("the counters of the controller where it is alone", bus({"op": "counters", "node": 0}, 0)),
    ("every bus line", {"bus": [
        {"op": "load"}, {"op": "round", "fault": "none"}, {"op": "status"}, {"op": "control", "sie": 0, "eie": 1},
        {"op": "interrupt"}, {"op": "flags", "flag": "msgval"}, {"op": "counters", "node": 0}, {"op": "init"},
        {"op": "recessive", "groups": 10000}, {"op": "loopback", "on": 1}]}),
    ("every line of a host", {"if2": [
        {"op": "transfer", "request": "0001"}, {"op": "until", "object": 1, "flag": "txrqst", "turns": 1},
        {"op": "interrupt"}, {"op": "flags", "flag": "msglst"}]}),
]

# Faulty scripts that the schema has to refuse, each with what the program says of it.
REFUSED = [
    ("shape, top 0", "no object", []),
    ("not JSON", "too deep for the program's parser; here refused as no object", json.loads("[" * 200 + "]" * 200)),
    ("shape, top 0", "an unknown member; quota isn't looked at", {"foo": 1, "quota": 0}),
    ("shape, top 0", "a member $schema", {"$schema": "script.schema.json"}),
    ("range, top 0", "profile 3", {"profile": 3}),
    ("shape, top 0", "profile as a text", {"profile": "2"}),
    ("range, top 0", "quota 0; tries isn't looked at", {"quota": 0, "tries": "x"}),
    ("range, top 0", "quota 4097", {"quota": 4097}),
    ("shape, top 0", "a number with a sign", {"quota": -1}),
    ("shape, top 0", "a number with a fraction", {"quota": 1.5}),
    ("shape, top 0", "true for a number", {"tries": True}),
    ("range, top 0", "tries 1001", {"tries": 1001}),
    ("range, top 0", "nodes 9", {"nodes": 9}),
    ("shape, if1 0", "a list that is none", {"if1": LINE}),
    ("too many, if2", "2,001 lines", {"if2": [LINE] * 2001}),
    ("shape, if1 0", "a line that is no object", {"if1": ["interrupt"]}),
    ("shape, if1 0", "a line without op", {"if1": [{}]}),
    ("shape, if1 0", "an operation of the bus", {"if1": [{"op": "round"}]}),
    ("shape, bus 0", "an operation of a host", bus({"op": "transfer", "request": "0001"})),
    ("shape, if1 0", "a member too many", {"if1": [{"op": "interrupt", "object": 1}]}),
    ("shape, if1 0", "a member too few", {"if1": [{"op": "flags"}]}),
    ("shape, if1 0", "a request of one digit", transfer(request="1")),
    ("shape, if1 0", "a request of five digits", transfer(request="00001")),
    ("shape, if1 0", "a request with 0x", transfer(request="0x01")),
    ("shape, if1 0", "a request as a number", transfer(request=1)),
    ("shape, if1 0", "an unknown register", transfer(request="0001", set={"foo": "0000"})),
    ("shape, if1 0", "a register as a number", transfer(request="0001", set={"ctrl": 88})),
    ("shape, if1 0", "an unknown flag", until(flag="eob")),
    ("range, if1 0", "object 33 in profile 1, and no turns", until(object=33, turns=0)),
    ("range, if1 0", "object 33 in profile 1", until(object=33)),
    ("range, if1 0", "object 65 in profile 2", until(object=65) | {"profile": 2}),
    ("range, if1 0", "object 0", until(object=0)),
    ("range, if1 0", "1,000,001 turns", until(turns=1000001)),
    ("range, bus 0", "a node where there are none", sends({"node": 1, "id": 1}, nodes=0)),
    ("range, bus 0", "the same, nodes left out", {"bus": [{"op": "round", "send": [{"node": 1, "id": 1}]}]}),
    ("range, bus 0", "node 2 of one", sends({"node": 2, "id": 1})),
    ("range, bus 0", "node 8 of seven", sends({"node": 8, "id": 1}, nodes=7)),
    ("range, bus 0", "a frame of node 0", sends({"node": 0, "id": 1})),
    ("range, bus 0", "the counters of node 2 of one", bus({"op": "counters", "node": 2})),
    ("shape, bus 0", "two frames of one node", sends({"node": 1, "id": 1}, {"node": 1, "id": 2})),
    ("shape, bus 0", "nine frames", sends(*({"node": n % 8 + 1, "id": n} for n in range(9)), nodes=8)),
    ("shape, bus 0", "a frame that is no object", sends("0001")),
    ("shape, bus 0", "a length code with a fraction", frame(dlc=9.5, data="0102030405060708")),
    ("range, bus 0", "a standard identifier of 2048", frame(id=2048)),
    ("range, bus 0", "the same with xtd 0", frame(id=2048, xtd=0)),
    ("range, bus 0", "an extended identifier of 536870912", frame(id=536870912, xtd=1)),
    ("shape, bus 0", "an identifier as a text", frame(id="123")),
    ("range, bus 0", "xtd 2", frame(xtd=2)),
    ("shape, bus 0", "rtr true", frame(rtr=True)),
    ("range, bus 0", "a length code of 16", frame(dlc=16, data="0102030405060708")),
    ("shape, bus 0", "one byte of two", frame(dlc=2, data="01")),
    ("shape, bus 0", "a byte too many", frame(dlc=2, data="010203")),
    ("shape, bus 0", "nine bytes", frame(dlc=9, data="010203040506070809")),
    ("shape, bus 0", "a length code and no data", frame(dlc=1)),
    ("shape, bus 0", "data and no length code", frame(data="01")),
    ("shape, bus 0", "data in a remote frame", frame(rtr=1, dlc=1, data="01")),
    ("shape, bus 0", "an odd number of digits", frame(dlc=1, data="011")),
    ("shape, bus 0", "a digit that is none", frame(dlc=1, data="0g")),
    ("shape, bus 0", "an unknown fault", bus({"op": "round", "fault": "ack"})),
    ("range, bus 0", "sie 2", bus({"op": "control", "sie": 2, "eie": 0})),
    ("shape, bus 0", "control without eie", bus({"op": "control", "sie": 1})),
    ("range, bus 0", "no groups", bus({"op": "recessive", "groups": 0})),
    ("range, bus 0", "10,001 groups", bus({"op": "recessive", "groups": 10001})),
    ("range, bus 0", "loop back 2", bus({"op": "loopback", "on": 2})),
    ("shape, order 0", "no list", {"order": "if1"}),
    ("shape, order 0", "an unknown port", {"order": ["if3"]}),
    ("too many, order", "6,001 names", {"bus": [LINE], "order": ["bus"] * 6001}),
    ("order, bus", "a port without lines", {"order": ["bus"]}),
    ("order, if1", "a port that is left out", {"if1": [LINE], "order": []}),
]

# One line of each kind with all its members; those of OPTIONAL may be left out.
HOST_LINES = [
    {"op": "transfer", "request": "0001", "set": {}},
    {"op": "until", "object": 1, "flag": "newdat", "turns": 1},
    {"op": "interrupt"},
    {"op": "flags", "flag": "newdat"},
]
BUS_LINES = [
    {"op": "load"},
    {"op": "round", "send": [], "fault": "none"},
    {"op": "status"},
    {"op": "control", "sie": 0, "eie": 0},
    {"op": "interrupt"},
    {"op": "flags", "flag": "newdat"},
    {"op": "counters", "node": 0},
    {"op": "init"},
    {"op": "recessive", "groups": 1},
    {"op": "loopback", "on": 0},
]
FRAME = {"node": 1, "id": 1, "xtd": 0, "rtr": 0, "dlc": 0, "data": ""}
OPTIONAL = {"set", "send", "fault", "xtd", "rtr", "dlc", "data"}
REGISTERS = ["cmask", "mask1", "mask2", "arb1", "arb2", "ctrl", "dataa1", "dataa2", "datab1", "datab2"]


def spoiled(members):
    """An object with a member too many, and with each member null, below 0, and, where it is demanded, left out."""
    yield members | {"foo": 0}
    for name, value in members.items():
        yield members | {name: None}
        if isinstance(value, int):
            yield members | {name: -1}
        if name not in OPTIONAL:
            yield {other: members[other] for other in members if other != name}


def spoiled_scripts():
    """Faulty scripts of each kind of line, register, frame, length and number of nodes."""
    for line in HOST_LINES:
        for wrong in spoiled(line):
            yield {"if1": [wrong]}
            yield {"if2": [wrong]}
    for line in BUS_LINES:
        for wrong in spoiled(line):
            yield {"bus": [wrong]}
    for wrong in spoiled(FRAME):
        yield sends(wrong)
    for name in REGISTERS:
        for text in ("", "000", "00000", "000g", "0001\n"):
            yield transfer(request="0001", set={name: text})
    for dlc in range(16):
        for digits in {0, 2, 4, 6, 8, 10, 12, 14, 16, 18} - {2 * min(dlc, 8)}:
            yield frame(dlc=dlc, data="0" * digits)
    for nodes in range(9):
        yield sends({"node": nodes + 1, "id": 1}, nodes=nodes)
        yield bus({"op": "counters", "node": nodes + 1}, nodes)
    for node in range(1, 9):
        yield sends({"node": node, "id": 1}, {"node": node, "id": 2}, nodes=8)
    for name in ("profile", "quota", "tries", "nodes", "if1", "if2", "bus", "order"):
        yield {name: None}
        yield {name: -1}
    for port in ("if1", "if2", "bus"):
        yield {"order": [port]}
        yield {port: [LINE], "order": []}
        yield {port: [LINE] * 2001}
    yield until(object=33) | {"profile": 1}
    yield {"if2": [until(object=33)["if1"][0]]}


# Faulty scripts that no schema can refuse, since it sees them as others that are in order.
BEYOND = [
    ("shape, top 0", "a schema takes 1.0 and 1e2 for whole numbers", '{"quota":1.0,"tries":1e2}'),
    ("order, if1", "a schema can't compare how often a name stands with the length of a list",
     '{"if1":[{"op":"interrupt"}],"order":["if1","if1"]}'),
    ("not fixed", "a schema doesn't see that a member is named twice", '{"quota":1,"quota":2}'),
]

# Bytes that no schema gets to see: they are no JSON, or too many.
UNSEEN = [
    ("not JSON", "the input is empty", b""),
    ("not JSON", "a script cut before its last byte", b'{"quota":1'),
    ("not JSON", "a byte that is no UTF-8", b'{"if1":[{"op":"transfer","request":"000\xff"}]}'),
    ("not JSON", "4,194,304 spaces", b" " * 4194304),
    ("input too long", "4,194,305 spaces; the length alone counts", b" " * 4194305),
]
