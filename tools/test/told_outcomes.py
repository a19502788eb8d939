"""Scripts whose hosts and bus race, and what can come of each, worked by hand from the rules: how many states the search keeps
(None where that was not worked out), how the lines begin that are looked at, and these lines of each outcome. Kept are the state in
which the ports begin, those from which more than one step is followed, and those in which all lines have run. States that differ
only in what was answered are one, and so are those that differ in how many changes were made, if no port can come to have none
left."""


def transfer(request, **registers):
    """A transfer of the object that the request names."""
    return {"op": "transfer", "request": request, **({"set": registers} if registers else {})}


def final(data):
    """The line of object 1 with these two data bytes."""
    return [f"final 01 00000000 00000000 0000 {data}000000000000"]


NEW, OLD = {"cmask": "0090", "ctrl": "8000"}, {"ctrl": "0000"}
PENDING = {"cmask": "0090", "ctrl": "2000"}
FLAGS = [{"op": "flags", "flag": "newdat"}]


def flags(word):
    """The line that answers this word of NewDat flags."""
    return [f"if1 flags newdat {word}"]


def seen(flag, value):
    """The lines of IF1 that looks at IntPnd of object 2, and then asks for the interrupt value."""
    return [f"if1 until 02 intpnd {flag}", f"if1 interrupt {value}"]


TOLD = [
    # Each host writes the data of object 1 once. The later write stands at the end. Kept are the beginning and the two ends: no try
    # can be lost for good, so each write is one step, and where one host has done, the other goes on alone.
    (
        {
            "if1": [transfer("0001", cmask="0082", dataa1="1111")],
            "if2": [transfer("0001", cmask="0082", dataa1="2222")],
        },
        3,
        "final",
        [final("1111"), final("2222")],
    ),
    # IF2 sets NewDat of object 1, then of object 32, clears that of 32, and then that of 1, while IF1 looks at 1, at 2, and so on
    # up to 32. Nothing is shown where both looks come before all, 1 alone where both come between the first write and the second,
    # and both where the look at 1 comes there and that at 32 between the second and the third. And 32 alone is shown, as at no
    # moment, where the look at 1 comes before the first write and that at 32 between the second and the third.
    (
        {
            "if1": FLAGS,
            "if2": [transfer("0001", **NEW), transfer("0020"), transfer("0020", **OLD), transfer("0001")],
        },
        None,
        "if1",
        [flags("00000000"), flags("00000001"), flags("80000000"), flags("80000001")],
    ),
    # IF2 sets NewDat of object 32 first and then that of object 1. Where the look at 1 shows it, 32 has it already, and the look at
    # 32 comes later: so 1 alone can't be shown. The other three words can.
    (
        {"if1": FLAGS, "if2": [transfer("0020", **NEW), transfer("0001")]},
        None,
        "if1",
        [flags("00000000"), flags("80000000"), flags("80000001")],
    ),
    # IF2 sets IntPnd of object 2, and then of object 1. IF1 looks at object 2 once, and then asks for the interrupt value. Where the
    # look shows the flag, the value can't be 0, since object 2 keeps it; it is 1 where object 1 is set before the look at it, and
    # 2 else. Where the look doesn't show it, 0 can come too: all looks come before the first write.
    (
        {
            "if1": [{"op": "until", "object": 2, "flag": "intpnd", "turns": 1}, {"op": "interrupt"}],
            "if2": [transfer("0002", **PENDING), transfer("0001")],
        },
        None,
        "if1",
        [seen("no", "0000"), seen("no", "0001"), seen("no", "0002"), seen("yes", "0001"), seen("yes", "0002")],
    ),
    # 32 looks for something to send, then the decision: nothing is on the bus. One step comes after the other, so only the first
    # state is kept and the last.
    ({"bus": [{"op": "round"}]}, 2, "bus", [["bus idle"]]),
    # With a frame, 32 looks more for an object that takes it, and none does.
    ({"nodes": 1, "bus": [{"op": "round", "send": [{"node": 1, "id": 291, "dlc": 0}]}]}, 2, "bus", [["bus received none"]]),
    # IF1 requests the transmission of object 1 and then writes other data into it, while the bus loads. Kept are the beginning, the
    # state between the two writes, and the three ends, which differ in what is loaded. The look that finds the object and its start
    # are one step, so no state is kept between them; and if object 1 is looked at before the first write, nothing is found.
    (
        {
            "if1": [
                transfer("0001", cmask="00b3", arb2="a48c", ctrl="0188", dataa1="1111"),
                transfer("0001", cmask="0082", dataa1="2222"),
            ],
            "bus": [{"op": "load"}],
        },
        5,
        "bus",
        [
            ["bus loaded 01 a48c0000 00000000 0188 1111000000000000"],
            ["bus loaded 01 a48c0000 00000000 0188 2222000000000000"],
            ["bus loaded none"],
        ],
    ),
    # Lines without a look are run at once.
    (
        {"bus": [{"op": "status"}, {"op": "init"}, {"op": "counters", "node": 0}]},
        1,
        "bus",
        [["bus status 0000", "bus init", "bus counters 0 0 0 active"]],
    ),
    # IF2 looks and then writes; IF1 waits for the flag, which is told by one look. Kept are the beginning and the end: IF2's look and
    # its write are one step, what is left of one port comes at once where the other has done, and the two ends differ in the answer
    # alone.
    (
        {"if1": [{"op": "until", "object": 1, "flag": "newdat", "turns": 2}], "if2": [transfer("0001", **NEW)]},
        2,
        "if1",
        [["if1 until 01 newdat yes"], ["if1 until 01 newdat no"]],
    ),
    # Each port may make one change, each change has one try, and leaves object 1 as it was. IF1 writes twice: if its first write is
    # made, its second finds the change spent; if that is busy, the second is made. So who has made a change is kept. Kept are the
    # beginning, one host or the other in its first try, both in it, IF1 before its second write with IF2 before its try, in it, and
    # in it contended, IF2 in that with IF1 done, IF1 in its contended try with IF2 done, and the two ends, in which IF2 has made
    # its change or not.
    (
        {
            "quota": 1,
            "tries": 1,
            "if1": [transfer("0001", cmask="0080"), transfer("0001")],
            "if2": [transfer("0001", cmask="0080")],
        },
        11,
        "if",
        [
            [
                "if1 busy 01",
                "if1 write 01 00000000 00000000 0000 0000000000000000",
                "if2 write 01 00000000 00000000 0000 0000000000000000",
            ],
            ["if1 write 01 00000000 00000000 0000 0000000000000000", "if1 spent 01", "if2 busy 01"],
            [
                "if1 write 01 00000000 00000000 0000 0000000000000000",
                "if1 spent 01",
                "if2 write 01 00000000 00000000 0000 0000000000000000",
            ],
        ],
    ),
    # Each host writes object 1 with one try, and leaves it as it was. Kept are the beginning, one host or the other in its try, both
    # in it, the two states in which one has written and the other's try is contended, and the end: who has changed it is not kept,
    # since no host can make more changes than its quota. Where one has written before the other looked, that one's look and write
    # come at once.
    (
        {"tries": 1, "if1": [transfer("0001", cmask="0080")], "if2": [transfer("0001", cmask="0080")]},
        7,
        "if",
        [
            ["if1 write 01 00000000 00000000 0000 0000000000000000", "if2 write 01 00000000 00000000 0000 0000000000000000"],
            ["if1 busy 01", "if2 write 01 00000000 00000000 0000 0000000000000000"],
            ["if1 write 01 00000000 00000000 0000 0000000000000000", "if2 busy 01"],
        ],
    ),
    # IF1 makes object 2 valid, requests object 1, and then sets IntPnd of object 1 and takes the request back. In loop back mode the
    # round sends object 1 to object 2 if it finds the request, and else nothing. Where it sends, the last write comes before
    # the end of the transmission, or between this end and the store, or after both. The record that the end leaves of object 1
    # has IntPnd in the first alone, but no line shows that record, so these are one outcome.
    (
        {
            "if1": [
                transfer("0002", cmask="00b0", arb2="8000", ctrl="0080"),
                transfer("0001", arb2="a000", ctrl="0100"),
                transfer("0001", cmask="0090", ctrl="2000"),
            ],
            "bus": [{"op": "loopback", "on": 1}, {"op": "round"}],
        },
        None,
        "bus",
        [
            ["bus loopback 1", "bus idle"],
            ["bus loopback 1", "bus looped 01 02 80000000 00000000 8080 0000000000000000"],
        ],
    ),
]
