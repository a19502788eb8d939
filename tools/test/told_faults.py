"""Scripts with faults, or with what is rarely meant, and what `ccan-lab check` tells of each, written by hand: line, column, path, the
value and what would be right."""

TOLD = [
    # tells texts of four digits
    ('{\n  "if1": [\n    {"op": "transfer", "request": "00g0"}\n  ]\n}\n',
     ['-:3:35: if1[0].request: "00g0" is not four hexadecimal digits']),
    ('{"if1":[{"op":"transfer","request":"0x01"}]}',
     ['-:1:36: if1[0].request: "0x01" has 0x before it: write the four hexadecimal digits alone']),
    ('{"if1":[{"op":"transfer","request":1}]}',
     ['-:1:36: if1[0].request: 1 is no text: write four hexadecimal digits in quotes, such as "0088"']),
    ('{"if2":[{"op":"transfer","set":{"cmask":"88"},"request":"0001"}]}',
     ['-:1:41: if2[0].set.cmask: "88" is not four hexadecimal digits']),
    # tells members and names
    ('{"if1":[{"op":"transfer"}]}',
     ['-:1:9: if1[0]: "request" is missing']),
    ('{"if1":[{"op":"tranfer","request":"0001"}]}',
     ['-:1:15: if1[0].op: "tranfer" is no operation of a host: transfer, until, interrupt or flags']),
    ('{"if1":[{"op":"transfer","request":"0001","set":{"ctr":"0088"}}]}',
     ['-:1:56: if1[0].set: "ctr" is no register: cmask, mask1, mask2, arb1, arb2, ctrl, dataa1, dataa2, datab1 or datab2']),
    ('{"if1":[{"op":"transfer","request":"0001","set":{"CTRL":"0088"}}]}',
     ['-:1:57: if1[0].set: "CTRL" is no register: register names are lower case, such as arb2']),
    # tells what is no json
    ('{"if1": [],\n}',
     ['-:2:1: not JSON: a comma too many before this bracket']),
    ('{"if1": [] // IF1\n}',
     ['-:1:12: not JSON: JSON has no comments']),
    ('\ufeff{}',
     ['-:1:1: not JSON: a byte order mark; save the file as UTF-8 without one']),
    (' \n',
     ['-:1:1: not JSON: the file is empty; the least script is {}']),
    ('{"quota": 0x10}',
     ['-:1:11: not JSON: JSON has no hexadecimal numbers; write a text of four digits, or a decimal number']),
    ('{"quota": 01}',
     ['-:1:11: not JSON: a number begins with no needless 0']),
    ("{'quota': 1}",
     ['-:1:2: not JSON: texts and names stand in double quotes']),
    ('{quota: 1}',
     ['-:1:2: not JSON: texts and names stand in double quotes']),
    ('{"quota": 1 "tries": 1}',
     ['-:1:13: not JSON: a comma is missing before this']),
    ('{"quota": 1}}',
     ['-:1:13: not JSON']),
    ('{"quota": ¹}',
     ['-:1:11: not JSON: this character stands outside of a text']),
    ('{"if1": [',
     ['-:1:10: not JSON: the text ends here; a bracket, a brace or a quote is open']),
    # tells the script itself
    ('{}',
     []),
    ('[]',
     ['-:1:1: the script: a list is not an object, such as {}']),
    ('{"if3":[]}',
     ['-:1:8: the script: "if3" is unknown here; known: profile quota tries nodes if1 if2 bus order before']),
    ('{"profile":3,"quota":0}',
     ['-:1:12: profile: 3 is not a whole number in 1 to 2', '-:1:22: quota: 0 is not a whole number in 1 to 4096']),
    ('{"if1":{}}',
     ['-:1:8: if1: an object is not a list']),
    ('{"if1":[],"order":["if1","if3"]}',
     ['-:1:26: order[1]: "if3" is no port: if1, if2 or bus']),
    # tells lines before a race
    ('{"before":["if1","if3"]}',
     ['-:1:18: before[1]: "if3" is no port: if1, if2 or bus']),
    ('{"before":["bus","if2"]}',
     ['-:1:11: before: names if2 1 times, and if2 has 0 lines', '-:1:11: before: names bus 1 times, and bus has 0 lines']),
    ('{"bus":[{"op":"status"}],"before":["bus"]}',
     ['-:1:35: warning: before: only ccan-lab reads this member; ccan refuses the script']),
    ('{"if1":[{"op":"interrupt"}],"order":["bus"]}',
     ['-:1:37: order: names if1 0 times, and if1 has 1 lines', '-:1:37: order: names bus 1 times, and bus has 0 lines']),
    # tells each fault
    ('{\n"if1": [\n{"op":"x"},\n{"op":"flags","flag":"newdat"},\n{}],\n"if2": [1]\n}',
     ['-:3:7: if1[0].op: "x" is no operation of a host: transfer, until, interrupt or flags', '-:5:1: if1[2]: "op" is missing', '-:6:9: if2[0]: 1 is not an object', '-:1:1: warning: order: is missing, so a run in order has all lines of if1 first, then those of if2, then those of bus; outcomes need no order']),
    # tells members of lines
    ('{"if1":[7]}',
     ['-:1:9: if1[0]: 7 is not an object']),
    ('{"if1":[{}]}',
     ['-:1:9: if1[0]: "op" is missing']),
    ('{"if1":[{"op":"load"}]}',
     ['-:1:15: if1[0].op: "load" is an operation of the bus, not of a host']),
    ('{"if1":[{"op":"flags","flg":"newdat"}]}',
     ['-:1:29: if1[0]: "flg" is unknown here; known: op flag']),
    ('{"if1":[{"op":"flags","flag":"newdata"}]}',
     ['-:1:30: if1[0].flag: "newdata" is no flag: newdat, msglst, intpnd, txrqst or msgval']),
    ('{"if1":[{"op":"transfer","request":"0001","set":[]}]}',
     ['-:1:49: if1[0].set: a list is not an object of registers']),
    ('{"if1":[{"op":"until","object":33,"flag":"newdat","turns":1}]}',
     ['-:1:32: if1[0].object: 33 is not in 1 to 32 (33 to 64 with "profile": 2)']),
    ('{"if1":[{"op":"until","object":1,"flag":"newdat","turns":0}]}',
     ['-:1:58: if1[0].turns: 0 is not in 1 to 1000000']),
    ('{"if1":[{"op":"until","object":"1","flag":"newdat","turns":1}]}',
     ['-:1:32: if1[0].object: "1" is a text: write a whole number, in decimal and without quotes']),
    ('{"if1":[{"op":"until","object":1.0,"flag":"newdat","turns":1}]}',
     ['-:1:32: if1[0].object: 1.0 is not a whole number, written without sign, fraction and exponent']),
    # tells three lines
    ('{\n  "if1": [\n    { "op": "transfer", "request": 1 },\n    { "op": "transfer", "request": "0001", "set": { "CTRL": "0088" } },\n    { "op": "flags", "flag": "newdata" }\n  ]\n}\n',
     ['-:3:36: if1[0].request: 1 is no text: write four hexadecimal digits in quotes, such as "0088"', '-:4:61: if1[1].set: "CTRL" is no register: register names are lower case, such as arb2', '-:5:30: if1[2].flag: "newdata" is no flag: newdat, msglst, intpnd, txrqst or msgval']),
    # tells lines of the bus
    ('{"bus":[{"op":"transfer"}]}',
     ['-:1:15: bus[0].op: "transfer" is an operation of a host, not of the bus']),
    ('{"bus":[{"op":"lod"}]}',
     ['-:1:15: bus[0].op: "lod" is no operation of the bus: load, round, status, control, interrupt, flags, counters, init, recessive or loopback']),
    ('{"bus":[{"op":"counters","node":1}]}',
     ['-:1:33: bus[0].node: 1 is not in 0 to 0 ("nodes" says how many other nodes there are)']),
    ('{"bus":[{"op":"round","fault":"crx"}]}',
     ['-:1:31: bus[0].fault: "crx" is no fault: none, stuff, form, bit1, bit0 or crc']),
    ('{"bus":[{"op":"round","send":{}}]}',
     ['-:1:30: bus[0].send: an object is not a list of frames']),
    ('{"bus":[{"op":"round","send":[0,0,0,0,0,0,0,0,0]}]}',
     ['-:1:30: bus[0].send: a list has more than 8 frames']),
    # tells frames
    ('{"nodes":2,"bus":[{"op":"round","send":[{"node":1,"id":2048}]}]}',
     ['-:1:56: bus[0].send[0].id: 2048 is not in 0 to 2047 (more with "xtd": 1)']),
    ('{"nodes":2,"bus":[{"op":"round","send":[{"node":1,"id":1},{"node":3,"id":1}]}]}',
     ['-:1:67: bus[0].send[1].node: 3 is not in 1 to 2 ("nodes" says how many other nodes there are)']),
    ('{"nodes":2,"bus":[{"op":"round","send":[{"node":1,"id":1,"dlc":1}]}]}',
     ['-:1:41: bus[0].send[0]: "data" has not as many bytes as "dlc" says, or any in a remote frame']),
    ('{"nodes":2,"bus":[{"op":"round","send":[{"node":1,"id":1,"data":"1"}]}]}',
     ['-:1:65: bus[0].send[0].data: "1" is not a text of two hexadecimal digits for each byte']),
    ('{"nodes":2,"bus":[{"op":"round","send":[{"node":1,"id":1},{"node":1,"id":2}]}]}',
     ['-:1:40: bus[0].send: a node sends twice in one round']),
    # reports the first fault in the order of the checks, whatever the order of the members
    ('{"nodes":2,"bus":[{"op":"round","send":[{"node":1,"xtd":2,"id":4000}]}]}',
     ['-:1:57: bus[0].send[0].xtd: 2 is not in 0 to 1']),
    ('{"nodes":2,"bus":[{"op":"round","send":[{"node":1,"id":4000,"xtd":2}]}]}',
     ['-:1:67: bus[0].send[0].xtd: 2 is not in 0 to 1']),
    ('{"nodes":2,"bus":[{"op":"round","send":[{"node":1,"id":4000,"dlc":16}]}]}',
     ['-:1:56: bus[0].send[0].id: 4000 is not in 0 to 2047 (more with "xtd": 1)']),
    ('{"nodes":2,"bus":[{"op":"round","send":[{"node":3,"id":4000,"dlc":16}]}]}',
     ['-:1:49: bus[0].send[0].node: 3 is not in 1 to 2 ("nodes" says how many other nodes there are)']),
    ('{"nodes":2,"bus":[{"op":"round","send":[{"node":3,"id":"1"}]}]}',
     ['-:1:56: bus[0].send[0].id: "1" is a text: write a whole number, in decimal and without quotes']),
    ('{"bus":[{"op":"round","send":[0,0,0,0,0,0,0,0,0],"fault":"crx"}]}',
     ['-:1:58: bus[0].fault: "crx" is no fault: none, stuff, form, bit1, bit0 or crc']),
    ('{"bus":[{"op":"round","fault":"crx","send":[0,0,0,0,0,0,0,0,0]}]}',
     ['-:1:31: bus[0].fault: "crx" is no fault: none, stuff, form, bit1, bit0 or crc']),
    ('{"bus":[{"op":"control","sie":2,"eie":"1"}]}',
     ['-:1:39: bus[0].eie: "1" is a text: write a whole number, in decimal and without quotes']),
    # reports faults of a host and of the bus
    ('{"if1":[{}],"bus":[{}]}',
     ['-:1:9: if1[0]: "op" is missing', '-:1:20: bus[0]: "op" is missing']),
    # warns
    ('{"if1":[{"op":"transfer","request":"0021"}]}',
     ['-:1:36: warning: if1[0].request: "0021" means object 1']),
    ('{"if1":[{"op":"transfer","request":"0000"}]}',
     ['-:1:36: warning: if1[0].request: "0000" means object 32']),
    ('{"profile":2,"if1":[{"op":"transfer","request":"0021"}]}',
     []),
    ('{"if1":[{"op":"transfer","request":"0001","set":{"arb2":"8123"}}]}',
     ['-:1:57: warning: if1[0].set.arb2: "8123" has bits of an extended identifier: a standard one is shifted left by 2']),
    ('{"if1":[{"op":"transfer","request":"0001","set":{"arb2":"c123"}}]}',
     []),
    ('{"if1":[{"op":"transfer","request":"0001","set":{"arb2":"848c"}}]}',
     []),
    ('{"if1":[{"op":"interrupt"}],"bus":[{"op":"round"}]}',
     ['-:1:1: warning: order: is missing, so a run in order has all lines of if1 first, then those of if2, then those of bus; outcomes need no order']),
    ('{"if1":[{"op":"interrupt"}],"bus":[{"op":"status"}]}',
     []),
    ('{"quota":1,"quota":2}',
     ['-:1:12: warning: the script: "quota" stands twice, and the last one counts']),
    ('{"if1":[{"op":"interrupt","op":"interrupt"}]}',
     ['-:1:27: warning: if1[0]: "op" stands twice, and the last one counts']),
    ('{"if1":[{"op":"transfer","request":"0001","set":{"ctrl":"0088","ctrl":"0080"}}]}',
     ['-:1:64: warning: if1[0].set: "ctrl" stands twice, and the last one counts']),
    # prints each of several warnings
    ('{"if1":[{"op":"transfer","request":"0021"},{"op":"transfer","request":"0000"}]}',
     ['-:1:36: warning: if1[0].request: "0021" means object 1', '-:1:71: warning: if1[1].request: "0000" means object 32']),
    # warns of a read that overwrites what its line sets
    ('{"if1":[{"op":"transfer","request":"0001","set":{"cmask":"0030","ctrl":"0088"}}]}',
     ['-:1:72: warning: if1[0].set.ctrl: "0088" is overwritten by this read: WR/RD of the command mask is 0']),
    ('{"if1":[{"op":"transfer","request":"0001","set":{"cmask":"0020","ctrl":"0088"}}]}',
     []),
    ('{"if1":[{"op":"transfer","request":"0001","set":{"cmask":"00b0","ctrl":"0088"}}]}',
     []),
    ('{"if1":[\n{"op":"transfer","request":"0001","set":{"cmask":"0002"}},\n'
     '{"op":"transfer","request":"0001","set":{"dataa1":"1122"}}]}',
     ['-:3:51: warning: if1[1].set.dataa1: "1122" is overwritten by this read: WR/RD of the command mask is 0']),
    # warns of a write that takes back what another port set
    ('{"order":["if1","if2","if1"],"if1":[\n'
     '{"op":"transfer","request":"0001","set":{"cmask":"00b0","arb2":"a48c","ctrl":"0088"}},\n'
     '{"op":"transfer","request":"0001","set":{"cmask":"0090"}}],\n'
     '"if2":[{"op":"transfer","request":"0001","set":{"cmask":"0084"}}]}',
     ['-:3:1: warning: if1[1]: takes back TxRqst of object 1, which another port set and if1 has not looked at since']),
    ('{"order":["if1","if2","if1","if1"],"if1":[\n'
     '{"op":"transfer","request":"0001","set":{"cmask":"00b0","arb2":"a48c","ctrl":"0088"}},\n'
     '{"op":"until","object":1,"flag":"txrqst","turns":1},\n'
     '{"op":"transfer","request":"0001","set":{"cmask":"0090"}}],\n'
     '"if2":[{"op":"transfer","request":"0001","set":{"cmask":"0084"}}]}',
     []),
    ('{"order":["if1","if1","if2"],"if1":[\n'
     '{"op":"transfer","request":"0001","set":{"cmask":"00b0","arb2":"a48c","ctrl":"0088"}},\n'
     '{"op":"transfer","request":"0001","set":{"cmask":"0090"}}],\n'
     '"if2":[{"op":"transfer","request":"0001","set":{"cmask":"0084"}}]}',
     []),
    ('{"nodes":1,"order":["if1","bus","if1"],"if1":[\n'
     '{"op":"transfer","request":"0001","set":{"cmask":"00b0","arb2":"848c","ctrl":"0480"}},\n'
     '{"op":"transfer","request":"0001","set":{"cmask":"0090"}}],\n'
     '"bus":[{"op":"round","send":[{"node":1,"id":291}]}]}',
     ['-:3:1: warning: if1[1]: takes back NewDat and IntPnd of object 1, which another port set and if1 has not looked at since']),
    ('{"nodes":1,"order":["if1","bus","if1","if1"],"if1":[\n'
     '{"op":"transfer","request":"0001","set":{"cmask":"00b0","arb2":"848c","ctrl":"0480"}},\n'
     '{"op":"transfer","request":"0001","set":{"cmask":"007f"}},\n'
     '{"op":"transfer","request":"0001","set":{"cmask":"0090"}}],\n'
     '"bus":[{"op":"round","send":[{"node":1,"id":291}]}]}',
     []),
    ('{"nodes":1,"order":["if1","bus","if1"],"if1":[\n'
     '{"op":"transfer","request":"0001","set":{"cmask":"00b0","arb2":"848c","ctrl":"0480"}},\n'
     '{"op":"transfer","request":"0001","set":{"cmask":"0090"}}],\n'
     '"bus":[{"op":"round","send":[{"node":1,"id":292}]}]}',
     []),
    # warns of an object without EoB that is no part of a FIFO buffer
    ('{"if1":[{"op":"transfer","request":"0001","set":{"cmask":"00b0","arb2":"848c","ctrl":"0000"}}]}',
     ['-:1:9: warning: if1[0]: leaves object 1 valid without EoB, but the next object is no part of the same FIFO buffer']),
    ('{"if1":[{"op":"transfer","request":"0001","set":{"cmask":"00b0","arb2":"848c","ctrl":"0000"}},'
     '{"op":"transfer","request":"0002","set":{"ctrl":"0080"}}]}',
     []),
    ('{"if1":[{"op":"transfer","request":"0001","set":{"cmask":"00b0","arb2":"848c","ctrl":"0000"}},\n'
     '{"op":"transfer","request":"0002","set":{"arb2":"8490","ctrl":"0080"}}]}',
     ['-:1:9: warning: if1[0]: leaves object 1 valid without EoB, but the next object is no part of the same FIFO buffer']),
    ('{"if1":[{"op":"transfer","request":"0020","set":{"cmask":"00b0","arb2":"848c","ctrl":"0000"}}]}',
     ['-:1:9: warning: if1[0]: leaves object 32 valid without EoB, but the next object is no part of the same FIFO buffer']),
    # warns of a request of an object that is not valid
    ('{"if1":[{"op":"transfer","request":"0001","set":{"cmask":"00b0","arb2":"248c","ctrl":"0188"}}]}',
     ['-:1:9: warning: if1[0]: requests a transmission of object 1, which is not valid (MsgVal 0)']),
    ('{"if1":[{"op":"transfer","request":"0001","set":{"cmask":"00b0","arb2":"a48c","ctrl":"0188"}}]}',
     []),
    ('{"if1":[{"op":"transfer","request":"0001","set":{"cmask":"0084"}}]}',
     ['-:1:9: warning: if1[0]: requests a transmission of object 1, which is not valid (MsgVal 0)']),
    # tells too many lines
    ('{"if1":[0' + ",0" * 2000 + "]}",
     ['-:1:8: if1: has more than 2000 lines']),
]

# In other encodings: the bytes, and what is told.
ENCODED = [
    (b"\xff\xfe{\x00}\x00", ["-:1:1: not JSON: UTF-16; save the file as UTF-8"]),
    (b'{"\xe9"', ["-:1:3: not JSON: these bytes are no UTF-8"]),
]
