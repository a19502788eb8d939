"""A script as a model of SPIN, and what SPIN makes of it: how many outcomes it has, in how many states, seconds and bytes.

The model is made for speed. Records of objects, registers of the interfaces and answers are numbers; what a step makes of them was
worked out before, by the second model of the rules. A transfer is one step; a wait, an interrupt value and a flag word are their
looks; a round is its looks, its attempts and its finish or store, or a collision. It takes hosts' lines, and rounds without faults,
beside one other node, if no attempt loses all its tries."""
import os
import re
import subprocess
import sys

sys.path.insert(0, os.path.join(os.path.dirname(os.path.dirname(os.path.realpath(__file__))), "test"))
import second_model as model  # noqa: E402


class Numbers:
    """Numbers for things, in the order in which they came."""

    def __init__(self):
        self.of = {}

    def __getitem__(self, thing):
        return self.of.setdefault(thing, len(self.of))


def transferred(buffer, command, record):
    """What a transfer leaves in the object and in the registers."""
    if command & 0x80:
        left = model.merged(command, buffer, record)
        return left, left
    left = model.cleared(command, record)
    arb, mask, control, data = buffer
    data = (record[3][:4] if command & 2 else data[:4]) + (record[3][4:] if command & 1 else data[4:])
    shown = (
        record[0] if command & 0x20 else arb,
        record[1] if command & 0x40 else mask,
        record[2] if command & 0x10 else control,
        data,
    )
    return left, shown


class Script:
    """What a script's steps can make: the records that each object can have, and what each line can leave."""

    def __init__(self, script):
        self.script, self.objects = script, script.get("profile", 1) * 32
        self.hosts = {port: self.host_lines(script.get(port, [])) for port in ("if1", "if2")}
        self.touched = sorted({line[1] for lines in self.hosts.values() for line in lines if line[1]})
        self.frames = [[model.frame_in(sent) for sent in line.get("send", [])] for line in script.get("bus", [])]
        self.records = {place: {model.ZERO: 0} for place in self.touched}
        self.buffers = {port: [{model.ZERO: 0}] + [{} for _ in lines] for port, lines in self.hosts.items()}
        while self.grow():
            pass

    def host_lines(self, lines):
        """Each line of a host, by its operation; a transfer by its object, what it sets, and its command."""
        made, command = [], 0
        for line in lines:
            if line["op"] == "transfer":
                given = line.get("set", {})
                _, command = model.with_set(model.ZERO, command, given)
                made.append(("transfer", model.number_of(line["request"], self.objects), given, command))
            elif line["op"] == "until":
                made.append(("until", line["object"], line["flag"], line["turns"]))
            else:
                made.append((line["op"], None, line.get("flag"), None))
        return made

    def add(self, known, thing):
        if thing in known:
            return False
        known[thing] = len(known)
        return True

    def grow(self):
        """Adds what one more step of each kind can make. Says whether there was something new."""
        grew = False
        for port, lines in self.hosts.items():
            for number, (kind, place, given, command) in enumerate(lines):
                for buffer in list(self.buffers[port][number]):
                    if kind != "transfer":
                        grew |= self.add(self.buffers[port][number + 1], buffer)
                        continue
                    for record in list(self.records[place]):
                        left, shown = transferred(model.with_set(buffer, command, given)[0], command, record)
                        grew |= self.add(self.records[place], left) | self.add(self.buffers[port][number + 1], shown)
        for place in self.touched:
            for record in list(self.records[place]):
                for left in [model.finished(record)] + [model.started(record)] * model.ready(record):
                    grew |= self.add(self.records[place], left)
                for frame in [it for frames in self.frames for it in frames]:
                    if model.accepts(record, frame):
                        grew |= self.add(self.records[place], model.stored(frame, record))
        return grew


class Tables:
    """Tables of numbers, which the steps of the model look up in C."""

    def __init__(self):
        self.texts = []

    def of(self, numbers):
        """The name of a table with these numbers."""
        name = f"table_{len(self.texts)}"
        self.texts.append(f"static const short {name}[] = {{ {', '.join(map(str, numbers))} }};\n")
        return name


def promela_of_transfer(made, tables, port, line):
    """A transfer, as one step."""
    _, place, given, command = made.hosts[port][line]
    to, after = [], []
    for buffer in made.buffers[port][line]:
        for record in made.records[place]:
            left, shown = transferred(model.with_set(buffer, command, given)[0], command, record)
            to.append(made.records[place][left])
            after.append(made.buffers[port][line + 1][shown])
    at = f"int at = P{port}->b * {len(made.records[place])} + now.r{place};"
    return f"c_code {{ {at} now.a_{port}_{line} = P{port}->b = {tables.of(after)}[at]; now.r{place} = {tables.of(to)}[at]; }}"


def shows(made, tables, place, flag):
    """That an object shows a flag."""
    return f"c_expr {{ {tables.of(int(model.has_flag(record, flag)) for record in made.records[place])}[now.r{place}] }}"


def promela_of_looks(made, tables, port, line):
    """A wait for a flag, the interrupt value, or a flag word: look after look. The registers stay, by their numbers before the next
    line."""
    kind, place, flag, turns = made.hosts[port][line]
    answer, end = f"a_{port}_{line}", f"{port}_{line}"
    look = "if\n:: atomic {{ {} -> {} }}\n:: else -> skip\nfi;\n".format
    if kind == "until":
        looks = look(shows(made, tables, place, flag), f"{answer} = 1; goto {end}") * turns
    elif kind == "interrupt":
        looks = "".join(look(shows(made, tables, it, "intpnd"), f"{answer} = {it}; goto {end}") for it in made.touched)
    else:
        looks = "".join(look(shows(made, tables, it, flag), f"{answer} = {answer} | {1 << (it - 1)}") for it in made.touched)
    after = tables.of(made.buffers[port][line + 1][buffer] for buffer in made.buffers[port][line])
    return f"{looks}{end}: c_code {{ P{port}->b = {after}[P{port}->b]; }}"


def promela_of_host(made, tables, port):
    """The process of a host."""
    of = {"transfer": promela_of_transfer}
    parts = [of.get(kind, promela_of_looks)(made, tables, port, line) for line, (kind, *_) in enumerate(made.hosts[port])]
    return f"active proctype {port}() {{ short b = 0;\n" + ";\n".join([*parts, "ended++"]) + " }\n"


def scan(made, tables, fits, becomes, then, mark):
    """A scan of the message handler: a look at each object, and an attempt if it fits. `then` is what else the change sets, in C,
    by the record before."""
    text = ""
    for place in made.touched:
        fitting = [fits(record) for record in made.records[place]]
        if not any(fitting):
            continue
        is_fit = f"c_expr {{ {tables.of(map(int, fitting))}[now.r{place}] }}"
        to = tables.of(made.records[place][becomes(record)] if fits(record) else 0 for record in made.records[place])
        change = f"c_code {{ {then(place)} now.r{place} = {to}[now.r{place}]; }}; goto {mark}"
        text += f"if\n:: {is_fit} -> if\n:: atomic {{ {is_fit} -> {change} }}\n:: else -> skip\nfi\n:: else -> skip\nfi;\n"
    return text


def promela_of_round(made, tables, line, answers, loads):
    """A round of the bus."""
    offered, answer = made.frames[line], f"now.a_bus_{line}"

    def loaded(place):
        frames = (loads[model.frame_of(model.started(it))] if model.ready(it) else 0 for it in made.records[place])
        return f"Pbus->loaded = {place}; Pbus->frame = {tables.of(frames)}[now.r{place}];"

    def left(place, name, becomes):
        return tables.of(answers[name, place, made.records[place][becomes(record)]] for record in made.records[place])

    text = "loaded = 0; frame = 0;\n" + scan(made, tables, model.ready, model.started, loaded, f"l{line}") + f"l{line}: skip;\n"
    best = min(offered, key=model.arbitration, default=None)
    wins = [number for frame, number in loads.items() if best is None or model.arbitration(frame) < model.arbitration(best)]
    ties = [number for frame, number in loads.items() if best and model.arbitration(frame) == model.arbitration(best)]
    has = lambda numbers: "loaded != 0 && (" + (" || ".join(f"frame == {it}" for it in numbers) or "false") + ")"
    finish = ""
    for place in made.touched:
        to = tables.of(made.records[place][model.finished(record)] for record in made.records[place])
        deed = f"{answer} = {left(place, 'sent', model.finished)}[now.r{place}]; now.r{place} = {to}[now.r{place}];"
        finish += f":: loaded == {place} -> c_code {{ {deed} }}\n"

    def kept(record):
        return model.stored(best, record) if model.accepts(record, best) else record

    if best is None:
        other = f"a_bus_{line} = {answers['idle', 0, 0]}"
    else:
        answered = lambda place: f"{answer} = {left(place, 'stored', kept)}[now.r{place}];"
        other = scan(made, tables, lambda it: model.accepts(it, best), kept, answered, f"e{line}")
        other += f"a_bus_{line} = {answers['none', 0, 0]}"
    collided = f":: {has(ties)} -> a_bus_{line} = {answers['collision', 0, 0]}; goto e{line}\n" if ties else ""
    sent = f"if\n:: {has(wins)} -> atomic {{ if\n{finish}fi }}; goto e{line}\n{collided}:: else -> skip\nfi;\n"
    return f"{text}{sent}{other};\ne{line}: skip"


def promela(script):
    """The script as a model of SPIN, which prints each outcome that it comes to, and the tables that it includes as tables.h."""
    made, answers, tables, loads = Script(script), Numbers(), Tables(), {}
    for place in made.touched:
        for record in made.records[place]:
            if model.ready(record):
                loads.setdefault(model.frame_of(model.started(record)), len(loads) + 1)
    rounds = ";\n".join(promela_of_round(made, tables, line, answers, loads) for line in range(len(made.frames)))
    hosts = "".join(promela_of_host(made, tables, port) for port in ("if1", "if2"))
    told = [f"a_{port}_{line}" for port in ("if1", "if2") for line in range(len(made.hosts[port]))]
    told += [f"a_bus_{line}" for line in range(len(made.frames))]
    told += [f"r{place}" for place in made.touched]
    values = ", ".join(f"now.{name}" for name in told)
    shown = f'printf("= {" ".join(["%d"] * len(told))}\\n", {values});'
    text = 'c_decl { \\#include "tables.h"\n};\n' + "".join(f"short {name};\n" for name in told) + f"byte ended;\n{hosts}"
    text += f"active proctype bus() {{ byte loaded; short frame;\n{rounds};\nloaded = 0; frame = 0; ended++ }}\n"
    return text + f"active proctype end() {{ ended == 3; c_code {{ {shown} }} }}\n", "".join(tables.texts)


# How many bits the hash of SPIN's table has: a small script takes longest to clear a large one.
TABLE_BITS = (18, 20, 22)


def found_in(folder, bits, seconds):
    """What one search with a table of this size says, and what it took: lines, seconds of the processor and bytes; None if it takes
    longer."""
    with open(f"{folder}/told", "w+b") as told:
        pan = subprocess.Popen(["timeout", str(seconds), "./pan", "-m200000", f"-w{bits}"], cwd=folder, stdout=told)
        _, status, used = os.wait4(pan.pid, 0)
        pan.returncode = os.waitstatus_to_exitcode(status)
        if pan.returncode != 0:
            return None
        told.seek(0)
        lines = told.read().decode().splitlines()
    return lines, used.ru_utime + used.ru_stime, used.ru_maxrss * 1024


def searched(script, folder, seconds=120):
    """What SPIN says of a script, by the quickest of its searches with tables of several sizes: outcomes, states, seconds of the
    processor and bytes; None if each takes longer."""
    for name, text in zip(("script.pml", "tables.h"), promela(script)):
        with open(f"{folder}/{name}", "w", encoding="utf-8") as file:
            file.write(text)
    run = lambda *words: subprocess.run(words, cwd=folder, check=True, stdout=subprocess.DEVNULL)
    run("spin", "-a", "script.pml")
    run("cc", "-O2", "-w", "-DSAFETY", "-DNOFAIR", "-DMEMLIM=8000", "-o", "pan", "pan.c")
    tried = [found for bits in TABLE_BITS if (found := found_in(folder, bits, seconds)) is not None]
    if not tried:
        return None
    lines, taken, memory = min(tried, key=lambda it: it[1])
    outcomes = {line for line in lines if line.startswith("= ")}
    states = next(int(float(found[1])) for line in lines if (found := re.match(r"\s*(\S+) states, stored", line)))
    if any("errors: " in line and "errors: 0" not in line for line in lines):
        raise ValueError("SPIN found an error in the model")
    return len(outcomes), states, taken, memory
