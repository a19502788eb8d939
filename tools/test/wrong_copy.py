"""The copy of a crate in which its wrong bodies are tried."""
import os
import re

from function_bodies import bodies_in, bodies_of

# The files of a function's proof.
PROOFS = {"Proof.antt", "Invariants.antt", "Answers.antt"}


def text_in(file):
    with open(file, encoding="utf-8") as whole:
        return whole.read()


def write_text(file, text):
    with open(file, "w", encoding="utf-8") as whole:
        whole.write(text)


def write_hole(name, folder, path):
    """Writes a hole for the proof of the function of this path, of a crate in this folder."""
    os.makedirs(f"{folder}/proofs/{'/'.join(path)}", exist_ok=True)
    hole = f"pub {path[-1]}_spec : {{M : Type 1}} → stated.statement M\n{path[-1]}_spec = ?\n"
    head = f"use Rattle.{name}.proofs.{'.'.join(path)}.Statement as stated\n\n"
    write_text(f"{folder}/proofs/{'/'.join(path)}/Proof.antt", head + hole)


def is_in_cycle(folder, body):
    """Whether a function calls itself, or others that call it: these have one proof."""
    place, _, name = body.path.replace("::", "/").rpartition("/")
    return "#[cycle(" in body.head or os.path.isdir(f"{folder}/proofs/{place}/+{name}")


def without_body(name, folder, text, body):
    """The text of a file of a crate in this folder with an empty body in place of this one, for whose proof it writes a hole; without
    `main`, whose crate is a library then: of libraries below it only what is public is read."""
    if body.path == "main":
        return text[: body.item] + text[body.end :]
    write_hole(name, folder, body.path.split("::"))
    return text[: body.start] + "{ loop {} }" + text[body.end :]


def empty_bodies(name, folder, functions):
    """Empties the bodies of all functions of a crate in this folder, except these and those that have to keep theirs."""
    for file, bodies in bodies_of(f"{folder}/src").items():
        text = text_in(file)
        for body in reversed(bodies):
            if body.path not in functions and not body.is_const() and not is_in_cycle(folder, body):
                text = without_body(name, folder, text, body)
        write_text(file, text)


def make_holes(name, folder, functions):
    """Puts a hole in place of the proof files of each function of a crate in this folder, except these."""
    for place, _, files in os.walk(f"{folder}/proofs"):
        proofs = PROOFS.intersection(files)
        path = os.path.relpath(place, f"{folder}/proofs").split("/")
        if not proofs or "::".join(path) in functions or any("+" in part for part in path):
            continue
        for file in proofs:
            os.remove(f"{place}/{file}")
        write_hole(name, folder, path)


def texts_of_function(right, wrong, function):
    """The texts of a function, with the right body and with the wrong one, by those of its file; None if the function is a trait's, or not
    all that differs."""
    for old, new in zip(bodies_in(right), bodies_in(wrong)):
        texts = right[old.item : old.end], wrong[new.item : new.end]
        is_all = (right[: old.item], right[old.end :]) == (wrong[: new.item], wrong[new.end :])
        if is_all and old.name == function.rpartition("::")[2] and texts[0] != texts[1]:
            return texts
    return None


def put_twin(name, folder, file, text, function, twin):
    """Puts a function with this text beside that of this path, in a file of a crate in this folder, under the path of its twin, with a
    proof as the other's."""
    path, other = function.split("::"), twin.split("::")
    whole = text_in(f"{folder}/{file}")
    beside = next(it for it in bodies_of(f"{folder}/src")[f"{folder}/{file}"] if it.path == function)
    text = re.sub(rf"\bfn {path[-1]}\b", f"fn {other[-1]}", text, count=1)
    write_text(f"{folder}/{file}", whole[: beside.end] + text + whole[beside.end :])
    place = f"{folder}/proofs/{'/'.join(path)}"
    if not os.path.isdir(place):
        return
    os.makedirs(f"{folder}/proofs/{'/'.join(other)}", exist_ok=True)
    for proof in PROOFS.intersection(os.listdir(place)):
        proved = text_in(f"{place}/{proof}").replace(f".proofs.{'.'.join(path)}.", f".proofs.{'.'.join(other)}.")
        proved = re.sub(rf"\b{path[-1]}_spec\b", f"{other[-1]}_spec", proved)
        write_text(f"{folder}/proofs/{'/'.join(other)}/{proof}", proved)
