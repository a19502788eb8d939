"""The marks in out/proved, by which the tools know what was proved and built.

A mark is made once a crate is proved. It has a checksum of all that the proof stands on: the sources, specs and proofs of the
crate and of those below it, their lines of crates.txt, HANDLES and the toolchain. Below that it has a checksum of what was built,
the program or the library. The archive libCRATE.a that a library is for C has a mark of its own. A thing is proved as it stands
exactly when its mark is the one that would be made now, so a change that is undone leaves it proved, and an older file that is
put in the place of a newer one does not."""
import functools
import hashlib
import os
import subprocess

TOP = os.path.dirname(os.path.dirname(os.path.dirname(os.path.realpath(__file__))))
# What a proof reads in the folder of a crate.
PARTS = ("src", "specs", "proofs")


@functools.cache
def said_by(*words):
    """What a command prints."""
    return subprocess.run(words, capture_output=True, text=True, check=True, cwd=TOP).stdout


def read_of(name):
    """The files and folders that the proof of a thing reads, in order: two lists, and those of the crates that it stands on."""
    found = ["crates.txt", "HANDLES"]
    if name.endswith(".a"):
        found.append("tools/build/static_library")
    for crate in said_by("tools/build/below", crate_of(name)).split():
        for part in PARTS:
            for folder, folders, files in os.walk(f"{TOP}/crates/{crate}/{part}"):
                folders.sort()
                found += [os.path.relpath(path, TOP) for path in (folder, *(f"{folder}/{file}" for file in sorted(files)))]
    return found


def crate_of(name):
    """The crate of a thing that is built: of an archive, the library that it is made of."""
    return name.removeprefix("lib").removesuffix(".a") if name.endswith(".a") else name


def text_of(path, crates):
    """What a proof reads of a file; of crates.txt the lines of the crates that it stands on."""
    if os.path.isdir(f"{TOP}/{path}"):
        return b""
    with open(f"{TOP}/{path}", "rb") as file:
        if path != "crates.txt":
            return file.read()
        return b"".join(line for line in file if line.decode().partition(":")[0].split(" ")[0].strip() in crates)


def sum_of_sources(name):
    """A checksum of all that the proof of a thing stands on."""
    crates = said_by("tools/build/below", crate_of(name)).split()
    found = hashlib.sha256(said_by("rt", "version").encode())
    for path in read_of(name):
        found.update(repr((path, text_of(path, crates))).encode())
    return found.hexdigest()


def built_of(name):
    """The file that shows what was built: the archive, the program, or of a library the file `format`, which has the checksums of
    its other files."""
    crate = crate_of(name)
    is_library = name == crate and not os.path.isfile(f"{TOP}/crates/{crate}/src/main.rt")
    return f"crates/{crate}/out/rlib/{crate}.rlib/format" if is_library else f"crates/{crate}/out/{name}"


def mark_of(name):
    """The mark of a thing that is proved and built as it stands now, None if it isn't built."""
    try:
        with open(f"{TOP}/{built_of(name)}", "rb") as file:
            built = hashlib.sha256(file.read()).hexdigest()
    except FileNotFoundError:
        return None
    return f"sources {sum_of_sources(name)}\nbuilt {built}\n"


def place_of(name):
    """The file of a mark."""
    return f"{TOP}/out/proved/{name}"


def is_proved(name):
    """Whether a thing was proved and built as it stands now."""
    try:
        with open(place_of(name), encoding="utf-8") as file:
            kept = file.read()
    except FileNotFoundError:
        return False
    return kept == mark_of(name)


def changed_since(moment, name):
    """A file or folder that the proof of a thing reads and that was changed after that moment, in nanoseconds, if there is one.
    The time of a change of state is taken, which no program can set back."""
    return next((path for path in read_of(name) if os.stat(f"{TOP}/{path}").st_ctime_ns > moment), None)


def mark(name, moment):
    """Notes that a thing was proved and built by a run that began at that moment. If a file that its proof reads was changed
    after it, or nothing is built, notes nothing and answers what is amiss."""
    text = mark_of(name)
    if not text:
        return f"{built_of(name)} is not there"
    changed = changed_since(moment, name)
    if changed:
        return f"{changed} changed meanwhile"
    os.makedirs(os.path.dirname(place_of(name)), exist_ok=True)
    with open(place_of(name), "w", encoding="utf-8") as file:
        file.write(text)
    return None
