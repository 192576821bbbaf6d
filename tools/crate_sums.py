"""What each crate of this repository is proved over: its own files and those of all crates below it, and sums of these."""
import contextlib
import functools
import hashlib
import os
import shutil

TOP = os.path.dirname(os.path.dirname(os.path.realpath(__file__)))


def read(path):
    """Returns the bytes of a file, or None where there is none."""
    with contextlib.suppress(FileNotFoundError), open(path, "rb") as file:
        return file.read()
    return None


@functools.cache
def listed():
    """Returns the lines of crates.txt with the names after the colon, by crate."""
    found = {}
    for line in read(f"{TOP}/crates.txt").decode().splitlines():
        name, colon, libraries = line.partition("#")[0].partition(":")
        if colon:
            found[name.split()[0]] = line, libraries.split()
    return found


def add_crate(name, found):
    """Adds a crate to those that were found, behind the crates that it stands on."""
    for below in listed()[name][1]:
        if below in listed() and below not in found:
            add_crate(below, found)
    found.append(name)


@functools.cache
def files_of(crate):
    """Returns the bytes of each file that a crate is proved, built and run with, by its path; its edits aren't among them."""
    found = {}
    for at, folders, names in os.walk(f"{TOP}/crates/{crate}"):
        if at == f"{TOP}/crates/{crate}":
            folders[:] = set(folders) - {"out", "must-fail"}
        for name in names:
            data = read(f"{at}/{name}")
            if data is not None:
                found[os.path.relpath(f"{at}/{name}", TOP)] = data
    return dict(sorted(found.items()))


def sources(name):
    """Returns the crates that a crate stands on and itself, the lowest first, and the bytes of each file by its path."""
    crates = []
    add_crate(name, crates)
    files = {"crates.txt": "".join(f"{listed()[crate][0]}\n" for crate in crates).encode()}
    files["HANDLES"] = read(f"{TOP}/HANDLES") or b""
    for crate in sorted(crates):
        files.update(files_of(crate))
    return crates, files


def checksum(parts):
    """Returns a sum of names with their bytes."""
    return hashlib.sha256(repr([(name, hashlib.sha256(data).digest()) for name, data in parts]).encode()).hexdigest()


def toolchain():
    """Returns the sum of the command `rt` and of the name that its kit has one folder above, or None where there is no `rt`."""
    command = shutil.which("rt")
    if command is None:
        return None
    command = os.path.realpath(command)
    return checksum([("rt", read(command)), ("kit", read(f"{os.path.dirname(command)}/../KIT-ID") or b"")])


def edits_of(crate):
    """Returns the bytes of each file in the folder of a crate's must-fail edits, by its name."""
    folder = f"{TOP}/crates/{crate}/must-fail"
    return {name: read(f"{folder}/{name}") for name in sorted(os.listdir(folder))} if os.path.isdir(folder) else {}


def edits_sum(crate, kit):
    """Returns the sum of all that a crate's must-fail edits are tried over: the toolchain, the sources and the edits."""
    parts = [("toolchain", kit.encode()), *sources(crate)[1].items(), *edits_of(crate).items()]
    return checksum(parts)
