#!/usr/bin/env python3
"""Prints the rows of surveys of a vault of each format, as crates/command_rows/data/surveys.rows.

The vaults have the keys of the vaults `go:ROOT` and `cm:ROOT` of rows, and no configuration that opens. Each entry is made with the
findings that it has by the format's definitions, and with the item that it is.
"""
from cryptography.hazmat.primitives.ciphers import Cipher, algorithms, modes

from vault_writer import Cryptomator, Gocryptfs

ROOT_IV, DIR_IV = bytes([7]) * 16, bytes([8]) * 16
DIR_ID = b"5d9a3f4e-2b1c-4d6e-8f70-123456789abc"


class KeyedGocryptfs(Gocryptfs):
    def __init__(self):
        self.blocks = Cipher(algorithms.AES(bytes([4]) * 32), modes.ECB()).encryptor()


go = KeyedGocryptfs()
cm = Cryptomator(bytes([5]) * 32, bytes([6]) * 32)


class Entries:
    """Entries that are made line by line, and what a survey tells of them."""

    def __init__(self, before=None):
        self.lines = []
        self.items = list(before.items) if before else []
        self.findings = list(before.findings) if before else []
        self.notes = list(before.notes) if before else []

    def folder(self, at):
        self.lines.append(f"dir {at}")
        return at

    def file(self, at, content=b""):
        word = "'" + content.decode() if content.isascii() and content.decode().isprintable() else content.hex()
        self.lines.append(f"file {at} {word}".rstrip("' "))
        return at

    def text(self, at, text):
        self.lines.append(f"file {at} '{text}")

    def item(self, letter, path, at):
        self.items.append((path.encode(), f"{letter} {path} {at}"))

    def finding(self, number, at):
        self.findings.append(([part.encode() for part in at.split("/")], number, f"{number} {at}"))

    def note(self, at):
        self.notes.append(([part.encode() for part in at.split("/")], f"note {at}"))

    def told(self):
        items = sorted(self.items, key=lambda item: item[0].split(b"/"))
        lines = [line for _, line in items]
        lines += [line for _, _, line in sorted(self.findings)]
        lines += [line for _, line in sorted(self.notes)]
        return lines + ["done"]


def define(name, entries):
    print(f"def {name}")
    print("\n".join(entries.lines))
    print("end\n")


def row(name, vault, defs, entries, walked):
    print(f"row {name}")
    for each in defs:
        print(f"use {each}")
    print(f"survey {vault}")
    for line in entries.told():
        print(f"= {line}")
    print(f"walk {vault}")
    for line in walked:
        print(f"= {line}")
    print("end\n")


def first_finding(entries):
    return [f"NotClean {sorted(entries.findings)[0][2]}"]


print("# Surveys and walks of vaults of fixed keys, printed by scripts/surveys.py: their items in order, with the path at which each is stored,")
print("# then the findings and the notes.\n")

# gocryptfs
clean = Entries()
clean.folder("g")
clean.file("g/gocryptfs.diriv", ROOT_IV)
clean.file("g/gocryptfs.conf")
for name in [b"x" * 176, b"a"]:
    entry, text = go.name(ROOT_IV, name)
    if text:
        clean.text(f"g/{entry}.name", text)
    clean.item("f", name.decode(), clean.file(f"g/{entry}"))
d, _ = go.name(ROOT_IV, b"d")
clean.item("d", "d", clean.folder(f"g/{d}"))
clean.file(f"g/{d}/gocryptfs.diriv", DIR_IV)
b, _ = go.name(DIR_IV, b"b")
clean.item("f", "d/b", clean.file(f"g/{d}/{b}"))
define("keyed gocryptfs", clean)
row("a gocryptfs vault is surveyed as it was built", "go:g", ["keyed gocryptfs"], clean, clean.told())

strays = Entries(clean)
n, _ = go.name(ROOT_IV, b"n")
strays.lines.append("# a directory whose key is of zeros, an entry of no name, a long one without its text, a text without its entry, and one of no entry")
strays.item("d", "n", strays.folder(f"g/{n}"))
strays.file(f"g/{n}/gocryptfs.diriv", bytes(16))
strays.finding(2, f"g/{n}")
strays.finding(1, strays.file("g/stray"))
long, _ = go.name(ROOT_IV, b"y" * 200)
strays.finding(3, strays.file(f"g/{long}"))
lost, text = go.name(ROOT_IV, b"w" * 200)
strays.text(f"g/{lost}.name", text)
strays.note(f"g/{lost}.name")
strays.finding(4, strays.file("g/gocryptfs.longname.q.name", b"text"))
define("strays of the keyed gocryptfs", strays)
row(
    "what is no item of a gocryptfs vault is found",
    "go:g",
    ["keyed gocryptfs", "strays of the keyed gocryptfs"],
    strays,
    first_finding(strays),
)


# Cryptomator
def home(entries, dir_id):
    at = f"c/{cm.folder(dir_id)}"
    entries.folder(at.rsplit("/", 1)[0])
    return entries.folder(at)


def folder_entry(entries, top, dir_id, name):
    entry, text = cm.name(dir_id, name)
    at = entries.folder(f"{top}/{entry}")
    if text:
        entries.text(f"{at}/name.c9s", text)
    return at


clean = Entries()
clean.folder("c")
clean.folder("c/d")
clean.file("c/vault.cryptomator")
top = home(clean, b"")
clean.file(f"{top}/dirid.c9r")
long = folder_entry(clean, top, b"", b"x" * 147)
clean.item("f", "x" * 147, clean.file(f"{long}/contents.c9r"))
clean.item("f", "a", clean.file(f"{top}/{cm.name(b'', b'a')[0]}"))
d = folder_entry(clean, top, b"", b"d")
clean.file(f"{d}/dir.c9r", DIR_ID)
clean.item("d", "d", d)
inner = home(clean, DIR_ID)
clean.item("f", "d/b", clean.file(f"{inner}/{cm.name(DIR_ID, b'b')[0]}"))
define("keyed cryptomator", clean)
row("a Cryptomator vault is surveyed as it was built", "cm:c", ["keyed cryptomator"], clean, clean.told())

strays = Entries(clean)
strays.lines.append("# two directories with one id, and what has no place in the second")
twin = folder_entry(strays, top, b"", b"e")
strays.file(f"{twin}/dir.c9r", DIR_ID)
strays.item("d", "e", twin)
strays.finding(5, d)
strays.finding(5, twin)
strays.finding(10, strays.file(f"{twin}/other"))
strays.lines.append("# a directory without its folder, and one without an id")
z = folder_entry(strays, top, b"", b"z")
strays.file(f"{z}/dir.c9r", b"elsewhere")
strays.item("d", "z", z)
strays.finding(6, z)
n = folder_entry(strays, top, b"", b"n")
strays.file(f"{n}/dir.c9r")
strays.item("d", "n", n)
strays.finding(2, n)
strays.lines.append("# an entry of no name, a long one whose text was encrypted elsewhere, and folders of no kind, of two and of a symlink")
strays.finding(1, strays.file(f"{top}/stray.c9r"))
other = folder_entry(strays, top, b"lost", b"y" * 200)
strays.file(f"{other}/contents.c9r")
strays.finding(3, other)
strays.finding(9, folder_entry(strays, top, b"", b"f"))
two = folder_entry(strays, top, b"", b"t")
strays.file(f"{two}/dir.c9r", b"two")
strays.file(f"{two}/symlink.c9r")
strays.finding(11, two)
link = folder_entry(strays, top, b"", b"s")
strays.file(f"{link}/symlink.c9r")
strays.finding(8, link)
define("strays of the keyed cryptomator", strays)
row(
    "what is no item of a Cryptomator vault is found",
    "cm:c",
    ["keyed cryptomator", "strays of the keyed cryptomator"],
    strays,
    first_finding(strays),
)

loose = Entries(strays)
loose.lines.append("# a content folder that isn't reached, an empty one, a folder without any, and entries without a place")
lost = home(loose, b"loose")
loose.file(f"{lost}/file")
loose.finding(7, lost)
idle = home(loose, b"idle")
loose.file(f"{idle}/dirid.c9r")
loose.note(idle)
loose.note(loose.folder("c/d/22"))
loose.finding(10, loose.file("c/d/AA"))
loose.finding(10, loose.file("c/note"))
define("loose folders of the keyed cryptomator", loose)
row(
    "folders that no directory of a Cryptomator vault leads to are found",
    "cm:c",
    ["keyed cryptomator", "strays of the keyed cryptomator", "loose folders of the keyed cryptomator"],
    loose,
    first_finding(loose),
)
