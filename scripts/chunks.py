#!/usr/bin/env python3
"""Prints the stored parts that the rows of crates/command_rows/data/malicious.rows put together in the vaults of written.rows: of each kind
of content a file's header, its first and only chunk, a full one, and the header of another file; and 63 directories in one another below
the directory `a` of the vaults of Cryptomator, and one more, as scripts/vault_writer.py writes them with Python's package cryptography."""
import pathlib
import re

from cryptography.hazmat.primitives.ciphers.aead import AESGCM

from vault_writer import Cryptomator, Gocryptfs

ROWS = pathlib.Path(__file__).resolve().parent.parent / "crates/command_rows/data/written.rows"
ENC, MAC = b"key of 32 bytes for the contents", b"key of 32 bytes for names and id"


class KeyedGocryptfs(Gocryptfs):
    """The contents of the vault `g`, whose content key the rows have."""

    def __init__(self):
        self.content = AESGCM(bytes.fromhex(re.search(r"(?m)^name g\.key (\w+)$", ROWS.read_text())[1]))
        self.count = 0


def parts(what, writer, front, content):
    stored, other = writer.contents(content), writer.contents(b"other")
    print(f"name {what}.header {stored[:front].hex()}")
    print(f"name {what}.chunk {stored[front:].hex()}")
    print(f"name {what}.strange {other[:front].hex()}")


parts("g", KeyedGocryptfs(), 18, b"Z" * 4096)
parts("c", Cryptomator(ENC, MAC, 36, "SIV_GCM"), 68, b"Z" * 32_768)
parts("t", Cryptomator(ENC, MAC, 36, "SIV_CTRMAC"), 88, b"Z" * 32_768)


def directory_in(above, dir_id, known):
    """Prints the directory `b` in the one of an id, with its content folder."""
    entry, _ = writer.name(above, b"b")
    at, folder = f"{{deep}}/{writer.folder(above)}/{entry}", f"{{deep}}/{writer.folder(dir_id)}"
    print(f"dir {at}\nfile {at}/dir.c9r '{dir_id.decode()}")
    shelf = folder.rsplit("/", 1)[0]
    print("".join(f"dir {made}\n" for made in (shelf, folder) if made not in known), end="")
    known.add(shelf)


writer = Cryptomator(ENC, MAC, 36)
ids = [b"1111", *(b"%d" % n for n in range(3002, 3066))]
known = {"{deep}/" + writer.folder(dir_id).rsplit("/", 1)[0] for dir_id in (b"", b"1111", b"2222")}
print("def directories in one another")
for above, dir_id in zip(ids, ids[1:-1]):
    directory_in(above, dir_id, known)
print("end\ndef one deeper in them")
directory_in(ids[-2], ids[-1], known)
print("end")
