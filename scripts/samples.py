#!/usr/bin/env python3
"""Prints the definitions of the vaults that the rows of `fsck` and `repair` change, as crates/command_rows/data/written.rows.

The vault `g` is the first of vaults.rows, which gocryptfs 2.3 wrote while it was mounted; only its configuration is written anew, for a
cheap scrypt, and a file with a long name is added. The vaults `c` and `t`, of either combination, are written here.
"""
import os
import re

from cryptography.hazmat.primitives.hashes import SHA256
from cryptography.hazmat.primitives.kdf.hkdf import HKDF

from vault_writer import Cryptomator, CryptomatorTree, Gocryptfs, GocryptfsTree, master_of

VAULTS = os.path.join(os.path.dirname(__file__), "../crates/command_rows/data/vaults.rows")


def read_bytes(word):
    if not word.startswith("'"):
        return bytes.fromhex(word)
    marks = {"n": "\n", "t": "\t", "\\": "\\"}
    return re.sub(r"\\(.)", lambda mark: marks[mark[1]], word[1:]).encode()


OLD = {
    path: read_bytes(word)
    for path, word in re.findall(r"(?m)^file (g/\S+) ?(.*)$", open(VAULTS).read())
}


def word_of(some):
    if all(32 <= b < 127 and b != ord("\\") for b in some):
        return "'" + some.decode()
    return some.hex()


def begin(root, doc, folders, files):
    print(f"\n# {doc}\ndef {root}")
    for folder in [root] + [f"{root}/{folder}" for folder in folders]:
        print(f"dir {folder}")
    for at, content in files:
        print(f"file {root}/{at} {word_of(content)}")


def name(what, path):
    print(f"name {what} {path}")


print("# The vaults that the rows of `fsck` and `repair` change, written by scripts/samples.py. All have the passphrase `secret`, and each a")
print("# directory `a` with a file `x` of `hello`.")

master = master_of(OLD["g/gocryptfs.conf"], b"secret")
go = Gocryptfs(master)
tree = GocryptfsTree(go)
tree.root(go.configuration(b"secret", 2, 1), OLD["g/gocryptfs.diriv"])
inner, _ = go.name(OLD["g/gocryptfs.diriv"], b"a")
tree.folders.append(inner)
tree.files += [(path[2:], content) for path, content in OLD.items() if path not in ("g/gocryptfs.conf", "g/gocryptfs.diriv")]
long_file = tree.file("", b"n" * 176, b"")
begin("g", "The vault of gocryptfs 2.3 with a cheap scrypt, an empty file `e` and a file with a long name.", tree.folders, tree.files)
print("# the directory `a` and the file `x`; the file with a long name, and the text of another long name")
x, _ = go.name(OLD[f"g/{inner}/gocryptfs.diriv"], b"x")
name("g.a", f"g/{inner}")
name("g.x", f"g/{inner}/{x}")
name("g.long", f"g/{long_file}")
name("g.text", go.name(OLD["g/gocryptfs.diriv"], b"m" * 176)[1])
print("# the key of its contents")
key = HKDF(algorithm=SHA256(), length=32, salt=None, info=b"AES-GCM file content encryption").derive(master)
name("g.key", key.hex())
print("# the entry of the name `d` in a directory whose key is sixteen times `k`")
name("g.d", go.name(b"k" * 16, b"d")[0])
print("end")


def cryptomator(root, combo, doc):
    """A vault with one directory of a short name and one of a long name, whose paths have names: of `t` only that which rows use."""
    cm = Cryptomator(b"key of 32 bytes for the contents", b"key of 32 bytes for names and id", 36, combo)
    tree = CryptomatorTree(cm)
    top = tree.root(cm.configuration(b"secret", 2, 1))
    a = tree.directory(b"", b"a", b"1111")
    x = tree.file(b"1111", b"x", b"hello")
    f = tree.file(b"", b"f", b"some")
    long_file = tree.file(b"", b"long_file", b"long")
    long_dir = tree.directory(b"", b"long_dirs", b"2222")
    begin(root, doc, tree.folders, tree.files)
    if root == "t":
        print("# the file `x` in the directory `a`")
        name("t.x", f"t/{x}")
        print("end")
        return
    print("# the content folder of the root; the directory `a`, whose id is 1111, its content folder, and the file `x` in it; the file `f`")
    name(f"{root}.top", f"{root}/{top}")
    name(f"{root}.a", f"{root}/{a}")
    name(f"{root}.inner", f"{root}/{cm.folder(b'1111')}")
    name(f"{root}.x", f"{root}/{x}")
    name(f"{root}.f", f"{root}/{f}")
    print("# the file and the directory with long names, and the content folder of this directory, whose id is 2222")
    name(f"{root}.long", f"{root}/{long_file}")
    name(f"{root}.longdir", f"{root}/{long_dir}")
    name(f"{root}.other", f"{root}/{cm.folder(b'2222')}")
    print("# the entry of the name `b` in `a`, and that of the name `c` in the directory with a long name")
    name(f"{root}.b", f"{root}/{cm.folder(b'1111')}/{cm.name(b'1111', b'b')[0]}")
    name(f"{root}.c", f"{root}/{cm.folder(b'2222')}/{cm.name(b'2222', b'c')[0]}")
    print("end")


cryptomator("c", "SIV_GCM", "A vault of Python's package cryptography, in which names of more than 36 letters are long.")
cryptomator("t", "SIV_CTRMAC", "The same with SIV_CTRMAC.")
other = Cryptomator(b"key of 32 bytes for the contents", b"key of 32 bytes for names and id", 36, "SIV_CTR")
begin("o", "A configuration with a combination that isn't known.", [], zip(("masterkey.cryptomator", "vault.cryptomator"), other.configuration(b"secret", 2, 1)))
print("end")
