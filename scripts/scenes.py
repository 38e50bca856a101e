"""Small vaults and commands over them, written by Python's package cryptography, for scripts that refuse or stop at every place.

The vaults cost scrypt 2, 1, 1, so that a command takes some milliseconds.
"""
import hashlib
import os
import subprocess
import typing

from vault_writer import Cryptomator, CryptomatorTree, Gocryptfs, GocryptfsTree

KINDS = ["gocryptfs", "cryptomator", "cryptomator-ctrmac"]
LONG = b"a long name " * 15
DECOMPOSED = "e\u0301 decomposed".encode()
PASS = ["--pass", "pass"]
WORK = ["--pass", "pass", "--work", "w"]
BOTH = ["--from-pass", "pass", "--to-pass", "pass"]


class Scene(typing.NamedTuple):
    """A command, what stands before it, and which vaults are read behind it. `step` is for trees with which each call takes long."""

    name: str
    make: typing.Callable
    words: list
    given: bytes = b""
    roots: list = []
    before: list = []
    step: int = 1


def vault(kind, root, directories=(), files=()):
    """A vault under the passphrase `demo`: each directory and file with the number of the directory that it stands in."""
    if kind == "gocryptfs":
        writer = Gocryptfs(bytes(range(32)))
        tree = GocryptfsTree(writer)
        tree.root(writer.configuration(b"demo", 2, 1), bytes([1]) * 16)
        homes, made = [""], lambda n: bytes([n]) * 16
    else:
        writer = Cryptomator(bytes(range(32)), bytes(range(32, 64)), combo="SIV_GCM" if kind == "cryptomator" else "SIV_CTRMAC")
        tree = CryptomatorTree(writer)
        tree.root(writer.configuration(b"demo", 2, 1))
        homes, made = [b""], lambda n: f"{n:08x}-1111-4111-8111-111111111111".encode()
    for n, (above, name) in enumerate(directories, 2):
        at = tree.directory(homes[above], name, made(n))
        homes.append(at if kind == "gocryptfs" else made(n))
    for above, name, content in files:
        tree.file(homes[above], name, content)
    root.mkdir()
    tree.write(root)


SMALL = [(0, b"a")], [(1, b"x", b"hello"), (0, b"y", b"y" * 4097), (0, LONG, b"")]
FORTY = (
    [(0, b"one"), (1, b"two"), (2, b"three")],
    [(0, b"empty", b""), (1, b"hole", bytes(4096) + b"end"), (2, LONG, b"long"), (3, "\u00e9".encode(), b"e")]
    + [(n % 4, b"file %d" % n, b"x" * (331 * n)) for n in range(36)],
)


def stray(kind, room):
    vault(kind, room / "v", *SMALL)
    at = room / "v" if kind == "gocryptfs" else next((room / "v" / "d").glob("*/*"))
    (at / ".DS_Store").write_bytes(b"stray")
    (at / "other").write_bytes(b"stray")


def sides(kind, tree, room):
    """A vault and an empty one of the kind behind its own, so that each kind is a source and a target."""
    vault(kind, room / "v", *tree)
    vault(KINDS[(KINDS.index(kind) + 1) % len(KINDS)], room / "t")


def begun(kind, room):
    """As a migration is left that is stopped right behind its journal."""
    sides(kind, SMALL, room)
    items = sorted([(b"d", [b"a"]), (b"f", [b"a", b"x"]), (b"f", [LONG]), (b"f", [b"y"])], key=lambda item: item[1])
    plan = hashlib.sha256(b"".join(b"%s %s\n" % (letter, b"/".join(path)) for letter, path in items)).hexdigest()
    (room / "w" / "stage").mkdir(parents=True)
    journal = ["vaultmove 2", "phase building", "names same", "from v", "to t", f"items {len(items)}", f"plan {plan}", ""]
    (room / "w" / "journal").write_text("\n".join(journal))


def scenes():
    for kind in KINDS:

        def small(room, kind=kind):
            vault(kind, room / "v", *SMALL)

        def strays(room, kind=kind):
            stray(kind, room)

        def two(room, kind=kind):
            sides(kind, SMALL, room)

        def journal(room, kind=kind):
            begun(kind, room)

        def many(room, kind=kind):
            sides(kind, FORTY, room)

        def decomposed(room, kind=kind):
            sides(kind, ([(0, DECOMPOSED)], [(1, b"x", b"hello"), (1, DECOMPOSED, b"there")]), room)

        migrate = ["migrate", "v", "t", "w", *BOTH]
        yield Scene(f"{kind} init", lambda room: None, ["init", kind, "v", *WORK], roots=["v"])
        yield Scene(f"{kind} mkdir", small, ["mkdir", "v", "a/new", *WORK], roots=["v"])
        yield Scene(f"{kind} put", small, ["put", "v", "a/x", *WORK], b"hi" * 3000, ["v"])
        yield Scene(f"{kind} put new", small, ["put", "v", "a/" + LONG.decode(), *WORK], b"hi", ["v"])
        yield Scene(f"{kind} ls", small, ["ls", "v", "a", *PASS], roots=["v"])
        yield Scene(f"{kind} cat", small, ["cat", "v", "y", *PASS], roots=["v"])
        yield Scene(f"{kind} fsck", strays, ["fsck", "v", *PASS], roots=["v"])
        yield Scene(f"{kind} repair", strays, ["repair", "v", "lost", *PASS], roots=["v"])
        yield Scene(f"{kind} migrate", two, migrate, roots=["v", "t"])
        yield Scene(f"{kind} migrate --nfc", decomposed, [*migrate, "--nfc"], roots=["v", "t"])
        yield Scene(f"{kind} resume begun", journal, ["resume", "w", *BOTH], roots=["v", "t"])
        yield Scene(f"{kind} resume done", two, ["resume", "w", *BOTH], roots=["v", "t"], before=[migrate])
        yield Scene(f"{kind} retire", two, ["retire", "w", *BOTH], roots=["v", "t"], before=[migrate])
        yield Scene(f"{kind} migrate 43 items", many, migrate, roots=["v", "t"], step=10)
        yield Scene(f"{kind} retire 43 items", many, ["retire", "w", *BOTH], roots=["v", "t"], before=[migrate], step=10)
    yield Scene("decrypt-file", lambda room: None, ["decrypt-file", "0" * 64], b"\0\2" + bytes(15) + b"\1" + bytes(4128) * 3)
    yield Scene("demo", lambda room: None, ["demo", "7", "5"], step=97)


def run(program, room, words, given=b"", env=None, before=()):
    """The status, the output and the message; `before` stands in front of the program."""
    words = [*before, program, *words]
    made = subprocess.run(words, cwd=room, input=given, capture_output=True, env={**os.environ, **(env or {})}, timeout=120)
    return made.returncode, made.stdout, made.stderr


def opened(program, room, root):
    """What `ls` and `cat` give of a whole vault, or what is answered where it doesn't open."""
    if not (room / root).exists():
        return "gone"
    found, todo = {}, [""]
    while todo:
        at = todo.pop()
        status, out, said = run(program, room, ["ls", root, at, *PASS])
        if status:
            return f"{status} {said}"
        for line in out.decode().splitlines():
            path = f"{at}/{line[2:]}".lstrip("/")
            found[path] = None if line[0] == "d" else run(program, room, ["cat", root, path, *PASS])[:2]
            if line[0] == "d":
                todo.append(path)
    return found


def is_lost(before, after, now):
    """Whether a vault opens neither as before nor as after; between two vaults, whether a file opens in neither."""
    if len(now) == 1:
        return now[0] not in (before[0], after[0])
    files = {path: got for path, got in before[0].items() if got is not None}
    return any(not any(isinstance(one, dict) and one.get(path) == got for one in now) for path, got in files.items())
