"""Surveys vaults of both formats as they stand on the disk, however damaged, with Python's package cryptography, for scripts.

It is written from docs/formats.md alone: what is found, in the lines of `fsck`, and which items open with which content.
"""
import base64
import hashlib
import hmac
import os
import re
import stat

from cryptography.exceptions import InvalidTag
from cryptography.hazmat.primitives.ciphers import Cipher, algorithms, modes
from cryptography.hazmat.primitives.ciphers.aead import AESGCM

NAMES = {
    1: "BadStoredName", 2: "NoDirKey", 3: "LongNameLost", 4: "OrphanLongName", 5: "DirIdTwice", 6: "NoFolder", 7: "OrphanFolder",
    8: "SymlinkFound", 9: "WrongKind", 10: "ExtraEntry", 11: "TwoKinds", 12: "HeaderDamaged", 13: "ChunkDamaged", 14: "EmptyOrphan",
}  # fmt: skip
STRAYS = {1, 3, 4, 7, 8, 10}
MOST_STEPS = 64


class TooDeep(Exception):
    """More steps to a directory than a check goes."""


class Damage(Exception):
    """A content's first fault, with the bytes before it."""

    def __init__(self, fault, number, before=b""):
        super().__init__(fault)
        self.fault, self.number, self.before = fault, number, before


def is_name(name):
    return 1 <= len(name) <= 255 and b"/" not in name and b"\0" not in name and name not in (b".", b"..")


def kind(path):
    mode = os.lstat(path).st_mode
    return "file" if stat.S_ISREG(mode) else "folder" if stat.S_ISDIR(mode) else "other"


def small_file(path, most):
    """The bytes of a file that is at most so long, else None."""
    try:
        if kind(path) != "file" or os.lstat(path).st_size > most:
            return None
        with open(path, "rb") as file:
            return file.read()
    except FileNotFoundError:
        return None


def exact_base64url(text, pad):
    """The bytes whose base64url the text is, exactly; else None."""
    if not re.fullmatch(r"[A-Za-z0-9_-]*=*", text):
        return None
    bare = text.rstrip("=")
    try:
        found = base64.urlsafe_b64decode(bare + "=" * (-len(bare) % 4))
    except ValueError:
        return None
    again = base64.urlsafe_b64encode(found).decode()
    return found if (again if pad else again.rstrip("=")) == text else None


def belongs_at_roots(name):
    return name == "gocryptfs.conf.bak" or name.endswith(".rtf") or name.endswith(".bkup")


class Survey:
    """What stands below a root. `found` are triples of parts, number and what is told behind the path; `items` go by plain path."""

    def __init__(self, root):
        self.root, self.found, self.items = root, [], {}
        self.survey()

    def path(self, *parts):
        return os.path.join(self.root, *parts)

    def entries(self, at):
        return sorted(os.listdir(self.path(at)), key=os.fsencode)

    def finding(self, number, at, fault=""):
        self.found.append(([part.encode() for part in at.split("/") if part], number, fault))

    def content_at(self, plain, at):
        """The item of a file: its content, or the fault that ends it with what comes before."""
        with open(self.path(at), "rb") as file:
            stored = file.read()
        try:
            self.items.setdefault(plain, ("f", self.content(stored), None))
        except Damage as damage:
            self.items.setdefault(plain, ("f", damage.before, damage.fault))
            self.finding(damage.number, at, " " + damage.fault)

    def lines(self, vault):
        """As `fsck` prints them for a vault at this path."""

        def line(parts, number, fault):
            return f"{number} {NAMES[number]} " + "/".join([vault] + [part.decode() for part in parts]) + fault

        faults = sorted(one for one in self.found if one[1] != 14)
        return [line(*one) for one in faults + sorted(one for one in self.found if one[1] == 14)]

    def is_clean(self):
        return all(number >= 12 for _, number, _ in self.found)

    def tree(self):
        return {path: item for path, item in self.items.items() if path}


class GocryptfsSurvey(Survey):
    def __init__(self, root, vault):
        self.vault = vault
        super().__init__(root)

    def survey(self):
        self.directory("", b"", 0)

    def key(self, at):
        key = small_file(self.path(at, "gocryptfs.diriv"), 16)
        return key if key is not None and len(key) == 16 and any(key) else None

    def directory(self, at, plain, steps):
        self.items[plain] = ("d",)
        key = self.key(at)
        if key is None:
            self.finding(2, at)
            return
        if steps > MOST_STEPS:
            raise TooDeep
        for entry in self.entries(at):
            self.entry(at, plain, steps, key, entry)

    def text_of(self, at, entry, key):
        """The name of which a long entry's long-name file is the text, or None."""
        text = small_file(self.path(at, entry + ".name"), 1024)
        if text is None or len(text) <= 255 or entry != self.long(text):
            return None
        return self.name_of(text.decode("latin-1"), key)

    @staticmethod
    def long(text):
        return "gocryptfs.longname." + base64.urlsafe_b64encode(hashlib.sha256(text).digest()).decode().rstrip("=")

    def name_of(self, text, key):
        stored = exact_base64url(text, False)
        if not stored or len(stored) % 16:
            return None
        padded = self.vault.eme(key, stored, self.vault.unimage)
        pad = padded[-1]
        name = padded[:-pad]
        return name if 1 <= pad <= 16 and padded.endswith(bytes([pad]) * pad) and is_name(name) else None

    def entry(self, at, plain, steps, key, entry):
        here = f"{at}/{entry}".lstrip("/")
        what = kind(self.path(here))
        fixed = entry == "gocryptfs.diriv" or (not at and (entry == "gocryptfs.conf" or belongs_at_roots(entry)))
        if fixed and what == "file":
            return
        if re.fullmatch(r"gocryptfs\.longname\..*\.name", entry) and what == "file":
            owner = entry.removesuffix(".name")
            if self.text_of(at, owner, key) is None:
                self.finding(4, here)
            elif not os.path.lexists(self.path(at, owner)):
                self.finding(14, here)
            return
        if re.fullmatch(r"gocryptfs\.longname\.[A-Za-z0-9_-]{43}", entry):
            name = self.text_of(at, entry, key)
            if name is None:
                self.finding(3, here)
                return
        else:
            name = None if fixed else self.name_of(entry, key)
            if name is None:
                self.finding(1, here)
                return
        inner = plain + b"/" + name if plain else name
        if what == "file":
            self.content_at(inner, here)
        elif what == "folder":
            self.directory(here, inner, steps + 1)
        else:
            self.finding(8, here)

    def content(self, stored):
        if not stored:
            return b""
        if len(stored) < 18:
            raise Damage("no header", 12)
        if stored[:2] != b"\0\2":
            raise Damage(f"header version {int.from_bytes(stored[:2], 'big')}", 12)
        if not any(stored[2:18]):
            raise Damage("zero file id", 12)
        content = b""
        for number, start in enumerate(range(18, len(stored), 4128)):
            block = stored[start : start + 4128]
            if len(block) == 4128 and not any(block):
                content += bytes(4096)
                continue
            if len(block) < 32:
                raise Damage(f"chunk {number} short", 13, content)
            if not any(block[:16]):
                raise Damage(f"chunk {number} zero nonce", 13, content)
            try:
                content += self.vault.content.decrypt(block[:16], block[16:], number.to_bytes(8, "big") + stored[2:18])
            except InvalidTag:
                raise Damage(f"chunk {number} tag", 13, content) from None
        return content


class CryptomatorSurvey(Survey):
    def __init__(self, root, vault):
        self.vault = vault
        super().__init__(root)

    def survey(self):
        self.ids, self.reached = [], set()
        for entry in self.entries(""):
            what = kind(self.path(entry))
            files = entry in ("vault.cryptomator", "masterkey.cryptomator") or belongs_at_roots(entry)
            if not (files and what == "file" or entry == "d" and what == "folder"):
                self.finding(10, entry)
        steps, level = 0, [(b"", b"", "")]
        self.items[b""] = ("d",)
        while level:
            level = [inner for directory in level for inner in self.directory(*directory)]
            steps += 1
            if level and steps > MOST_STEPS:
                raise TooDeep
        for at, dir_id in self.ids:
            if sum(other == dir_id for _, other in self.ids) > 1:
                self.finding(5, at)
        if os.path.isdir(self.path("d")) and kind(self.path("d")) == "folder":
            self.loose()

    def loose(self):
        for shelf in self.entries("d"):
            if not re.fullmatch(r"[A-Z2-7]{2}", shelf) or kind(self.path("d", shelf)) != "folder":
                self.finding(10, f"d/{shelf}")
                continue
            if not self.entries(f"d/{shelf}"):
                self.finding(14, f"d/{shelf}")
            for folder in self.entries(f"d/{shelf}"):
                at = f"d/{shelf}/{folder}"
                if not re.fullmatch(r"[A-Z2-7]{30}", folder) or kind(self.path(at)) != "folder":
                    self.finding(10, at)
                elif at not in self.reached:
                    inner = self.entries(at)
                    empty = not inner or inner == ["dirid.c9r"] and kind(self.path(at, "dirid.c9r")) == "file"
                    self.finding(14 if empty else 7, at)

    def directory(self, dir_id, plain, at):
        """Surveys the folder of a directory whose item stands at this path; gives the directories in it whose folders are new."""
        folder = self.vault.folder(dir_id)
        if not os.path.lexists(self.path(folder)) or kind(self.path(folder)) != "folder":
            self.finding(6, at)
            return
        if folder in self.reached:
            return
        self.reached.add(folder)
        for entry in self.entries(folder):
            yield from self.entry(folder, dir_id, plain, entry)

    def name_of(self, text, dir_id):
        """The name of which this is the text, or None."""
        stored = exact_base64url(text.removesuffix(".c9r"), True) if text.endswith(".c9r") else None
        if not stored or len(stored) < 16:
            return None
        try:
            name = self.vault.siv.decrypt(stored, [dir_id])
        except (InvalidTag, ValueError):
            return None
        return name if is_name(name) else None

    def entry(self, folder, dir_id, plain, entry):
        here = f"{folder}/{entry}"
        what = kind(self.path(here))
        if entry == "dirid.c9r" and what == "file":
            return
        if re.fullmatch(r"[A-Za-z0-9_-]{27}=\.c9s", entry):
            if what != "folder":
                self.finding(9, here)
                return
            text = small_file(self.path(here, "name.c9s"), 1024)
            right = text is not None and len(text) > self.vault.threshold
            right = right and base64.urlsafe_b64encode(hashlib.sha1(text).digest()).decode() + ".c9s" == entry
            name = self.name_of(text.decode("latin-1"), dir_id) if right else None
            if name is None:
                self.finding(3, here)
                return
            yield from self.folder_entry(here, plain, name, True)
            return
        name = self.name_of(entry, dir_id) if len(entry) <= self.vault.threshold else None
        if name is None:
            self.finding(1, here)
        elif what == "file":
            self.content_at(plain + b"/" + name if plain else name, here)
        elif what == "folder":
            yield from self.folder_entry(here, plain, name, False)
        else:
            self.finding(8, here)

    def folder_entry(self, here, plain, name, is_long):
        def has(one):
            return os.path.lexists(self.path(here, one)) and kind(self.path(here, one)) == "file"

        held = [one for one in ("contents.c9r", "dir.c9r", "symlink.c9r") if has(one)]
        if len(held) > 1:
            self.finding(11, here)
            return
        if held == ["symlink.c9r"]:
            self.finding(8, here)
            return
        if not held or held == ["contents.c9r"] and not is_long:
            self.finding(9, here)
            return
        inner = plain + b"/" + name if plain else name
        own = held + (["name.c9s"] if is_long else [])
        for one in self.entries(here):
            if one not in own or kind(self.path(here, one)) != "file":
                self.finding(10, f"{here}/{one}")
        if held == ["contents.c9r"]:
            self.content_at(inner, f"{here}/contents.c9r")
            return
        self.items.setdefault(inner, ("d",))
        dir_id = small_file(self.path(here, "dir.c9r"), 1000)
        if not dir_id:
            self.finding(2, here)
            return
        self.ids.append((here, dir_id))
        yield (dir_id, inner, here)

    def content(self, stored):
        nonce, tag = (12, 16) if self.vault.combo == "SIV_GCM" else (16, 32)
        front = nonce + 40 + tag
        if len(stored) < front:
            raise Damage("no header", 12)
        header = stored[:nonce]
        plain = self.opened(self.vault.enc, stored[:front], b"", b"")
        if plain is None:
            raise Damage("header tag", 12)
        content = b""
        for number, start in enumerate(range(front, len(stored), nonce + 32_768 + tag)):
            chunk = stored[start : start + nonce + 32_768 + tag]
            if len(chunk) < nonce + tag:
                raise Damage(f"chunk {number} short", 13, content)
            text = self.opened(plain[8:], chunk, header, number.to_bytes(8, "big"))
            if text is None:
                raise Damage(f"chunk {number} tag", 13, content)
            content += text
        return content

    def opened(self, key, stored, header, number):
        if self.vault.combo == "SIV_GCM":
            try:
                return AESGCM(key).decrypt(stored[:12], stored[12:], number + header)
            except InvalidTag:
                return None
        text, tag = stored[:-32], stored[-32:]
        if tag != hmac.digest(self.vault.mac, header + number + text, "sha256"):
            return None
        return Cipher(algorithms.AES(key), modes.CTR(text[:16])).decryptor().update(text[16:])
