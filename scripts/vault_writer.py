"""Writes vaults of both formats, with Python's package cryptography, for scripts and for the samples of tests.

EME, which that package hasn't, is written here from its definition by Halevi and Rogaway.
"""
import base64
import hashlib
import hmac
import json
import os

from cryptography.hazmat.primitives.ciphers import Cipher, algorithms, modes
from cryptography.hazmat.primitives.ciphers.aead import AESGCM, AESSIV
from cryptography.hazmat.primitives.hashes import SHA256
from cryptography.hazmat.primitives.kdf.hkdf import HKDF
from cryptography.hazmat.primitives.kdf.scrypt import Scrypt
from cryptography.hazmat.primitives.keywrap import aes_key_wrap


def scrypt(passphrase, salt, n, r):
    return Scrypt(salt=salt, length=32, n=n, r=r, p=1).derive(passphrase)


def base64url(some):
    return base64.urlsafe_b64encode(some).decode().rstrip("=")


def xor(one, other):
    return bytes(x ^ y for x, y in zip(one, other))


def master_of(configuration, passphrase):
    """The master key that a configuration of gocryptfs holds."""
    fields = json.loads(configuration)
    cost = fields["ScryptObject"]
    key = HKDF(algorithm=SHA256(), length=32, salt=None, info=b"AES-GCM file content encryption").derive(
        scrypt(passphrase, base64.b64decode(cost["Salt"]), cost["N"], cost["R"])
    )
    sealed = base64.b64decode(fields["EncryptedKey"])
    return AESGCM(key).decrypt(sealed[:16], sealed[16:], bytes(8))


class Gocryptfs:
    """The names and contents of a gocryptfs vault with a master key. Sixteen-byte nonces count up, and none is zero."""

    def __init__(self, master):
        def derived(info):
            return HKDF(algorithm=SHA256(), length=32, salt=None, info=info).derive(master)

        self.master = master
        self.content = AESGCM(derived(b"AES-GCM file content encryption"))
        blocks = Cipher(algorithms.AES(derived(b"EME filename encryption")), modes.ECB())
        self.blocks, self.unblocks = blocks.encryptor(), blocks.decryptor()
        self.count = 0

    def drawn(self):
        self.count += 1
        return self.count.to_bytes(16, "big")

    def configuration(self, passphrase, n, r):
        salt, nonce = b"salt" * 8, self.drawn()
        key = HKDF(algorithm=SHA256(), length=32, salt=None, info=b"AES-GCM file content encryption").derive(
            scrypt(passphrase, salt, n, r)
        )
        sealed = nonce + AESGCM(key).encrypt(nonce, self.master, bytes(8))
        return json.dumps(
            {
                "Creator": "vault_writer",
                "EncryptedKey": base64.b64encode(sealed).decode(),
                "ScryptObject": {"Salt": base64.b64encode(salt).decode(), "N": n, "R": r, "P": 1, "KeyLen": 32},
                "Version": 2,
                "FeatureFlags": ["GCMIV128", "HKDF", "DirIV", "EMENames", "LongNames", "Raw64"],
            }
        ).encode()

    def image(self, block):
        return self.blocks.update(block)

    def unimage(self, block):
        return self.unblocks.update(block)

    @staticmethod
    def double(block):
        number = int.from_bytes(block, "little") << 1
        return (number % 2**128 ^ (0x87 if number >> 128 else 0)).to_bytes(16, "little")

    def eme(self, tweak, plain, image=None):
        """Encrypted, or decrypted where the image is that of blocks back."""
        image = image or self.image
        parts = [plain[i : i + 16] for i in range(0, len(plain), 16)]
        masks = [self.double(self.image(bytes(16)))]
        while len(masks) < len(parts):
            masks.append(self.double(masks[-1]))
        first = [image(xor(part, mask)) for part, mask in zip(parts, masks)]
        before = tweak
        for part in first:
            before = xor(before, part)
        after = image(before)
        mask = xor(before, after)
        second = []
        for part in first[1:]:
            mask = self.double(mask)
            second.append(xor(part, mask))
        head = xor(after, tweak)
        for part in second:
            head = xor(head, part)
        return b"".join(xor(image(part), mask) for part, mask in zip([head] + second, masks))

    def name(self, iv, name):
        """The entry of a name, and for a long one the text of its long-name file."""
        pad = 16 - len(name) % 16
        text = base64url(self.eme(iv, name + bytes([pad]) * pad))
        if len(text) <= 255:
            return text, None
        return "gocryptfs.longname." + base64url(hashlib.sha256(text.encode()).digest()), text

    def contents(self, plain):
        if not plain:
            return b""
        file_id = self.drawn()
        stored = b"\0\2" + file_id
        for number, start in enumerate(range(0, len(plain), 4096)):
            nonce = self.drawn()
            stored += nonce + self.content.encrypt(nonce, plain[start : start + 4096], number.to_bytes(8, "big") + file_id)
        return stored


class Cryptomator:
    """The names, folders and contents of a Cryptomator vault with its two keys, and with either combination of ciphers."""

    def __init__(self, enc, mac, threshold=220, combo="SIV_GCM"):
        self.enc, self.mac, self.threshold, self.combo = enc, mac, threshold, combo
        self.siv = AESSIV(mac + enc)
        self.count = 0

    def drawn(self, size):
        self.count += 1
        return self.count.to_bytes(size, "big")

    def configuration(self, passphrase, n, r):
        salt = b"saltsalt"
        key = scrypt(passphrase, salt, n, r)
        master = json.dumps(
            {
                "version": 999,
                "scryptSalt": base64.b64encode(salt).decode(),
                "scryptCostParam": n,
                "scryptBlockSize": r,
                "primaryMasterKey": base64.b64encode(aes_key_wrap(key, self.enc)).decode(),
                "hmacMasterKey": base64.b64encode(aes_key_wrap(key, self.mac)).decode(),
                "versionMac": base64.b64encode(hmac.digest(self.mac, (999).to_bytes(4, "big"), "sha256")).decode(),
            }
        ).encode()
        header = {"kid": "masterkeyfile:masterkey.cryptomator", "typ": "JWT", "alg": "HS256"}
        payload = {
            "format": 8,
            "shorteningThreshold": self.threshold,
            "jti": "7c2d8f1e-0000-4000-8000-000000000000",
            "cipherCombo": self.combo,
        }
        signed = ".".join(base64url(json.dumps(part, separators=(",", ":")).encode()) for part in (header, payload))
        signature = hmac.digest(self.enc + self.mac, signed.encode(), "sha256")
        return master, (signed + "." + base64url(signature)).encode()

    def folder(self, dir_id):
        text = base64.b32encode(hashlib.sha1(self.siv.encrypt(dir_id, None) if dir_id else self.sealed_nothing()).digest()).decode()
        return f"d/{text[:2]}/{text[2:]}"

    def sealed_nothing(self):
        # The package refuses the empty text; S2V of one empty string, by RFC 5297.
        from cryptography.hazmat.primitives.cmac import CMAC

        def cmac(text):
            made = CMAC(algorithms.AES(self.mac))
            made.update(text)
            return made.finalize()

        number = int.from_bytes(cmac(bytes(16)), "big") << 1
        doubled = (number % 2**128 ^ (0x87 if number >> 128 else 0)).to_bytes(16, "big")
        return cmac(xor(doubled, b"\x80" + bytes(15)))

    def name(self, dir_id, name):
        """The entry of a name, and for a long one the text of its long-name file."""
        text = base64.urlsafe_b64encode(self.siv.encrypt(name, [dir_id])).decode() + ".c9r"
        if len(text) <= self.threshold:
            return text, None
        return base64.urlsafe_b64encode(hashlib.sha1(text.encode()).digest()).decode() + ".c9s", text

    def contents(self, plain):
        size, sealed = {"SIV_GCM": (12, self.by_gcm), "SIV_CTRMAC": (16, self.by_counter_mode)}[self.combo]
        key, nonce = b"content key of 32 bytes in file.", self.drawn(size)
        stored = sealed(self.enc, nonce, b"\xff" * 8 + key, b"", b"")
        for number, start in enumerate(range(0, len(plain), 32768)):
            stored += sealed(key, self.drawn(size), plain[start : start + 32768], nonce, number.to_bytes(8, "big"))
        return stored

    def by_gcm(self, key, nonce, text, header, number):
        return nonce + AESGCM(key).encrypt(nonce, text, number + header)

    def by_counter_mode(self, key, nonce, text, header, number):
        """With a tag by HMAC under the MAC key, whatever the key of the text is."""
        encrypted = nonce + Cipher(algorithms.AES(key), modes.CTR(nonce)).encryptor().update(text)
        return encrypted + hmac.digest(self.mac, header + number + encrypted, "sha256")


class Tree:
    """Entries to be written below a root: folders, and files with their bytes."""

    def __init__(self):
        self.folders, self.files = [], []

    def write(self, root):
        for folder in self.folders:
            os.makedirs(os.path.join(root, folder), exist_ok=True)
        for at, content in self.files:
            with open(os.path.join(root, at), "wb") as file:
                file.write(content)


class GocryptfsTree(Tree):
    def __init__(self, vault):
        super().__init__()
        self.vault, self.ivs = vault, {}

    def root(self, configuration, iv):
        self.files += [("gocryptfs.conf", configuration), ("gocryptfs.diriv", iv)]
        self.ivs[""] = iv

    def entry(self, folder, name):
        entry, text = self.vault.name(self.ivs[folder], name)
        at = f"{folder}/{entry}".lstrip("/")
        if text:
            self.files.append((at + ".name", text.encode()))
        return at

    def directory(self, folder, name, iv):
        at = self.entry(folder, name)
        self.folders.append(at)
        self.files.append((f"{at}/gocryptfs.diriv", iv))
        self.ivs[at] = iv
        return at

    def file(self, folder, name, content):
        at = self.entry(folder, name)
        self.files.append((at, self.vault.contents(content)))
        return at


class CryptomatorTree(Tree):
    """Its folders are named by the ids of directories."""

    def __init__(self, vault):
        super().__init__()
        self.vault = vault

    def content_folder(self, dir_id):
        at = self.vault.folder(dir_id)
        shelf = at.rsplit("/", 1)[0]
        self.folders += [folder for folder in ("d", shelf, at) if folder not in self.folders]
        return at

    def root(self, configurations):
        self.files += zip(("masterkey.cryptomator", "vault.cryptomator"), configurations)
        return self.content_folder(b"")

    def entry(self, dir_id, name, is_folder):
        entry, text = self.vault.name(dir_id, name)
        at = f"{self.vault.folder(dir_id)}/{entry}"
        if text or is_folder:
            self.folders.append(at)
        if text:
            self.files.append((f"{at}/name.c9s", text.encode()))
        return at, text

    def directory(self, dir_id, name, new_id):
        at, _ = self.entry(dir_id, name, True)
        self.files.append((f"{at}/dir.c9r", new_id))
        self.content_folder(new_id)
        return at

    def file(self, dir_id, name, content):
        at, text = self.entry(dir_id, name, False)
        self.files.append((at + "/contents.c9r" if text else at, self.vault.contents(content)))
        return at
